//! The calls of an application.

use crate::{Adapter, Link, Plain};
use quinn_proto::Connection;
use std::collections::BTreeSet;
use std::time::Instant;
use zevombu::{Refused, Reply, Turn};

/// How an application makes its calls on a link.
pub struct Calls<'a, A = Plain> {
    link: &'a mut Link<A>,
    quic: &'a mut Connection,
    now: Instant,
}

impl<'a, A: Adapter> Calls<'a, A> {
    /// The calls on this link and its connection.
    pub fn new(link: &'a mut Link<A>, quic: &'a mut Connection, now: Instant) -> Calls<'a, A> {
        Calls { link, quic, now }
    }

    /// The time of this round.
    pub fn now(&self) -> Instant {
        self.now
    }

    /// Whether the connection is closed, or will be.
    pub fn is_over(&self) -> bool {
        self.link.is_over()
    }

    /// Makes a call; its actions are done on QUIC. Events are the link's own to make.
    pub fn make(&mut self, call: &Turn<'_>) -> Result<Reply, Refused> {
        self.link.call(self.quic, self.now, call)
    }

    /// Ends a session with a code and a reason, which is cut at 1,024 bytes. They go out in a capsule of the link's, since the core
    /// has none: its `EndSession` ends the session's stream, which the peer takes for code 0 without a reason.
    pub fn end_session(&mut self, session: u64, code: u32, reason: &str) -> Result<Reply, Refused> {
        self.link.close_capsule(session, code, reason);
        self.make(&Turn::EndSession(Some(session)))
    }

    /// The streams on which something happened since this was last asked: bytes, an end, credit, a stop, an acknowledgement.
    pub fn take_news(&mut self) -> BTreeSet<u64> {
        self.link.take_news()
    }
}
