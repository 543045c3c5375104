//! The core of Zevombu: one connection of WebTransport over HTTP/3, turns in, answers out. It does no input or output.
//!
//! What a turn is answered is proved (`crates/wt_ffi` of the repository, and what it stands on); this wrapper is plain Rust over the C
//! functions of `include/zevombu.h`, and keeps their rules: an [`Answer`] borrows its core, so that none is read after the next turn.
//!
//! ```
//! use zevombu::{Core, Datagrams, Refused, Reply, Side, Turn};
//! let mut core = Core::new(Side::Server).unwrap();
//! assert_eq!(core.turn(&Turn::PeerUni).err(), Some(Refused::Unlawful)); // no turn of a server comes before `Connected`
//! let connected = Turn::Connected { uni: 9, bi: 9, credit: 1000, datagrams: Datagrams::Disabled };
//! let answer = core.turn(&connected).unwrap();
//! assert_eq!(answer.reply(), Reply::Done);
//! assert_eq!(answer.actions().count(), 2); // it opens its control stream, and sends its SETTINGS
//! ```
//!
//! An answer can't be read after the next turn:
//!
//! ```compile_fail,E0499
//! use zevombu::{Core, Side, Turn};
//! let mut core = Core::new(Side::Server).unwrap();
//! let stale = core.turn(&Turn::Incoming).unwrap();
//! core.turn(&Turn::Incoming).unwrap();
//! stale.reply();
//! ```

mod answer;
#[allow(dead_code)]
mod raw;
mod turn;

pub use answer::*;
pub use turn::*;

use std::marker::PhantomData;
use std::net::{IpAddr, Ipv4Addr, Ipv6Addr, SocketAddr};
use std::ptr;

/// The version of the C functions that this wrapper is written for.
pub const VERSION: u32 = 1;

/// An end of a connection.
#[derive(Clone, Copy, Debug, PartialEq, Eq)]
pub enum Side {
    Client,
    Server,
}

/// Why a turn has no answer.
#[derive(Clone, Copy, Debug, PartialEq, Eq)]
pub enum Refused {
    /// There is no such turn: an id or a code is 2^62 or more, or a session's id isn't a multiple of 4. Nothing changed.
    Malformed,
    /// The turn may not come now. Nothing changed.
    Unlawful,
    /// There was no memory for the turn. Nothing changed.
    OutOfMemory,
    /// Memory ran out while the turn was answered: no later turn is answered.
    Failed,
}

/// One connection.
pub struct Core {
    raw: raw::Core,
    room: Vec<u8>,
}

// SAFETY: a connection's memory is its own, and each call takes it by `&mut` (crates/wt_handle proves its handle `Send`).
unsafe impl Send for Core {}

/// The answer to a turn. It borrows its core, so no turn is made while it is read.
pub struct Answer<'a> {
    head: raw::ReplyHead,
    core: *mut raw::Core,
    of: PhantomData<&'a mut Core>,
}

impl Core {
    /// A connection before its first turn; `None` where memory is short.
    ///
    /// # Panics
    ///
    /// Where the library that is linked has another version.
    pub fn new(side: Side) -> Option<Core> {
        // SAFETY: these calls have no rules beyond the pointers'.
        assert_eq!(unsafe { raw::zevombu_version() }, VERSION, "another version of the library is linked");
        let mut raw = raw::Core { at: ptr::null_mut() };
        let side = match side {
            Side::Client => 0,
            Side::Server => 1,
        };
        (unsafe { raw::zevombu_new(side, &mut raw) } == 0).then(|| Core { raw, room: Vec::new() })
    }

    /// Makes a turn.
    pub fn turn(&mut self, turn: &Turn<'_>) -> Result<Answer<'_>, Refused> {
        let mut room = std::mem::take(&mut self.room);
        let mut head = raw::ReplyHead::default();
        let status = {
            let (flat, bytes) = turn.flat(&mut room);
            // SAFETY: `self` owns the connection, and no pointer is kept.
            unsafe { raw::zevombu_turn(&mut self.raw, &flat, bytes.as_ptr(), bytes.len(), &mut head) }
        };
        self.room = room;
        match status {
            0 => Ok(Answer { head, core: &mut self.raw, of: PhantomData }),
            1 => Err(Refused::Malformed),
            2 => Err(Refused::Unlawful),
            3 => Err(Refused::OutOfMemory),
            _ => Err(Refused::Failed),
        }
    }
}

impl Drop for Core {
    fn drop(&mut self) {
        // SAFETY: the connection is given up once, here.
        unsafe { raw::zevombu_free(raw::Core { at: self.raw.at }) }
    }
}

fn socket(address: &raw::Address) -> SocketAddr {
    let ip = match address.version {
        4 => IpAddr::V4(Ipv4Addr::from(address.low as u32)),
        _ => IpAddr::V6(Ipv6Addr::from((u128::from(address.high) << 64) | u128::from(address.low))),
    };
    SocketAddr::new(ip, address.port)
}

fn text(bytes: Vec<u8>) -> String {
    String::from_utf8(bytes).expect("the library's texts are UTF-8")
}

impl Answer<'_> {
    /// What the caller is told.
    pub fn reply(&self) -> Reply {
        let h = &self.head;
        match h.kind {
            0 => Reply::Done,
            1 => Reply::Pending,
            2 => Reply::NoSession,
            3 => Reply::NoStream,
            4 => Reply::Request { id: h.number, fields: self.fields() },
            5 => Reply::Session(h.number),
            6 => Reply::Rejected,
            7 => Reply::Uni(h.number),
            8 => Reply::Bi(h.number),
            9 => Reply::Opening(h.number),
            10 => Reply::SendReady(h.number),
            11 => Reply::BiReady(h.number),
            12 => Reply::Id(h.number),
            13 => Reply::Datagram(self.bytes()),
            14 => Reply::Size((h.choice == 1).then_some(h.number)),
            15 => Reply::Written(h.number),
            16 => Reply::AllWritten,
            17 => Reply::Count(h.number),
            18 => Reply::Finished,
            19 => Reply::Priority(h.priority),
            20 => Reply::ClosedStream,
            21 => Reply::Read((h.choice == 1).then(|| self.bytes())),
            22 => Reply::Exact(self.bytes()),
            23 => Reply::Failed(self.ended()),
            24 => Reply::Closed(self.ended()),
            25 => Reply::ConnectFailed(self.connect_failed()),
            26 => Reply::OpeningFailed(if h.choice == 0 { OpeningFailed::NotConnected } else { OpeningFailed::Refused }),
            27 => Reply::WriteFailed(self.write_failed()),
            28 => Reply::StoppedBy(self.write_failed()),
            29 => Reply::ReadFailed(self.read_failed()),
            30 if h.choice == 0 => Reply::ExactFailed(ExactFailed::FinishedEarly(h.number), self.bytes()),
            30 => Reply::ExactFailed(ExactFailed::Read(self.read_failed()), self.bytes()),
            _ => Reply::DatagramFailed(match h.choice {
                0 => DatagramFailed::NotConnected,
                1 => DatagramFailed::UnsupportedByPeer,
                2 => DatagramFailed::TooLarge,
                _ => DatagramFailed::Disabled,
            }),
        }
    }

    /// What the transport has to do, in this order.
    pub fn actions(&self) -> impl Iterator<Item = Action> + '_ {
        (0..self.head.actions as usize).map(|index| self.action(index))
    }

    /// The bytes of the reply.
    pub fn bytes(&self) -> Vec<u8> {
        let mut room = vec![0; self.head.length as usize];
        // SAFETY: the answer borrows the core, which lives.
        unsafe { raw::zevombu_reply(self.core, room.as_mut_ptr(), room.len()) };
        room
    }

    fn fields(&self) -> Vec<(String, String)> {
        (0..self.head.fields as usize).map(|index| self.field(index)).collect()
    }

    fn field(&self, index: usize) -> (String, String) {
        let mut head = raw::FieldHead::default();
        // SAFETY: as in `bytes`; without room nothing but the head is written.
        unsafe { raw::zevombu_field(self.core, index, &mut head, ptr::null_mut(), 0) };
        let mut room = vec![0; (head.name + head.value) as usize];
        unsafe { raw::zevombu_field(self.core, index, &mut head, room.as_mut_ptr(), room.len()) };
        let value = room.split_off(head.name as usize);
        (text(room), text(value))
    }

    fn action(&self, index: usize) -> Action {
        let mut head = raw::ActionHead::default();
        // SAFETY: as in `field`.
        unsafe { raw::zevombu_action(self.core, index, &mut head, ptr::null_mut(), 0) };
        let mut bytes = vec![0; head.length as usize];
        if !bytes.is_empty() {
            unsafe { raw::zevombu_action(self.core, index, &mut head, bytes.as_mut_ptr(), bytes.len()) };
        }
        let (id, code) = (head.id, head.code);
        match head.kind {
            0 => Action::Dial { address: socket(&head.address), name: text(bytes) },
            1 => Action::Opened { id },
            2 => Action::Send { id, bytes },
            3 => Action::Finish { id },
            4 => Action::Reset { id, code },
            5 => Action::Stop { id, code },
            6 => Action::Datagram(bytes),
            _ => Action::Close { code, reason: bytes },
        }
    }

    fn ended(&self) -> Ended {
        let code = self.head.number;
        match self.head.cause {
            0 => Ended::ConnectionClosed { code, reason: self.bytes() },
            1 => Ended::ApplicationClosed { code, reason: self.bytes() },
            2 => Ended::LocallyClosed,
            3 => Ended::LocalH3Error { code },
            4 => Ended::TimedOut,
            5 => Ended::QuicProto { code: (self.head.has_code == 1).then_some(code), reason: text(self.bytes()) },
            _ => Ended::CidsExhausted,
        }
    }

    fn connect_failed(&self) -> ConnectFailed {
        match self.head.choice {
            0 if self.head.cause == 0 => ConnectFailed::InvalidUrl,
            0 => ConnectFailed::InvalidScheme,
            1 => ConnectFailed::DnsLookup(text(self.bytes())),
            2 => ConnectFailed::DnsNotFound,
            3 => ConnectFailed::Connection(self.ended()),
            4 => ConnectFailed::SessionRejected,
            5 => ConnectFailed::ReservedHeader(text(self.bytes())),
            6 => ConnectFailed::EndpointStopping,
            7 => ConnectFailed::CidsExhausted,
            8 => ConnectFailed::InvalidServerName(text(self.bytes())),
            _ => ConnectFailed::InvalidRemoteAddress(socket(&self.head.address)),
        }
    }

    fn write_failed(&self) -> WriteFailed {
        match self.head.choice {
            0 => WriteFailed::NotConnected,
            1 => WriteFailed::Closed,
            2 => WriteFailed::Stopped(self.head.number),
            _ => WriteFailed::QuicProto,
        }
    }

    fn read_failed(&self) -> ReadFailed {
        match self.head.cause {
            0 => ReadFailed::NotConnected,
            1 => ReadFailed::Reset(self.head.number),
            _ => ReadFailed::QuicProto,
        }
    }
}
