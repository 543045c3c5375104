//! The sending half of a stream: what waits for QUIC, and the credit that the core was told of.

use crate::WINDOW;
use bytes::Bytes;
use quinn_proto::{SendStream, WriteError};
use std::collections::VecDeque;

/// Where a sending half is.
#[derive(Clone, Copy, PartialEq, Eq)]
enum Phase {
    Open,
    /// FIN follows what waits.
    Finishing,
    /// QUIC has the FIN.
    Finished,
}

/// A sending half that was neither reset nor acknowledged.
pub(crate) struct Outbound {
    waiting: VecDeque<Bytes>,
    phase: Phase,
    taken: u64,
    told: u64,
}

impl Default for Outbound {
    fn default() -> Outbound {
        Outbound { waiting: VecDeque::new(), phase: Phase::Open, taken: 0, told: WINDOW }
    }
}

impl Outbound {
    /// Adds bytes behind what waits.
    pub fn push(&mut self, bytes: Bytes) {
        if !bytes.is_empty() {
            self.waiting.push_back(bytes);
        }
    }

    /// Nothing follows.
    pub fn finish(&mut self) {
        if self.phase == Phase::Open {
            self.phase = Phase::Finishing;
        }
    }

    /// Whether more may be written.
    pub fn is_open(&self) -> bool {
        self.phase == Phase::Open
    }

    /// Whether QUIC has all of it.
    pub fn is_finished(&self) -> bool {
        self.phase == Phase::Finished
    }

    /// QUIC takes what it can; false where it doesn't know the stream any more.
    pub fn flush(&mut self, stream: &mut SendStream<'_>) -> bool {
        while let Some(first) = self.waiting.front_mut() {
            match stream.write_chunks(std::slice::from_mut(first)) {
                Ok(written) => self.taken += written.bytes as u64,
                Err(WriteError::Blocked) => return true,
                Err(_) => return false,
            }
            if first.is_empty() {
                self.waiting.pop_front();
            }
        }
        if self.phase == Phase::Finishing {
            self.phase = Phase::Finished;
            return stream.finish().is_ok();
        }
        true
    }

    /// The credit that the core is to be told of, once QUIC took half of a window since it was last told.
    pub fn renewed(&mut self) -> Option<u64> {
        let total = self.taken + WINDOW;
        if self.phase != Phase::Open || total < self.told + WINDOW / 2 {
            return None;
        }
        self.told = total;
        Some(total)
    }
}
