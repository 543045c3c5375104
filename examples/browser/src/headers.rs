//! The adapter of requests: each HEADERS frame goes on to the core with literal lines alone, all else as it came.

use crate::qpack::{decode, encode};
use bytes::Bytes;
use std::collections::BTreeMap;
use zevombu_quinn::{put_varint, read_varint, Adapter};

const HEADERS: u64 = 0x01;
const WEBTRANSPORT_STREAM: u64 = 0x41;
/// The core itself refuses longer ones.
const LONGEST: u64 = 4096;

/// A stream of a request, up to where it is.
#[derive(Default)]
struct Frames {
    /// Bytes of a frame that isn't whole.
    held: Vec<u8>,
    /// How many bytes of the frame before go on as they come.
    passing: u64,
    /// No frames follow.
    is_raw: bool,
}

/// What is next.
enum Next {
    /// So many bytes, as they came.
    Pass(u64),
    /// A HEADERS frame of so many bytes, made plain.
    Plain(usize, Vec<u8>),
    /// The stream's rest.
    All,
    /// More is needed.
    Wait,
}

impl Frames {
    fn push(&mut self, bytes: &[u8]) -> Vec<u8> {
        self.held.extend(bytes);
        let mut out = Vec::new();
        loop {
            let count = (self.held.len() as u64).min(self.passing);
            out.extend(self.held.drain(..count as usize));
            self.passing -= count;
            if self.is_raw {
                out.append(&mut self.held);
            }
            if self.held.is_empty() || self.passing > 0 {
                return out;
            }
            match self.next() {
                Next::Pass(length) => self.passing = length,
                Next::Plain(length, plain) => {
                    self.held.drain(..length);
                    out.extend(plain);
                }
                Next::All => self.is_raw = true,
                Next::Wait => return out,
            }
        }
    }

    /// Looks at the frame that begins what is held.
    fn next(&self) -> Next {
        let (kind, rest) = match read_varint(&self.held) {
            Some(found) => found,
            None => return Next::Wait,
        };
        if kind == WEBTRANSPORT_STREAM {
            return Next::All;
        }
        let (length, rest) = match read_varint(rest) {
            Some(found) => found,
            None => return Next::Wait,
        };
        let whole = (self.held.len() - rest.len()) as u64 + length;
        if kind != HEADERS || length > LONGEST {
            return Next::Pass(whole);
        }
        match rest.get(..length as usize).map(decode) {
            None => Next::Wait,
            // The core can't read it either, and refuses it.
            Some(None) => Next::Pass(whole),
            Some(Some(lines)) => Next::Plain(whole as usize, headers_frame(&encode(&lines))),
        }
    }
}

fn headers_frame(section: &[u8]) -> Vec<u8> {
    let mut out = Vec::new();
    put_varint(HEADERS, &mut out);
    put_varint(section.len() as u64, &mut out);
    out.extend(section);
    out
}

/// Makes the field sections of a connection's requests plain.
#[derive(Default)]
pub struct PlainHeaders {
    streams: BTreeMap<u64, Frames>,
}

impl Adapter for PlainHeaders {
    fn received(&mut self, id: u64, bytes: Bytes) -> Bytes {
        self.streams.entry(id).or_default().push(&bytes).into()
    }

    fn ended(&mut self, id: u64) -> Bytes {
        self.streams.remove(&id).map_or_else(Bytes::new, |frames| frames.held.into())
    }
}

#[cfg(test)]
mod tests {
    use super::*;

    /// A GREASE frame, a request with static entries, and a DATA frame.
    const STREAM: [u8; 13] = [0x21, 0x01, 0xaa, 0x01, 0x04, 0x00, 0x00, 0xcf, 0xd7, 0x00, 0x02, 0x07, 0x08];

    fn plain() -> Vec<u8> {
        let lines = vec![(b":method".to_vec(), b"CONNECT".to_vec()), (b":scheme".to_vec(), b"https".to_vec())];
        [&STREAM[..3], &headers_frame(&encode(&lines)), &STREAM[9..]].concat()
    }

    #[test]
    fn headers_are_made_plain_wherever_they_are_cut() {
        for cut in 0..=STREAM.len() {
            let mut adapter = PlainHeaders::default();
            let first = adapter.received(0, Bytes::from_static(&STREAM[..cut]));
            let second = adapter.received(0, Bytes::from_static(&STREAM[cut..]));
            assert_eq!([first, second].concat(), plain(), "cut at {cut}");
            assert!(adapter.ended(0).is_empty());
        }
    }

    #[test]
    fn a_stream_of_a_session_goes_on_as_it_is() {
        let mut adapter = PlainHeaders::default();
        let bytes = Bytes::from_static(&[0x40, 0x41, 0x00, 0x01, 0x04, 0x00]);
        assert_eq!(adapter.received(4, bytes.clone()), bytes);
    }

    #[test]
    fn what_is_not_whole_comes_at_the_end() {
        let mut adapter = PlainHeaders::default();
        assert!(adapter.received(0, Bytes::from_static(&[0x01, 0x04, 0x00])).is_empty());
        assert_eq!(adapter.ended(0), Bytes::from_static(&[0x01, 0x04, 0x00]));
    }
}
