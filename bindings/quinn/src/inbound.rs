//! The receiving half of a stream: what is known of it, and how much of it the application has still to read.

use crate::varint::read_varint;
use crate::WINDOW;

/// The first bytes of a session's stream, as integers (draft-ietf-webtrans-http3, sections 4.2 and 4.3).
const UNI_SIGNAL: u64 = 0x54;
const BI_SIGNAL: u64 = 0x41;

/// As many of a stream's first bytes as the header of its first frame has at most.
#[derive(Default)]
struct Prefix {
    bytes: [u8; 16],
    length: usize,
    total: u64,
}

impl Prefix {
    fn add(&mut self, bytes: &[u8]) {
        let room = &mut self.bytes[self.length..];
        let taken = room.len().min(bytes.len());
        room[..taken].copy_from_slice(&bytes[..taken]);
        self.length += taken;
        self.total += bytes.len() as u64;
    }

    fn known(&self) -> &[u8] {
        &self.bytes[..self.length]
    }

    /// The type of the stream or of its first frame.
    fn signal(&self) -> Option<u64> {
        read_varint(self.known()).map(|(signal, _)| signal)
    }

    /// Whether the id of a session that follows the signal is whole.
    fn has_session(&self) -> bool {
        read_varint(self.known()).map_or(false, |(_, rest)| read_varint(rest).is_some())
    }

    fn has_whole_frame(&self) -> bool {
        let frame = read_varint(self.known()).and_then(|(_, rest)| read_varint(rest));
        frame.map_or(false, |(length, rest)| {
            let header = (self.length - rest.len()) as u64;
            self.total >= header + length
        })
    }
}

/// Whose bytes they are.
enum Reader {
    /// Not known yet: the header isn't whole.
    Unknown(Prefix),
    /// The core's: frames, or a stream of HTTP/3's own.
    Core(Prefix),
    /// The application's.
    Application,
}

/// The receiving half of a stream that hasn't ended.
pub(crate) struct Inbound {
    reader: Reader,
    is_bidirectional: bool,
    unread: u64,
    /// Whether bytes are left with QUIC until the application has read.
    pub is_held_back: bool,
    /// Whether it waits for its turn to be read.
    pub is_queued: bool,
}

impl Inbound {
    /// A stream of the peer's.
    pub fn of_peer(is_bidirectional: bool) -> Inbound {
        Inbound::new(Reader::Unknown(Prefix::default()), is_bidirectional)
    }

    /// A bidirectional stream of this end's, which the core reads until the application has it.
    pub fn of_this_end() -> Inbound {
        Inbound::new(Reader::Core(Prefix::default()), true)
    }

    fn new(reader: Reader, is_bidirectional: bool) -> Inbound {
        Inbound { reader, is_bidirectional, unread: 0, is_held_back: false, is_queued: false }
    }

    /// It is the application's from now on.
    pub fn give(&mut self) {
        self.reader = Reader::Application;
    }

    /// Bytes came from QUIC.
    pub fn learn(&mut self, bytes: &[u8]) {
        let signal = if self.is_bidirectional { BI_SIGNAL } else { UNI_SIGNAL };
        match &mut self.reader {
            Reader::Unknown(prefix) => {
                prefix.add(bytes);
                match prefix.signal() {
                    Some(found) if found != signal => self.reader = Reader::Core(std::mem::take(prefix)),
                    Some(_) if prefix.has_session() => self.reader = Reader::Application,
                    _ => {}
                }
            }
            Reader::Core(prefix) => prefix.add(bytes),
            Reader::Application => {}
        }
    }

    /// Whether the core reads it.
    pub fn is_of_core(&self) -> bool {
        matches!(self.reader, Reader::Core(_))
    }

    /// Whether the application reads it, or will.
    pub fn is_of_application(&self) -> bool {
        matches!(self.reader, Reader::Application)
    }

    /// Whether it ended before it was clear what it is for, so that the core does nothing with it.
    pub fn is_cut_short(&self) -> bool {
        match &self.reader {
            Reader::Unknown(_) => true,
            Reader::Core(prefix) => !prefix.has_whole_frame(),
            Reader::Application => false,
        }
    }

    /// How many more bytes the core may be given.
    pub fn room(&self) -> u64 {
        WINDOW.saturating_sub(self.unread)
    }

    /// The core was given so many bytes.
    pub fn delivered(&mut self, count: usize) {
        if self.is_of_application() {
            self.unread += count as u64;
        }
    }

    /// The application read so many; whether QUIC is to be asked for more.
    pub fn consumed(&mut self, count: usize) -> bool {
        self.unread = self.unread.saturating_sub(count as u64);
        let resumes = self.is_held_back && self.unread <= WINDOW / 2;
        self.is_held_back &= !resumes;
        resumes
    }
}

#[cfg(test)]
mod tests {
    use super::*;

    #[test]
    fn a_stream_is_told_by_its_first_bytes() {
        let mut stream = Inbound::of_peer(true);
        assert!(stream.is_cut_short());
        stream.learn(&[0x40]);
        assert!(stream.is_cut_short() && !stream.is_of_application());
        stream.learn(&[0x41, 0x40]);
        assert!(stream.is_cut_short() && !stream.is_of_application());
        stream.learn(&[4, 0]);
        assert!(stream.is_of_application() && !stream.is_cut_short());
    }

    #[test]
    fn a_request_is_whole_with_its_first_frame() {
        let mut stream = Inbound::of_peer(true);
        stream.learn(&[0x01, 0x03, 0, 0]);
        assert!(stream.is_cut_short());
        stream.learn(&[0]);
        assert!(!stream.is_cut_short() && stream.is_of_core());
    }

    #[test]
    fn what_is_unread_is_bounded() {
        let mut stream = Inbound::of_peer(false);
        stream.learn(&[0x40, 0x54, 0]);
        stream.delivered(WINDOW as usize);
        assert_eq!(stream.room(), 0);
        stream.is_held_back = true;
        assert!(!stream.consumed(1));
        assert!(stream.consumed(WINDOW as usize / 2));
    }
}
