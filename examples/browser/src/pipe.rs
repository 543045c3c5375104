//! Bytes on their way from one stream to another, or back on the same one, no faster than they are taken.

use zevombu::{ReadFailed, Refused, Reply, Turn};
use zevombu_quinn::{Adapter, Calls};

/// How many bytes are read at once: no more is read until they are written.
const PIECE: u64 = 16 * 1024;
/// The code with which a stream is reset whose other half was.
const CUT: u64 = 9;

/// Where the bytes go.
enum Sink {
    /// A stream of this end's that isn't opened yet.
    Wanted {
        is_bidirectional: bool,
    },
    Opening(u64),
    Open(u64),
    /// Finished, reset or stopped.
    Closed,
}

/// Where they come from.
enum Source {
    None,
    Stream(u64),
    Ended,
}

/// One such way.
pub struct Pipe {
    pub session: u64,
    source: Source,
    sink: Sink,
    named: Option<u64>,
    buffer: Vec<u8>,
    /// Nothing follows what is in the buffer.
    is_last: bool,
    received: u64,
}

impl Pipe {
    /// Writes what comes on a bidirectional stream back on it.
    pub fn echo(session: u64, id: u64) -> Pipe {
        Pipe { source: Source::Stream(id), sink: Sink::Open(id), named: Some(id), ..Pipe::new(session) }
    }

    /// Writes a text, and then what comes on a stream of the peer's, on a unidirectional stream of this end's.
    pub fn answer(session: u64, id: u64, text: &str) -> Pipe {
        let buffer = text.as_bytes().to_vec();
        Pipe { source: Source::Stream(id), buffer, ..Pipe::new(session) }
    }

    /// Writes a text on a stream of this end's.
    pub fn text(session: u64, is_bidirectional: bool, text: &str) -> Pipe {
        let buffer = text.as_bytes().to_vec();
        Pipe { sink: Sink::Wanted { is_bidirectional }, buffer, is_last: true, ..Pipe::new(session) }
    }

    fn new(session: u64) -> Pipe {
        let sink = Sink::Wanted { is_bidirectional: false };
        Pipe { session, source: Source::None, sink, named: None, buffer: Vec::new(), is_last: false, received: 0 }
    }

    /// Whether it waits for its stream, which nothing reports.
    pub fn is_opening(&self) -> bool {
        matches!(self.sink, Sink::Wanted { .. } | Sink::Opening(_))
    }

    /// The stream that it writes on, or wrote.
    pub fn sink(&self) -> Option<u64> {
        self.named
    }

    /// How many bytes came.
    pub fn received(&self) -> u64 {
        self.received
    }

    fn is_done(&self) -> bool {
        matches!((&self.source, &self.sink), (Source::None | Source::Ended, Sink::Closed))
    }

    /// Goes on as far as it can; whether all is done.
    pub fn go_on<A: Adapter>(&mut self, calls: &mut Calls<'_, A>) -> Result<bool, Refused> {
        self.open(calls)?;
        loop {
            let is_written = self.write(calls)?;
            if self.is_done() {
                return Ok(true);
            }
            if !is_written || !self.read(calls)? {
                return Ok(false);
            }
        }
    }

    fn open<A: Adapter>(&mut self, calls: &mut Calls<'_, A>) -> Result<(), Refused> {
        if let Sink::Wanted { is_bidirectional } = self.sink {
            let session = Some(self.session);
            let call = if is_bidirectional { Turn::OpenBi(session) } else { Turn::OpenUni(session) };
            match calls.make(&call)? {
                Reply::Opening(id) => {
                    self.sink = Sink::Opening(id);
                    self.named = Some(id);
                }
                Reply::Pending => {}
                _ => self.sink = Sink::Closed,
            }
        }
        if let Sink::Opening(id) = self.sink {
            match calls.make(&Turn::PollOpening { id })? {
                Reply::SendReady(_) => self.sink = Sink::Open(id),
                Reply::BiReady(_) => {
                    self.sink = Sink::Open(id);
                    self.source = Source::Stream(id);
                }
                Reply::Pending => {}
                _ => self.sink = Sink::Closed,
            }
        }
        Ok(())
    }

    /// Writes the buffer, and the end behind it; whether there is room for more.
    fn write<A: Adapter>(&mut self, calls: &mut Calls<'_, A>) -> Result<bool, Refused> {
        let id = match self.sink {
            Sink::Open(id) => id,
            Sink::Wanted { .. } | Sink::Opening(_) => return Ok(false),
            Sink::Closed => {
                self.buffer.clear();
                return Ok(true);
            }
        };
        while !self.buffer.is_empty() {
            match calls.make(&Turn::Write { id, bytes: &self.buffer })? {
                Reply::Written(count) => drop(self.buffer.drain(..count as usize)),
                Reply::Pending => return Ok(false),
                // The peer stopped it: what comes is read, and goes nowhere.
                _ => {
                    self.sink = Sink::Closed;
                    return Ok(true);
                }
            }
        }
        if self.is_last {
            calls.make(&Turn::Finish { id })?;
            self.sink = Sink::Closed;
        }
        Ok(true)
    }

    /// Reads one piece; whether something came.
    fn read<A: Adapter>(&mut self, calls: &mut Calls<'_, A>) -> Result<bool, Refused> {
        let id = match self.source {
            Source::Stream(id) => id,
            Source::None | Source::Ended => return Ok(false),
        };
        match calls.make(&Turn::Read { id, size: PIECE })? {
            Reply::Read(Some(bytes)) => {
                self.received += bytes.len() as u64;
                if !self.is_last {
                    self.buffer = bytes;
                }
                return Ok(true);
            }
            Reply::Read(None) => self.is_last = true,
            Reply::Pending => return Ok(false),
            Reply::ReadFailed(ReadFailed::Reset(_)) => self.cut(calls)?,
            _ => self.sink = Sink::Closed,
        }
        self.source = Source::Ended;
        Ok(true)
    }

    fn cut<A: Adapter>(&mut self, calls: &mut Calls<'_, A>) -> Result<(), Refused> {
        if let Sink::Opening(id) | Sink::Open(id) = self.sink {
            calls.make(&Turn::ResetSend { id, code: CUT })?;
        }
        self.sink = Sink::Closed;
        Ok(())
    }
}
