//! What the server does on a connection: it accepts sessions on `/echo`, echoes their streams and datagrams, and does what a datagram
//! that begins with `!` says.

use crate::pipe::Pipe;
use crate::PlainHeaders;
use std::collections::{BTreeMap, BTreeSet};
use std::time::{Duration, Instant};
use zevombu::{Ended, Refused, Reply, Turn};
use zevombu_quinn::{Application, Calls};

/// How long a connection stays on which no session lives any more: nobody else closes it.
const IDLE: Duration = Duration::from_secs(2);
/// H3_NO_ERROR, with which it is closed then.
const NO_ERROR: u64 = 0x100;

/// The request that is asked for, or answered.
enum Handshake {
    Asking,
    Answering {
        id: u64,
        path: String,
    },
    /// None comes any more.
    Over,
}

/// How the application leaves a session.
#[derive(Clone, Debug, PartialEq, Eq)]
enum Leave {
    /// Without a code: only the session's stream ends.
    Plainly,
    With {
        code: u32,
        reason: String,
    },
    /// With the whole connection.
    Connection {
        code: u64,
        reason: String,
    },
}

/// The application of one connection.
pub struct Echo {
    name: String,
    handshake: Handshake,
    /// The paths of the sessions that live.
    sessions: BTreeMap<u64, String>,
    had_sessions: bool,
    /// By the stream that they read, or else write.
    pipes: BTreeMap<u64, Pipe>,
    /// Of those that read one stream and write another, the first by the second.
    sinks: BTreeMap<u64, u64>,
    /// Those that have no stream yet.
    unnamed: Vec<Pipe>,
    /// Those that go on at the next poll, whatever happens.
    moving: BTreeSet<u64>,
    idle_since: Option<Instant>,
}

fn shown(ended: &Ended) -> String {
    match ended {
        Ended::ApplicationClosed { code, reason } => {
            format!("the peer closed it with code {code}, reason {:?}", String::from_utf8_lossy(reason))
        }
        other => format!("{other:?}"),
    }
}

/// What a datagram asks for: `!uni`, `!bi`, `!end`, `!close CODE REASON`, `!quic CODE REASON`.
enum Command {
    Open { is_bidirectional: bool },
    Leave(Leave),
}

fn command(payload: &[u8]) -> Option<Command> {
    let text = std::str::from_utf8(payload).ok()?;
    let mut words = text.splitn(3, ' ');
    let name = words.next()?;
    let code = words.next().and_then(|word| word.parse().ok()).unwrap_or(0);
    let reason = words.next().unwrap_or("").to_string();
    match name {
        "!uni" => Some(Command::Open { is_bidirectional: false }),
        "!bi" => Some(Command::Open { is_bidirectional: true }),
        "!end" => Some(Command::Leave(Leave::Plainly)),
        "!close" => Some(Command::Leave(Leave::With { code, reason })),
        "!quic" => Some(Command::Leave(Leave::Connection { code: code.into(), reason })),
        _ => None,
    }
}

impl Echo {
    /// An application whose lines begin with this name.
    pub fn new(name: String) -> Echo {
        Echo {
            name,
            handshake: Handshake::Asking,
            sessions: BTreeMap::new(),
            had_sessions: false,
            pipes: BTreeMap::new(),
            sinks: BTreeMap::new(),
            unnamed: Vec::new(),
            moving: BTreeSet::new(),
            idle_since: None,
        }
    }

    fn say(&self, line: &str) {
        println!("[{}] {line}", self.name);
    }

    /// Asks for requests, and answers them, until none waits.
    fn answer_requests(&mut self, calls: &mut Calls<'_, PlainHeaders>) -> Result<(), Refused> {
        loop {
            let (id, reply) = match &self.handshake {
                Handshake::Over => return Ok(()),
                Handshake::Answering { id, .. } => (*id, calls.make(&Turn::Handshake)?),
                Handshake::Asking => match self.ask(calls)? {
                    Some(begun) => begun,
                    None => return Ok(()),
                },
            };
            if reply == Reply::Pending {
                return Ok(());
            }
            self.answered(id, &reply);
        }
    }

    /// Asks for a request, and begins the answer to it.
    fn ask(&mut self, calls: &mut Calls<'_, PlainHeaders>) -> Result<Option<(u64, Reply)>, Refused> {
        let (id, fields) = match calls.make(&Turn::Incoming)? {
            Reply::Request { id, fields } => (id, fields),
            Reply::Pending => return Ok(None),
            other => {
                self.say(&format!("no further session: {other:?}"));
                self.handshake = Handshake::Over;
                return Ok(None);
            }
        };
        let path = fields.into_iter().find(|(name, _)| name == ":path").map_or_else(String::new, |(_, value)| value);
        let is_known = path.split('?').next() == Some("/echo");
        let reply = calls.make(if is_known { &Turn::Accept(&[]) } else { &Turn::NotFound })?;
        self.handshake = Handshake::Answering { id, path };
        Ok(Some((id, reply)))
    }

    fn answered(&mut self, id: u64, reply: &Reply) {
        let answering = std::mem::replace(&mut self.handshake, Handshake::Asking);
        let path = match answering {
            Handshake::Answering { path, .. } => path,
            Handshake::Asking | Handshake::Over => String::new(),
        };
        let shown: String = path.chars().take(60).collect();
        self.say(&format!("request {id} for {shown:?}: {reply:?}"));
        if let Reply::Session(session) = reply {
            self.sessions.insert(*session, path);
            self.had_sessions = true;
        }
    }

    /// Takes what came for a session; whether something did.
    fn take(&mut self, calls: &mut Calls<'_, PlainHeaders>, session: u64) -> Result<bool, Refused> {
        let mut goes_on = false;
        loop {
            match calls.make(&Turn::AcceptUni(Some(session)))? {
                Reply::Uni(id) => self.add(id, Pipe::answer(session, id, "echo: ")),
                Reply::Failed(ended) => {
                    self.end(session, &ended);
                    return Ok(true);
                }
                _ => break,
            }
            goes_on = true;
        }
        while let Reply::Bi(id) = calls.make(&Turn::AcceptBi(Some(session)))? {
            self.add(id, Pipe::echo(session, id));
            goes_on = true;
        }
        while let Reply::Datagram(payload) = calls.make(&Turn::ReceiveDatagram(Some(session)))? {
            self.datagram(calls, session, &payload)?;
            goes_on = true;
        }
        Ok(goes_on)
    }

    fn add(&mut self, id: u64, pipe: Pipe) {
        self.pipes.insert(id, pipe);
        self.moving.insert(id);
    }

    fn datagram(&mut self, calls: &mut Calls<'_, PlainHeaders>, session: u64, payload: &[u8]) -> Result<(), Refused> {
        self.say(&format!("datagram of session {session}: {:?}", String::from_utf8_lossy(payload)));
        let echoed = [b"echo: ", payload].concat();
        calls.make(&Turn::SendDatagram { payload: &echoed, session: Some(session) })?;
        match command(payload) {
            Some(Command::Open { is_bidirectional: false }) => {
                self.unnamed.push(Pipe::text(session, false, "a unidirectional stream of the server"));
            }
            Some(Command::Open { is_bidirectional: true }) => {
                self.unnamed.push(Pipe::text(session, true, "a bidirectional stream of the server"));
            }
            Some(Command::Leave(leave)) => self.leave(calls, session, &leave)?,
            None => {}
        }
        Ok(())
    }

    fn leave(&mut self, calls: &mut Calls<'_, PlainHeaders>, session: u64, leave: &Leave) -> Result<(), Refused> {
        let reply = match leave {
            Leave::Plainly => calls.make(&Turn::EndSession(Some(session)))?,
            Leave::With { code, reason } => calls.end_session(session, *code, reason)?,
            Leave::Connection { code, reason } => calls.make(&Turn::Close { code: *code, reason: reason.as_bytes() })?,
        };
        self.say(&format!("session {session} is left, {leave:?}: {reply:?}"));
        Ok(())
    }

    fn end(&mut self, session: u64, ended: &Ended) {
        let path = self.sessions.remove(&session).unwrap_or_default();
        let path: String = path.chars().take(60).collect();
        self.say(&format!("session {session} on {path:?} ended: {}", shown(ended)));
        self.pipes.retain(|_, pipe| pipe.session != session);
        self.unnamed.retain(|pipe| pipe.session != session);
        let pipes = &self.pipes;
        self.sinks.retain(|_, key| pipes.contains_key(key));
    }

    /// Opens streams for the pipes that have none.
    fn name_pipes(&mut self, calls: &mut Calls<'_, PlainHeaders>) -> Result<(), Refused> {
        for mut pipe in std::mem::take(&mut self.unnamed) {
            let is_done = pipe.go_on(calls)?;
            match pipe.sink() {
                Some(id) => self.add(id, pipe),
                None if !is_done => self.unnamed.push(pipe),
                None => {}
            }
        }
        Ok(())
    }

    fn go_on(&mut self, calls: &mut Calls<'_, PlainHeaders>, key: u64) -> Result<(), Refused> {
        let pipe = match self.pipes.get_mut(&key) {
            Some(pipe) => pipe,
            None => return Ok(()),
        };
        let is_done = pipe.go_on(calls)?;
        let (received, sink, is_opening) = (pipe.received(), pipe.sink(), pipe.is_opening());
        if is_done {
            self.pipes.remove(&key);
            sink.map(|id| self.sinks.remove(&id));
            self.say(&format!("stream {key}: done, {received} bytes came"));
            return Ok(());
        }
        if is_opening {
            self.moving.insert(key);
        }
        if let Some(id) = sink.filter(|id| *id != key) {
            self.sinks.insert(id, key);
        }
        Ok(())
    }

    /// Goes on with the pipes that something happened to, or that wait for a stream.
    fn move_on(&mut self, calls: &mut Calls<'_, PlainHeaders>) -> Result<(), Refused> {
        let mut keys = std::mem::take(&mut self.moving);
        keys.extend(calls.take_news().into_iter().map(|id| self.sinks.get(&id).copied().unwrap_or(id)));
        for key in keys {
            self.go_on(calls, key)?;
        }
        Ok(())
    }

    /// Closes the connection where no session has lived on it for a while.
    fn close_if_idle(&mut self, calls: &mut Calls<'_, PlainHeaders>) -> Result<(), Refused> {
        let is_idle =
            self.had_sessions && self.sessions.is_empty() && matches!(self.handshake, Handshake::Asking) && !calls.is_over();
        self.idle_since = if is_idle { self.idle_since.or_else(|| Some(calls.now())) } else { None };
        if self.idle_since.map_or(false, |since| calls.now() >= since + IDLE) {
            self.say("no session lives any more: the connection is closed");
            calls.make(&Turn::EndpointClose { code: NO_ERROR, reason: b"" })?;
            self.idle_since = None;
        }
        Ok(())
    }
}

impl Application for Echo {
    type Adapter = PlainHeaders;

    fn poll(&mut self, calls: &mut Calls<'_, PlainHeaders>) -> Result<bool, Refused> {
        self.answer_requests(calls)?;
        let mut goes_on = false;
        for session in self.sessions.keys().copied().collect::<Vec<_>>() {
            goes_on |= self.take(calls, session)?;
        }
        self.name_pipes(calls)?;
        self.move_on(calls)?;
        self.close_if_idle(calls)?;
        Ok(goes_on)
    }

    fn deadline(&self) -> Option<Instant> {
        self.idle_since.map(|since| since + IDLE)
    }

    fn gone(&mut self, turns: u64, refused: Option<Refused>) {
        match refused {
            Some(refused) => {
                self.say(&format!("the connection is gone after {turns} turns, the last of which was refused: {refused:?}"))
            }
            None => self.say(&format!("the connection is gone after {turns} turns")),
        }
    }
}
