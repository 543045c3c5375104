//! One connection: the transport's events as turns, and the actions of their answers as calls of quinn-proto.

use crate::codes::to_http3;
use crate::inbound::Inbound;
use crate::outbound::Outbound;
use crate::quic::{code_from_peer, fact, is_bidirectional, next_chunk, number, stream, varint, End};
use crate::varint::put_varint;
use crate::{Adapter, Plain, WINDOW};
use bytes::Bytes;
use quinn_proto::{Connection, ConnectionError, Dir, Event, StreamEvent, VarInt};
use std::collections::{BTreeMap, BTreeSet, VecDeque};
use std::net::SocketAddr;
use std::time::{Duration, Instant};
use zevombu::{Action, ConnectFailed, Core, Datagrams, Fields, Lookup, Loss, Outcome, Refused, Reply, Side, Turn};

/// How many turns a pump makes at most: the core keeps 16 datagrams for an application that doesn't take them, so it has to be asked
/// between fewer.
const BATCH: u64 = 8;
/// How many streams of a kind the core has that the peer opened and the application hasn't: it keeps 16 of both, and turns further
/// ones away. One turn may make many of them ready, where it brings a header that others waited for.
const UNCLAIMED: usize = 8;
/// How many bytes of a stream a turn has at most.
const PIECE: u64 = 16 * 1024;
/// How many streams of a kind are opened ahead: quinn-proto doesn't tell how many may be, and opening sends nothing.
const AHEAD: u64 = 128;
/// How long a close waits, since nothing but the close goes out after it.
const LINGER: Duration = Duration::from_millis(50);

/// Codes of HTTP/3 (RFC 9114, section 8.1).
const GENERAL_PROTOCOL_ERROR: u64 = 0x101;
const INTERNAL_ERROR: u64 = 0x102;
const REQUEST_INCOMPLETE: u64 = 0x10d;

/// The capsule that closes a session (draft-ietf-webtrans-http3, section 6), and the frame that it goes in.
const CLOSE_SESSION: u64 = 0x2843;
const DATA_FRAME: u64 = 0;
/// How many bytes its reason has at most.
const LONGEST_REASON: usize = 1024;

type Done = Result<(), Refused>;
type Observer = Box<dyn FnMut(&Turn<'_>, &Reply, &[Action]) + Send>;

/// Where a client has to connect to.
#[derive(Clone, Debug, PartialEq, Eq)]
pub struct Dial {
    /// The address that the lookup gave.
    pub address: SocketAddr,
    /// The name that the server's certificate is for.
    pub name: String,
}

enum Phase {
    /// QUIC's handshake isn't through.
    Connecting,
    Open,
    /// The core closed the connection.
    Closing(Close),
    Over,
}

/// A close that QUIC is told of at this time.
struct Close {
    at: Instant,
    code: u64,
    reason: Vec<u8>,
}

/// One connection of the core on one of quinn-proto, which each function is given.
pub struct Link<A = Plain> {
    core: Core,
    side: Side,
    adapter: A,
    phase: Phase,
    inbound: BTreeMap<u64, Inbound>,
    outbound: BTreeMap<u64, Outbound>,
    /// How many streams of each kind (`Dir`) this end opened in QUIC, and how many of them the core has opened.
    ahead: [u64; 2],
    opened: [u64; 2],
    datagrams: Datagrams,
    /// What QUIC has for the core: streams of each kind to accept, streams to read, datagrams.
    accepts: [bool; 2],
    readable: VecDeque<u64>,
    has_datagrams: bool,
    /// Streams of each kind that the peer opened, as long as they may still be given to the application.
    unclaimed: [BTreeSet<u64>; 2],
    news: BTreeSet<u64>,
    turns: u64,
    observer: Option<Observer>,
}

impl<A: Adapter> Link<A> {
    /// A server's end; `None` where memory is short.
    pub fn server(adapter: A) -> Option<Link<A>> {
        Some(Link::of(Core::new(Side::Server)?, Side::Server, adapter))
    }

    /// A client's end, and where its connection has to go to: the call of `connect` comes before the connection.
    pub fn client(url: &str, fields: Fields<'_>, address: SocketAddr, adapter: A) -> Result<(Link<A>, Dial), ConnectError> {
        let mut core = Core::new(Side::Client).ok_or(ConnectError::Refused(Refused::OutOfMemory))?;
        let call = Turn::Connect { url, fields, lookup: Lookup::Found(address), outcome: Outcome::Proceed };
        let (reply, dial) = {
            let answer = core.turn(&call).map_err(ConnectError::Refused)?;
            let dial = answer.actions().find_map(|action| match action {
                Action::Dial { address, name } => Some(Dial { address, name }),
                _ => None,
            });
            (answer.reply(), dial)
        };
        match (reply, dial) {
            (_, Some(dial)) => Ok((Link::of(core, Side::Client, adapter), dial)),
            (Reply::ConnectFailed(why), None) => Err(ConnectError::Failed(why)),
            (reply, None) => Err(ConnectError::Unexpected(reply)),
        }
    }

    fn of(core: Core, side: Side, adapter: A) -> Link<A> {
        Link {
            core,
            side,
            adapter,
            phase: Phase::Connecting,
            inbound: BTreeMap::new(),
            outbound: BTreeMap::new(),
            ahead: [0; 2],
            opened: [0; 2],
            datagrams: Datagrams::Unsupported,
            accepts: [false; 2],
            readable: VecDeque::new(),
            has_datagrams: false,
            unclaimed: [BTreeSet::new(), BTreeSet::new()],
            news: BTreeSet::new(),
            turns: 0,
            observer: None,
        }
    }

    /// Is shown each turn from now on, with its answer.
    pub fn observe(&mut self, observer: impl FnMut(&Turn<'_>, &Reply, &[Action]) + Send + 'static) {
        self.observer = Some(Box::new(observer));
    }

    /// How many turns were made.
    pub fn turns(&self) -> u64 {
        self.turns
    }

    /// Whether QUIC's handshake is through, so that the application may call.
    pub fn is_begun(&self) -> bool {
        !matches!(self.phase, Phase::Connecting) && self.turns > 0
    }

    /// Whether the connection is closed, or will be.
    pub fn is_over(&self) -> bool {
        matches!(self.phase, Phase::Closing(_) | Phase::Over)
    }

    /// When `pump` is to be called though QUIC reported nothing.
    pub fn deadline(&self) -> Option<Instant> {
        match &self.phase {
            Phase::Closing(close) => Some(close.at),
            Phase::Connecting | Phase::Open | Phase::Over => None,
        }
    }

    /// Closes the connection, since a turn was refused: the core and the transport don't fit any more.
    pub fn abandon(&mut self, quic: &mut Connection, now: Instant) {
        self.phase = Phase::Over;
        quic.close(now, varint(INTERNAL_ERROR), Bytes::new());
    }

    /// Tells the core what QUIC has, a few turns at a time; whether there was any. The application makes its calls before the next.
    pub fn pump(&mut self, quic: &mut Connection, now: Instant) -> Result<bool, Refused> {
        let before = self.turns;
        while self.turns < before + BATCH && self.step(quic, now)? {}
        self.close_if_due(quic, now);
        Ok(self.turns > before)
    }

    /// What QUIC has next; whether there was any.
    fn step(&mut self, quic: &mut Connection, now: Instant) -> Result<bool, Refused> {
        if self.is_over() {
            // Events are dropped, but for the room that QUIC has for what is still to go out.
            while let Some(event) = quic.poll() {
                self.after_the_end(quic, event);
            }
            return Ok(false);
        }
        if let Some(id) = self.readable.pop_front() {
            return self.read(quic, now, id).map(|()| true);
        }
        if self.accept(quic, now, Dir::Uni)? || self.accept(quic, now, Dir::Bi)? || self.receive(quic, now)? {
            return Ok(true);
        }
        match quic.poll() {
            Some(event) => self.report(quic, now, event).map(|()| true),
            None => self.report_datagram_limit(quic, now),
        }
    }

    fn after_the_end(&mut self, quic: &mut Connection, event: Event) {
        match event {
            Event::Stream(StreamEvent::Writable { id }) => self.flush(quic, number(id)),
            Event::ConnectionLost { .. } => self.phase = Phase::Over,
            _ => {}
        }
    }

    fn close_if_due(&mut self, quic: &mut Connection, now: Instant) {
        if let Phase::Closing(close) = &mut self.phase {
            if close.at <= now {
                quic.close(now, varint(close.code), std::mem::take(&mut close.reason).into());
                self.phase = Phase::Over;
            }
        }
    }

    // ---- events

    fn report(&mut self, quic: &mut Connection, now: Instant, event: Event) -> Done {
        match event {
            Event::HandshakeDataReady => Ok(()),
            Event::Connected => self.connected(quic, now),
            Event::Stream(event) => self.report_stream(quic, now, event),
            Event::DatagramReceived => {
                self.has_datagrams = true;
                Ok(())
            }
            Event::ConnectionLost { reason } => self.lost(quic, now, &reason),
        }
    }

    fn report_stream(&mut self, quic: &mut Connection, now: Instant, event: StreamEvent) -> Done {
        match event {
            StreamEvent::Opened { dir } => {
                self.accepts[dir as usize] = true;
                Ok(())
            }
            StreamEvent::Readable { id } => {
                self.queue(number(id));
                Ok(())
            }
            StreamEvent::Writable { id } => {
                self.flush(quic, number(id));
                self.renew(quic, now, number(id))
            }
            StreamEvent::Stopped { id, error_code } => self.stopped(quic, now, number(id), error_code),
            StreamEvent::Finished { id } => self.acknowledged(quic, now, number(id)),
            StreamEvent::Available { dir } => self.open_ahead(quic, now, dir),
        }
    }

    fn connected(&mut self, quic: &mut Connection, now: Instant) -> Done {
        self.phase = Phase::Open;
        for dir in [Dir::Uni, Dir::Bi] {
            self.fill(quic, dir);
        }
        self.datagrams = fact(quic);
        let (uni, bi) = (self.ahead[Dir::Uni as usize], self.ahead[Dir::Bi as usize]);
        self.event(quic, now, &Turn::Connected { uni, bi, credit: WINDOW, datagrams: self.datagrams })
    }

    fn lost(&mut self, quic: &mut Connection, now: Instant, reason: &ConnectionError) -> Done {
        // A server's connection that never came has no history; a close of this end's needs no report.
        let is_unknown = matches!(self.phase, Phase::Connecting) && self.side == Side::Server;
        self.phase = Phase::Over;
        if is_unknown {
            return Ok(());
        }
        let loss = match reason {
            ConnectionError::LocallyClosed => return Ok(()),
            ConnectionError::VersionMismatch => Loss::VersionMismatch,
            ConnectionError::Reset => Loss::Reset,
            ConnectionError::TimedOut => Loss::TimedOut,
            ConnectionError::TransportError(error) => Loss::TransportError { code: error.code.into(), reason: &error.reason },
            ConnectionError::ConnectionClosed(close) => {
                Loss::ConnectionClosed { code: close.error_code.into(), reason: &close.reason }
            }
            ConnectionError::ApplicationClosed(close) => {
                Loss::ApplicationClosed { code: close.error_code.into(), reason: &close.reason }
            }
        };
        self.event(quic, now, &Turn::Loss(loss))
    }

    /// Opens streams ahead in QUIC, as far as the peer allows.
    fn fill(&mut self, quic: &mut Connection, dir: Dir) {
        let kind = dir as usize;
        while self.ahead[kind] < self.opened[kind] + AHEAD && quic.streams().open(dir).is_some() {
            self.ahead[kind] += 1;
        }
    }

    fn open_ahead(&mut self, quic: &mut Connection, now: Instant, dir: Dir) -> Done {
        let before = self.ahead[dir as usize];
        self.fill(quic, dir);
        let total = self.ahead[dir as usize];
        match dir {
            _ if total == before => Ok(()),
            Dir::Uni => self.event(quic, now, &Turn::MaxUni(total)),
            Dir::Bi => self.event(quic, now, &Turn::MaxBi(total)),
        }
    }

    fn report_datagram_limit(&mut self, quic: &mut Connection, now: Instant) -> Result<bool, Refused> {
        if matches!(self.phase, Phase::Connecting) || self.is_over() {
            return Ok(false);
        }
        let fact = fact(quic);
        if fact == self.datagrams {
            return Ok(false);
        }
        self.datagrams = fact;
        self.event(quic, now, &Turn::DatagramLimit(fact))?;
        Ok(true)
    }

    fn receive(&mut self, quic: &mut Connection, now: Instant) -> Result<bool, Refused> {
        if !self.has_datagrams {
            return Ok(false);
        }
        match quic.datagrams().recv() {
            Some(datagram) => self.event(quic, now, &Turn::Datagram(&datagram))?,
            None => self.has_datagrams = false,
        }
        Ok(true)
    }

    /// Takes the next stream that the peer opened.
    fn accept(&mut self, quic: &mut Connection, now: Instant, dir: Dir) -> Result<bool, Refused> {
        if !self.accepts[dir as usize] || self.unclaimed[dir as usize].len() >= UNCLAIMED {
            return Ok(false);
        }
        let id = match quic.streams().accept(dir) {
            Some(id) => number(id),
            None => {
                self.accepts[dir as usize] = false;
                return Ok(true);
            }
        };
        self.inbound.insert(id, Inbound::of_peer(dir == Dir::Bi));
        self.unclaimed[dir as usize].insert(id);
        self.event(quic, now, if dir == Dir::Bi { &Turn::PeerBi } else { &Turn::PeerUni })?;
        self.read(quic, now, id)?;
        Ok(true)
    }

    /// The application has the stream, or won't.
    fn claim(&mut self, id: u64) {
        for unclaimed in &mut self.unclaimed {
            unclaimed.remove(&id);
        }
    }

    /// Whether this end opened the stream.
    fn is_own(&self, id: u64) -> bool {
        (id & 1 == 1) == (self.side == Side::Server)
    }

    /// Whether the stream is one that was only opened ahead: the peer can't know of it.
    fn is_ahead(&self, id: u64) -> bool {
        let dir = if is_bidirectional(id) { Dir::Bi } else { Dir::Uni };
        self.is_own(id) && id / 4 >= self.opened[dir as usize]
    }

    // ---- receiving halves

    fn queue(&mut self, id: u64) {
        if let Some(half) = self.inbound.get_mut(&id) {
            if !half.is_queued {
                half.is_queued = true;
                self.readable.push_back(id);
            }
        }
    }

    /// Tells the core of one piece of a stream, if the application has read enough of it.
    fn read(&mut self, quic: &mut Connection, now: Instant, id: u64) -> Done {
        let half = match self.inbound.get_mut(&id) {
            Some(half) => half,
            None => return Ok(()),
        };
        half.is_queued = false;
        let room = half.room().min(PIECE);
        half.is_held_back = room == 0;
        if room == 0 {
            return Ok(());
        }
        let chunk = match next_chunk(quic, id, room) {
            Some(chunk) => chunk,
            None => return Ok(()),
        };
        self.deliver(quic, now, id, chunk.bytes)?;
        match chunk.end {
            Some(end) => self.ended(quic, now, id, &end),
            None => {
                self.queue(id);
                Ok(())
            }
        }
    }

    fn deliver(&mut self, quic: &mut Connection, now: Instant, id: u64, bytes: Bytes) -> Done {
        let is_request = is_bidirectional(id) && !self.is_own(id);
        let (bytes, is_of_core) = match self.inbound.get_mut(&id) {
            Some(half) => {
                let was_given = half.is_of_application();
                half.learn(&bytes);
                let bytes = if is_request && !was_given { self.adapter.received(id, bytes) } else { bytes };
                half.delivered(bytes.len());
                (bytes, half.is_of_core())
            }
            None => return Ok(()),
        };
        if is_of_core {
            self.claim(id);
        }
        if bytes.is_empty() {
            return Ok(());
        }
        self.news.insert(id);
        self.event(quic, now, &Turn::Bytes { id, bytes: &bytes })
    }

    fn ended(&mut self, quic: &mut Connection, now: Instant, id: u64, end: &End) -> Done {
        let half = match self.inbound.remove(&id) {
            Some(half) => half,
            None => return Ok(()),
        };
        let is_request = is_bidirectional(id) && !self.is_own(id);
        self.news.insert(id);
        let rest = if is_request { self.adapter.ended(id) } else { Bytes::new() };
        if !rest.is_empty() && matches!(end, End::Finished) {
            self.event(quic, now, &Turn::Bytes { id, bytes: &rest })?;
        }
        match end {
            End::Finished => self.event(quic, now, &Turn::End { id })?,
            End::Reset(code) => self.event(quic, now, &Turn::Reset { id, code: code_from_peer(*code) })?,
        }
        if half.is_cut_short() {
            self.claim(id);
            if is_request && !self.outbound.contains_key(&id) {
                self.turn_away(quic, id, REQUEST_INCOMPLETE);
            }
        }
        Ok(())
    }

    /// Resets this end's half of a bidirectional stream that the core does nothing with: else its peer waits, and QUIC counts it as
    /// open for ever (RFC 9114, section 4.1).
    fn turn_away(&mut self, quic: &mut Connection, id: u64, code: u64) {
        // It may be reset already.
        let _ = quic.send_stream(stream(id)).reset(varint(code));
    }

    // ---- sending halves

    /// QUIC takes what it can of what waits.
    fn flush(&mut self, quic: &mut Connection, id: u64) {
        if let Some(half) = self.outbound.get_mut(&id) {
            if !half.flush(&mut quic.send_stream(stream(id))) {
                self.outbound.remove(&id);
            }
        }
    }

    /// Tells the core of new credit.
    fn renew(&mut self, quic: &mut Connection, now: Instant, id: u64) -> Done {
        if self.is_over() {
            return Ok(());
        }
        match self.outbound.get_mut(&id).and_then(Outbound::renewed) {
            Some(total) => {
                self.news.insert(id);
                self.event(quic, now, &Turn::MaxData { id, total })
            }
            None => Ok(()),
        }
    }

    fn stopped(&mut self, quic: &mut Connection, now: Instant, id: u64, code: VarInt) -> Done {
        if self.is_ahead(id) {
            return self.protocol_error(quic, now);
        }
        self.news.insert(id);
        self.event(quic, now, &Turn::Stop { id, code: code_from_peer(code) })?;
        // RFC 9000, section 3.5: a stream that is stopped is reset.
        self.outbound.remove(&id);
        self.turn_away(quic, id, code.into_inner());
        Ok(())
    }

    fn acknowledged(&mut self, quic: &mut Connection, now: Instant, id: u64) -> Done {
        match self.outbound.remove(&id) {
            Some(half) if half.is_finished() => {
                self.news.insert(id);
                self.event(quic, now, &Turn::Acked { id })
            }
            _ => Ok(()),
        }
    }

    fn protocol_error(&mut self, quic: &mut Connection, now: Instant) -> Done {
        quic.close(now, varint(GENERAL_PROTOCOL_ERROR), Bytes::new());
        self.phase = Phase::Over;
        Ok(())
    }

    // ---- turns and actions

    fn event(&mut self, quic: &mut Connection, now: Instant, event: &Turn<'_>) -> Done {
        self.turn(quic, now, event).map(drop)
    }

    fn turn(&mut self, quic: &mut Connection, now: Instant, turn: &Turn<'_>) -> Result<Reply, Refused> {
        self.turns += 1;
        let (reply, actions) = {
            let answer = self.core.turn(turn)?;
            (answer.reply(), answer.actions().collect::<Vec<_>>())
        };
        if let Some(observer) = &mut self.observer {
            observer(turn, &reply, &actions);
        }
        let mut sent = Vec::new();
        for action in actions {
            if let Action::Send { id, .. } = action {
                sent.push(id);
            }
            self.act(quic, now, turn, action);
        }
        for id in sent {
            self.renew(quic, now, id)?;
        }
        Ok(reply)
    }

    fn act(&mut self, quic: &mut Connection, now: Instant, turn: &Turn<'_>, action: Action) {
        match action {
            // A client's connection is there when the link is.
            Action::Dial { .. } => {}
            Action::Opened { id } => self.open(id),
            Action::Send { id, bytes } => {
                self.outbound.entry(id).or_default().push(bytes.into());
                self.flush(quic, id);
            }
            Action::Finish { id } => {
                self.outbound.entry(id).or_default().finish();
                self.flush(quic, id);
            }
            Action::Reset { id, code } => {
                self.outbound.remove(&id);
                // It may be reset already.
                let _ = quic.send_stream(stream(id)).reset(varint(code_to_peer(turn, code)));
            }
            Action::Stop { id, code } => self.stop(quic, id, code_to_peer(turn, code)),
            Action::Datagram(payload) => {
                // What can't go out now is lost, as datagrams may be.
                let _ = quic.datagrams().send(payload.into());
            }
            Action::Close { code, reason } => self.phase = Phase::Closing(Close { at: now + LINGER, code, reason }),
        }
    }

    /// The core opens a stream, which QUIC opened ahead.
    fn open(&mut self, id: u64) {
        let dir = if is_bidirectional(id) { Dir::Bi } else { Dir::Uni };
        self.opened[dir as usize] += 1;
        self.outbound.insert(id, Outbound::default());
        if dir == Dir::Bi {
            self.inbound.insert(id, Inbound::of_this_end());
        }
    }

    fn stop(&mut self, quic: &mut Connection, id: u64, code: u64) {
        self.claim(id);
        if self.inbound.remove(&id).is_some() && is_bidirectional(id) && !self.is_own(id) {
            // Nothing more of it comes.
            self.adapter.ended(id);
        }
        // The half may have ended meanwhile.
        let _ = quic.recv_stream(stream(id)).stop(varint(code));
        // One that the core turns away: nothing went out on it, and no application has it.
        if is_bidirectional(id) && !self.is_own(id) && !self.outbound.contains_key(&id) {
            self.turn_away(quic, id, code);
        }
    }

    // ---- calls

    /// Makes a call of the application.
    pub(crate) fn call(&mut self, quic: &mut Connection, now: Instant, call: &Turn<'_>) -> Result<Reply, Refused> {
        let reply = self.turn(quic, now, call)?;
        match (call, &reply) {
            (Turn::Read { id, .. }, Reply::Read(Some(bytes))) => self.consumed(*id, bytes.len()),
            (Turn::ReadExact { id, .. }, Reply::Exact(bytes) | Reply::ExactFailed(_, bytes)) => self.consumed(*id, bytes.len()),
            (_, Reply::Uni(id)) => self.claim(*id),
            (_, Reply::Bi(id)) => {
                self.claim(*id);
                self.outbound.entry(*id).or_default();
            }
            (Turn::OpenBi(_), Reply::Opening(id)) => {
                if let Some(half) = self.inbound.get_mut(id) {
                    half.give();
                }
            }
            (Turn::SetPriority { id, priority }, Reply::Done) => {
                // A half that ended meanwhile has no priority.
                let _ = quic.send_stream(stream(*id)).set_priority(*priority);
            }
            _ => {}
        }
        self.open_more(quic, now)?;
        Ok(reply)
    }

    /// The streams on which something happened since this was last asked.
    pub(crate) fn take_news(&mut self) -> BTreeSet<u64> {
        std::mem::take(&mut self.news)
    }

    /// Opens further streams ahead once the core has half of them.
    fn open_more(&mut self, quic: &mut Connection, now: Instant) -> Done {
        if !matches!(self.phase, Phase::Open) {
            return Ok(());
        }
        for dir in [Dir::Uni, Dir::Bi] {
            if self.ahead[dir as usize] < self.opened[dir as usize] + AHEAD / 2 {
                self.open_ahead(quic, now, dir)?;
            }
        }
        Ok(())
    }

    fn consumed(&mut self, id: u64, count: usize) {
        let resumes = self.inbound.get_mut(&id).map_or(false, |half| half.consumed(count));
        if resumes {
            self.queue(id);
        }
    }

    /// Writes a capsule on a session's stream, which the core itself can't send.
    pub(crate) fn close_capsule(&mut self, session: u64, code: u32, reason: &str) {
        let half = match self.outbound.get_mut(&session) {
            Some(half) if half.is_open() => half,
            _ => return,
        };
        let payload = [&code.to_be_bytes(), shortened(reason).as_bytes()].concat();
        half.push(framed(DATA_FRAME, &framed(CLOSE_SESSION, &payload)).into());
    }
}

/// A frame, or a capsule: its type, its length, and its bytes.
fn framed(kind: u64, bytes: &[u8]) -> Vec<u8> {
    let mut out = Vec::new();
    put_varint(kind, &mut out);
    put_varint(bytes.len() as u64, &mut out);
    out.extend(bytes);
    out
}

/// As much of a text as a capsule may have.
fn shortened(reason: &str) -> &str {
    let end = (0..=LONGEST_REASON.min(reason.len())).rev().find(|end| reason.is_char_boundary(*end));
    &reason[..end.unwrap_or(0)]
}

/// A code on the wire: an application's own is mapped, those of the core are HTTP/3's or the draft's.
fn code_to_peer(turn: &Turn<'_>, code: u64) -> u64 {
    match turn {
        Turn::ResetSend { .. } | Turn::StopRecv { .. } => u32::try_from(code).map_or(code, to_http3),
        _ => code,
    }
}

/// Why a client has no link.
#[derive(Debug)]
pub enum ConnectError {
    /// The core's own cause.
    Failed(ConnectFailed),
    /// The turn was refused.
    Refused(Refused),
    /// The core asked for no connection, and gave no cause.
    Unexpected(Reply),
}
