//! Turns: what happens to a connection.

use crate::raw;
use std::net::{IpAddr, SocketAddr};

/// What holds of datagrams.
#[derive(Clone, Copy, Debug, PartialEq, Eq)]
pub enum Datagrams {
    /// This end doesn't use them.
    Disabled,
    /// The peer doesn't take them.
    Unsupported,
    /// The greatest whole datagram, in bytes.
    Limit(u64),
}

/// Why a connection is lost.
#[derive(Clone, Copy, Debug, PartialEq, Eq)]
pub enum Loss<'a> {
    VersionMismatch,
    TransportError { code: u64, reason: &'a str },
    ConnectionClosed { code: u64, reason: &'a [u8] },
    ApplicationClosed { code: u64, reason: &'a [u8] },
    Reset,
    TimedOut,
    CidsExhausted,
}

/// What a resolver answers for the URL's host.
#[derive(Clone, Copy, Debug, PartialEq, Eq)]
pub enum Lookup<'a> {
    Found(SocketAddr),
    NotFound,
    Fault(&'a str),
}

/// What QUIC answers where the address is known.
#[derive(Clone, Copy, Debug, PartialEq, Eq)]
pub enum Outcome<'a> {
    Proceed,
    EndpointStopping,
    CidsExhausted,
    InvalidServerName(&'a str),
    InvalidRemoteAddress(SocketAddr),
}

/// The names and values of additional header fields.
pub type Fields<'a> = &'a [(&'a str, &'a str)];

/// One event of the QUIC transport, or one call of the application. A session is named by its id; `None` stands for the only one.
#[derive(Clone, Copy, Debug, PartialEq, Eq)]
pub enum Turn<'a> {
    Connected { uni: u64, bi: u64, credit: u64, datagrams: Datagrams },
    PeerUni,
    PeerBi,
    Bytes { id: u64, bytes: &'a [u8] },
    End { id: u64 },
    Reset { id: u64, code: u64 },
    Stop { id: u64, code: u64 },
    Acked { id: u64 },
    Datagram(&'a [u8]),
    MaxUni(u64),
    MaxBi(u64),
    MaxData { id: u64, total: u64 },
    DatagramLimit(Datagrams),
    Loss(Loss<'a>),
    Connect { url: &'a str, fields: Fields<'a>, lookup: Lookup<'a>, outcome: Outcome<'a> },
    Incoming,
    Accept(Fields<'a>),
    Forbidden,
    NotFound,
    TooManyRequests,
    Handshake,
    EndpointClose { code: u64, reason: &'a [u8] },
    AcceptUni(Option<u64>),
    AcceptBi(Option<u64>),
    ReceiveDatagram(Option<u64>),
    OpenUni(Option<u64>),
    OpenBi(Option<u64>),
    PollOpening { id: u64 },
    SendDatagram { payload: &'a [u8], session: Option<u64> },
    EndSession(Option<u64>),
    MaxDatagramSize(Option<u64>),
    SessionId(Option<u64>),
    Close { code: u64, reason: &'a [u8] },
    Closed,
    Write { id: u64, bytes: &'a [u8] },
    WriteAll { id: u64, bytes: &'a [u8] },
    Finish { id: u64 },
    Stopped { id: u64 },
    Priority { id: u64 },
    SetPriority { id: u64, priority: i32 },
    ResetSend { id: u64, code: u64 },
    Read { id: u64, size: u64 },
    ReadExact { id: u64, size: u64 },
    StopRecv { id: u64, code: u64 },
}

pub(crate) fn address(socket: SocketAddr) -> raw::Address {
    match socket.ip() {
        IpAddr::V4(ip) => raw::Address { version: 4, port: socket.port(), high: 0, low: u32::from(ip).into() },
        IpAddr::V6(ip) => {
            let ip = u128::from(ip);
            raw::Address { version: 6, port: socket.port(), high: (ip >> 64) as u64, low: ip as u64 }
        }
    }
}

fn push_text(out: &mut Vec<u8>, text: &str) {
    out.extend((text.len() as u64).to_le_bytes());
    out.extend(text.as_bytes());
}

fn push_fields(out: &mut Vec<u8>, fields: Fields) {
    for (name, value) in fields {
        push_text(out, name);
        push_text(out, value);
    }
}

type Head = raw::TurnHead;

fn of(kind: u32) -> Head {
    Head { kind, ..Head::default() }
}

fn on(kind: u32, id: u64) -> Head {
    Head { id, ..of(kind) }
}

fn numbered(kind: u32, number: u64) -> Head {
    Head { number, ..of(kind) }
}

fn on_session(kind: u32, session: Option<u64>) -> Head {
    Head { choice: session.is_some().into(), session: session.unwrap_or(0), ..of(kind) }
}

fn with_datagrams(head: Head, datagrams: Datagrams) -> Head {
    match datagrams {
        Datagrams::Disabled => Head { choice: 0, ..head },
        Datagrams::Unsupported => Head { choice: 1, ..head },
        Datagrams::Limit(limit) => Head { choice: 2, limit, ..head },
    }
}

fn loss<'a>(kind: u32, loss: Loss<'a>) -> (Head, &'a [u8]) {
    let (choice, number, reason) = match loss {
        Loss::VersionMismatch => (0, 0, &[][..]),
        Loss::TransportError { code, reason } => (1, code, reason.as_bytes()),
        Loss::ConnectionClosed { code, reason } => (2, code, reason),
        Loss::ApplicationClosed { code, reason } => (3, code, reason),
        Loss::Reset => (4, 0, &[][..]),
        Loss::TimedOut => (5, 0, &[][..]),
        Loss::CidsExhausted => (6, 0, &[][..]),
    };
    (Head { choice, number, ..of(kind) }, reason)
}

fn connect(kind: u32, url: &str, fields: Fields, lookup: Lookup, outcome: Outcome, room: &mut Vec<u8>) -> Head {
    let mut head = Head { fields: fields.len() as u64, ..of(kind) };
    push_text(room, url);
    match lookup {
        Lookup::Found(socket) => head.found = address(socket),
        Lookup::NotFound => head.choice = 1,
        Lookup::Fault(reason) => {
            head.choice = 2;
            push_text(room, reason);
        }
    }
    match outcome {
        Outcome::Proceed => head.outcome = 0,
        Outcome::EndpointStopping => head.outcome = 1,
        Outcome::CidsExhausted => head.outcome = 2,
        Outcome::InvalidServerName(name) => {
            head.outcome = 3;
            push_text(room, name);
        }
        Outcome::InvalidRemoteAddress(socket) => {
            head.outcome = 4;
            head.remote = address(socket);
        }
    }
    push_fields(room, fields);
    head
}

impl<'a> Turn<'a> {
    /// Its head and its bytes; those of a connect and an accept are made in the room.
    pub(crate) fn flat(&self, room: &'a mut Vec<u8>) -> (Head, &'a [u8]) {
        match *self {
            Turn::Connected { uni, bi, credit, datagrams } => {
                (with_datagrams(Head { uni, bi, number: credit, ..of(0) }, datagrams), &[])
            }
            Turn::PeerUni => (of(1), &[]),
            Turn::PeerBi => (of(2), &[]),
            Turn::Bytes { id, bytes } => (on(3, id), bytes),
            Turn::End { id } => (on(4, id), &[]),
            Turn::Reset { id, code } => (Head { id, ..numbered(5, code) }, &[]),
            Turn::Stop { id, code } => (Head { id, ..numbered(6, code) }, &[]),
            Turn::Acked { id } => (on(7, id), &[]),
            Turn::Datagram(bytes) => (of(8), bytes),
            Turn::MaxUni(total) => (numbered(9, total), &[]),
            Turn::MaxBi(total) => (numbered(10, total), &[]),
            Turn::MaxData { id, total } => (Head { id, ..numbered(11, total) }, &[]),
            Turn::DatagramLimit(datagrams) => (with_datagrams(of(12), datagrams), &[]),
            Turn::Loss(reason) => loss(13, reason),
            Turn::Connect { url, fields, lookup, outcome } => {
                room.clear();
                (connect(64, url, fields, lookup, outcome, room), room)
            }
            Turn::Incoming => (of(65), &[]),
            Turn::Accept(fields) => {
                room.clear();
                push_fields(room, fields);
                (Head { fields: fields.len() as u64, ..of(66) }, room)
            }
            Turn::Forbidden => (of(67), &[]),
            Turn::NotFound => (of(68), &[]),
            Turn::TooManyRequests => (of(69), &[]),
            Turn::Handshake => (of(70), &[]),
            Turn::EndpointClose { code, reason } => (numbered(71, code), reason),
            Turn::AcceptUni(session) => (on_session(72, session), &[]),
            Turn::AcceptBi(session) => (on_session(73, session), &[]),
            Turn::ReceiveDatagram(session) => (on_session(74, session), &[]),
            Turn::OpenUni(session) => (on_session(75, session), &[]),
            Turn::OpenBi(session) => (on_session(76, session), &[]),
            Turn::PollOpening { id } => (on(77, id), &[]),
            Turn::SendDatagram { payload, session } => (on_session(78, session), payload),
            Turn::EndSession(session) => (on_session(79, session), &[]),
            Turn::MaxDatagramSize(session) => (on_session(80, session), &[]),
            Turn::SessionId(session) => (on_session(81, session), &[]),
            Turn::Close { code, reason } => (numbered(82, code), reason),
            Turn::Closed => (of(83), &[]),
            Turn::Write { id, bytes } => (on(84, id), bytes),
            Turn::WriteAll { id, bytes } => (on(85, id), bytes),
            Turn::Finish { id } => (on(86, id), &[]),
            Turn::Stopped { id } => (on(87, id), &[]),
            Turn::Priority { id } => (on(88, id), &[]),
            Turn::SetPriority { id, priority } => (Head { priority, ..on(89, id) }, &[]),
            Turn::ResetSend { id, code } => (Head { id, ..numbered(90, code) }, &[]),
            Turn::Read { id, size } => (Head { id, ..numbered(91, size) }, &[]),
            Turn::ReadExact { id, size } => (Head { id, ..numbered(92, size) }, &[]),
            Turn::StopRecv { id, code } => (Head { id, ..numbered(93, code) }, &[]),
        }
    }
}
