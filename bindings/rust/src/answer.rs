//! Answers: what the caller of a turn is told, and what the transport has to do.

use std::net::SocketAddr;

/// How a connection ended.
#[derive(Clone, Debug, PartialEq, Eq)]
pub enum Ended {
    ConnectionClosed { code: u64, reason: Vec<u8> },
    ApplicationClosed { code: u64, reason: Vec<u8> },
    LocallyClosed,
    /// This end closed it, since the peer broke a rule; the code is the one on the wire.
    LocalH3Error { code: u64 },
    TimedOut,
    QuicProto { code: Option<u64>, reason: String },
    CidsExhausted,
}

/// Why a connect failed.
#[derive(Clone, Debug, PartialEq, Eq)]
pub enum ConnectFailed {
    /// The text is no URL.
    InvalidUrl,
    /// The URL's scheme isn't https.
    InvalidScheme,
    DnsLookup(String),
    DnsNotFound,
    Connection(Ended),
    SessionRejected,
    ReservedHeader(String),
    EndpointStopping,
    CidsExhausted,
    InvalidServerName(String),
    InvalidRemoteAddress(SocketAddr),
}

/// Why a stream couldn't be opened.
#[derive(Clone, Copy, Debug, PartialEq, Eq)]
pub enum OpeningFailed {
    NotConnected,
    Refused,
}

/// Why nothing can be written.
#[derive(Clone, Copy, Debug, PartialEq, Eq)]
pub enum WriteFailed {
    NotConnected,
    Closed,
    Stopped(u64),
    QuicProto,
}

/// Why nothing can be read.
#[derive(Clone, Copy, Debug, PartialEq, Eq)]
pub enum ReadFailed {
    NotConnected,
    Reset(u64),
    QuicProto,
}

/// Why fewer bytes than were asked for were read.
#[derive(Clone, Copy, Debug, PartialEq, Eq)]
pub enum ExactFailed {
    FinishedEarly(u64),
    Read(ReadFailed),
}

/// Why a datagram can't be sent.
#[derive(Clone, Copy, Debug, PartialEq, Eq)]
pub enum DatagramFailed {
    NotConnected,
    UnsupportedByPeer,
    TooLarge,
    Disabled,
}

/// What the caller of a turn is told.
#[derive(Clone, Debug, PartialEq, Eq)]
pub enum Reply {
    Done,
    Pending,
    NoSession,
    NoStream,
    Request { id: u64, fields: Vec<(String, String)> },
    Session(u64),
    Rejected,
    Uni(u64),
    Bi(u64),
    Opening(u64),
    SendReady(u64),
    BiReady(u64),
    Id(u64),
    Datagram(Vec<u8>),
    Size(Option<u64>),
    Written(u64),
    AllWritten,
    Count(u64),
    Finished,
    Priority(i32),
    ClosedStream,
    /// Bytes; `None` where the stream has ended.
    Read(Option<Vec<u8>>),
    Exact(Vec<u8>),
    Failed(Ended),
    Closed(Ended),
    ConnectFailed(ConnectFailed),
    OpeningFailed(OpeningFailed),
    WriteFailed(WriteFailed),
    StoppedBy(WriteFailed),
    ReadFailed(ReadFailed),
    ExactFailed(ExactFailed, Vec<u8>),
    DatagramFailed(DatagramFailed),
}

/// What the transport has to do.
#[derive(Clone, Debug, PartialEq, Eq)]
pub enum Action {
    Dial { address: SocketAddr, name: String },
    Opened { id: u64 },
    Send { id: u64, bytes: Vec<u8> },
    Finish { id: u64 },
    Reset { id: u64, code: u64 },
    Stop { id: u64, code: u64 },
    Datagram(Vec<u8>),
    Close { code: u64, reason: Vec<u8> },
}
