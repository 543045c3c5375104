//! The wrapper over the static library: which turns get through, and what is refused.

use std::net::SocketAddr;
use zevombu::*;

const SCRIPT: &str = include_str!("../../../examples/session.script");

/// The bytes of the script's first line that begins so.
fn bytes_of(words: &str) -> Vec<u8> {
    let line = SCRIPT.lines().find_map(|line| line.strip_prefix(words)).unwrap();
    (0..line.len()).step_by(2).map(|i| u8::from_str_radix(&line[i..i + 2], 16).unwrap()).collect()
}

fn connected() -> Turn<'static> {
    Turn::Connected { uni: 9, bi: 9, credit: 1000, datagrams: Datagrams::Limit(1200) }
}

fn reply(core: &mut Core, turn: Turn<'_>) -> Reply {
    core.turn(&turn).unwrap().reply()
}

/// A server with one session, whose id is 0.
fn server() -> Core {
    let mut core = Core::new(Side::Server).unwrap();
    reply(&mut core, connected());
    reply(&mut core, Turn::PeerUni);
    reply(&mut core, Turn::Bytes { id: 2, bytes: &bytes_of("bytes 2 ") });
    reply(&mut core, Turn::PeerBi);
    reply(&mut core, Turn::Bytes { id: 0, bytes: &bytes_of("bytes 0 ") });
    assert!(matches!(reply(&mut core, Turn::Incoming), Reply::Request { id: 0, .. }));
    assert_eq!(reply(&mut core, Turn::Accept(&[])), Reply::Session(0));
    core
}

fn events() -> Vec<Turn<'static>> {
    vec![
        connected(),
        Turn::Connected { uni: u64::MAX, bi: 0, credit: u64::MAX, datagrams: Datagrams::Disabled },
        Turn::PeerUni,
        Turn::PeerBi,
        Turn::Bytes { id: (1 << 62) - 1, bytes: b"bytes" },
        Turn::End { id: 2 },
        Turn::Reset { id: 2, code: (1 << 62) - 1 },
        Turn::Stop { id: 3, code: 0 },
        Turn::Acked { id: 3 },
        Turn::Datagram(b""),
        Turn::MaxUni(u64::MAX),
        Turn::MaxBi(0),
        Turn::MaxData { id: 3, total: u64::MAX },
        Turn::DatagramLimit(Datagrams::Unsupported),
        Turn::Loss(Loss::VersionMismatch),
        Turn::Loss(Loss::TransportError { code: u64::MAX, reason: "no" }),
        Turn::Loss(Loss::ConnectionClosed { code: 1, reason: b"\xff" }),
        Turn::Loss(Loss::ApplicationClosed { code: 1, reason: b"" }),
        Turn::Loss(Loss::Reset),
        Turn::Loss(Loss::TimedOut),
        Turn::Loss(Loss::CidsExhausted),
    ]
}

fn connects() -> Vec<Turn<'static>> {
    let remote: SocketAddr = "[2001:db8::1]:443".parse().unwrap();
    let connect = |lookup, outcome| Turn::Connect { url: "https://h/", fields: &[("origin", "h"), ("a", "")], lookup, outcome };
    vec![
        connect(Lookup::Found("192.0.2.1:1".parse().unwrap()), Outcome::Proceed),
        connect(Lookup::Found(remote), Outcome::EndpointStopping),
        connect(Lookup::NotFound, Outcome::CidsExhausted),
        connect(Lookup::Fault("resolver"), Outcome::InvalidServerName("h")),
        connect(Lookup::Fault(""), Outcome::InvalidRemoteAddress(remote)),
    ]
}

fn session_calls() -> Vec<Turn<'static>> {
    vec![
        Turn::Incoming,
        Turn::Accept(&[("name", "value")]),
        Turn::Forbidden,
        Turn::NotFound,
        Turn::TooManyRequests,
        Turn::Handshake,
        Turn::EndpointClose { code: 0, reason: b"end" },
        Turn::AcceptUni(None),
        Turn::AcceptBi(Some(0)),
        Turn::ReceiveDatagram(Some(4)),
        Turn::OpenUni(None),
        Turn::OpenBi(Some(0)),
        Turn::SendDatagram { payload: b"", session: Some(0) },
        Turn::EndSession(Some((1 << 62) - 4)),
        Turn::MaxDatagramSize(None),
        Turn::SessionId(None),
        Turn::Close { code: 7, reason: b"" },
        Turn::Closed,
    ]
}

fn stream_calls() -> Vec<Turn<'static>> {
    vec![
        Turn::PollOpening { id: 3 },
        Turn::Write { id: 3, bytes: b"bytes" },
        Turn::WriteAll { id: 3, bytes: b"" },
        Turn::Finish { id: 3 },
        Turn::Stopped { id: 3 },
        Turn::Priority { id: 3 },
        Turn::SetPriority { id: 3, priority: i32::MIN },
        Turn::ResetSend { id: 3, code: 0 },
        Turn::Read { id: 2, size: u64::MAX },
        Turn::ReadExact { id: 2, size: 0 },
        Turn::StopRecv { id: 2, code: 0 },
    ]
}

/// What the wrapper makes of a turn is never malformed, on either side and at either time.
#[test]
fn every_turn_is_one() {
    for turn in [events(), connects(), session_calls(), stream_calls()].concat() {
        for mut core in [Core::new(Side::Client).unwrap(), Core::new(Side::Server).unwrap(), server()] {
            assert_ne!(core.turn(&turn).err(), Some(Refused::Malformed), "{turn:?}");
        }
    }
}

#[test]
fn what_is_out_of_range_is_malformed() {
    let mut core = server();
    for turn in [
        Turn::End { id: 1 << 62 },
        Turn::Reset { id: 2, code: 1 << 62 },
        Turn::Loss(Loss::ApplicationClosed { code: 1 << 62, reason: b"" }),
        Turn::AcceptUni(Some(2)),
        Turn::OpenBi(Some(1 << 62)),
        Turn::Close { code: u64::MAX, reason: b"" },
    ] {
        assert_eq!(core.turn(&turn).err(), Some(Refused::Malformed), "{turn:?}");
    }
    assert_eq!(reply(&mut core, Turn::SessionId(None)), Reply::Id(0));
}

#[test]
fn what_may_not_come_is_unlawful_and_changes_nothing() {
    let mut core = Core::new(Side::Server).unwrap();
    assert_eq!(core.turn(&Turn::PeerUni).err(), Some(Refused::Unlawful));
    reply(&mut core, connected());
    assert_eq!(core.turn(&connected()).err(), Some(Refused::Unlawful));
    assert_eq!(core.turn(&Turn::End { id: 2 }).err(), Some(Refused::Unlawful));
    assert_eq!(reply(&mut core, Turn::PeerUni), Reply::Done);
}

#[test]
fn what_is_written_goes_out() {
    let mut core = server();
    let id = match reply(&mut core, Turn::OpenUni(None)) {
        Reply::Opening(id) => id,
        other => panic!("no stream is opened: {other:?}"),
    };
    assert_eq!(reply(&mut core, Turn::PollOpening { id }), Reply::SendReady(id));
    let answer = core.turn(&Turn::WriteAll { id, bytes: b"hello" }).unwrap();
    assert_eq!(answer.reply(), Reply::AllWritten);
    assert_eq!(answer.actions().collect::<Vec<_>>(), [Action::Send { id, bytes: b"hello".to_vec() }]);
    let answer = core.turn(&Turn::Finish { id }).unwrap();
    assert_eq!(answer.actions().collect::<Vec<_>>(), [Action::Finish { id }]);
}

#[test]
fn a_connection_crosses_threads() {
    let mut core = server();
    let core = std::thread::spawn(move || {
        reply(&mut core, Turn::PeerUni);
        core
    });
    let mut core = core.join().unwrap();
    assert_eq!(reply(&mut core, Turn::SessionId(None)), Reply::Id(0));
}
