//! What no browser does: several sessions on one connection, and peers that behave badly. Each ends as README.md says, with the
//! server alive.

mod raw;

use quinn_proto::Dir;
use raw::{close_capsule, Peer, Running};
use std::time::Duration;
use zevombu_quinn::to_http3;

/// WEBTRANSPORT_SESSION_GONE.
const GONE: &str = "0x170d7b68";

/// A new connection still has a session.
fn is_alive(server: &Running) {
    let mut peer = Peer::new(server.address);
    let session = peer.session("/echo");
    peer.echo(session, b"alive");
}

#[test]
fn a_session_goes_on_when_another_of_its_connection_is_ended() {
    let server = Running::new("two_sessions");
    let mut peer = Peer::new(server.address);
    let (a, b) = (peer.session("/echo?a"), peer.session("/echo?b"));
    for session in [a, b] {
        peer.echo(session, b"both ways");
        peer.echo_datagram(session, b"hello");
    }
    let (held_a, held_b) = (peer.bi(a, b"held", false), peer.bi(b, b"held", false));
    let uni_a = peer.uni(a, b"held", false);
    assert!(peer.until(|peer| peer.streams[&held_a].bytes == b"held" && peer.streams[&held_b].bytes == b"held"));

    peer.send_datagram(a, b"!end");
    assert_eq!(peer.end(a), "fin, stop none");
    assert_eq!(peer.after_response(a), b"");
    assert_eq!(peer.end(held_a), format!("reset {GONE}, stop {GONE}"));
    assert!(peer.until(|peer| peer.streams.get(&uni_a).map_or(false, |came| came.stop.is_some())));

    peer.send(held_b, b" on", true);
    assert_eq!(peer.end(held_b), "fin, stop none");
    assert_eq!(peer.streams[&held_b].bytes, b"held on");
    peer.echo(b, &[7; 100_000]);
    peer.echo_datagram(b, b"still");
    let late = peer.bi(a, b"late", false);
    assert_eq!(peer.end(late), format!("reset {GONE}, stop {GONE}"));

    let c = peer.session("/echo?c");
    peer.send(b, &close_capsule(8, "b too"), true);
    peer.end(b);
    peer.echo(c, b"on c");
    let refused = peer.request("/other");
    assert_eq!(peer.status(refused), "404");
    peer.echo(c, b"after 404");
    peer.send_datagram(c, b"!close 99 last");
    assert_eq!(peer.end(c), "fin, stop none");
    assert_eq!(peer.after_response(c), close_capsule(99, "last"));

    // No session lives: the server closes the connection after two seconds.
    assert!(!peer.until(|_| false));
    assert_eq!(peer.lost.as_deref(), Some("closed by peer: 256"));
    is_alive(&server);
}

#[test]
fn four_sessions_live_and_a_fifth_is_turned_away() {
    let server = Running::new("five_sessions");
    let mut peer = Peer::new(server.address);
    let sessions: Vec<u64> = (0..4).map(|i| peer.session(&format!("/echo?{i}"))).collect();
    let fifth = peer.request("/echo?5");
    assert_eq!(peer.end(fifth), "reset 0x10b, stop 0x10b");
    for session in &sessions {
        peer.echo(*session, b"goes on");
    }
    peer.send_datagram(sessions[2], b"!end");
    assert_eq!(peer.end(sessions[2]), "fin, stop none");
    let another = peer.session("/echo?6");
    peer.echo(another, b"in its place");
}

#[test]
fn a_reset_before_the_header_costs_nothing() {
    let server = Running::new("early_reset");
    let mut peer = Peer::new(server.address);
    let session = peer.session("/echo");
    // More than the 128 streams that may be open at once.
    for i in 0..300 {
        let bytes: &[u8] = if i % 2 == 0 { &[0x40] } else { &[] };
        let id = peer.open(Dir::Bi, bytes, false);
        peer.reset(id, to_http3(7));
        assert_eq!(peer.end(id), "reset 0x10d, stop none", "stream {i}");
    }
    peer.echo(session, b"still there");
}

#[test]
fn late_streams_of_a_gone_session_cost_nothing() {
    let server = Running::new("late_streams");
    let mut peer = Peer::new(server.address);
    let (a, b) = (peer.session("/echo?a"), peer.session("/echo?b"));
    peer.send_datagram(a, b"!end");
    peer.end(a);
    for i in 0..300 {
        let id = peer.bi(a, b"late", true);
        assert!(peer.end(id).starts_with(&format!("reset {GONE}")), "stream {i}");
    }
    peer.echo(b, b"still there");
}

#[test]
fn a_peer_that_never_reads_is_held_back() {
    let server = Running::new("never_reads");
    let mut peer = Peer::new(server.address);
    let session = peer.session("/echo");
    let all = vec![7; 8 << 20];
    let id = peer.bi(session, &all, true);
    // Its own half isn't read from now on.
    peer.streams.remove(&id);
    peer.rest(Duration::from_secs(2));
    let before = peer.waiting(id);
    peer.rest(Duration::from_secs(2));
    let taken = all.len() - peer.waiting(id);
    println!("{taken} bytes were taken of a peer that reads none");
    assert_eq!(peer.waiting(id), before, "more was taken");
    assert!(taken < 1 << 20, "{taken} bytes were taken");
    peer.echo(session, b"another stream goes on");
    // It reads after all.
    peer.streams.insert(id, raw::Came::default());
    assert_eq!(peer.end(id), "fin, stop none");
    assert!(peer.streams[&id].bytes == all);
}

#[test]
fn a_thousand_streams_are_echoed() {
    let server = Running::new("thousand_streams");
    let mut peer = Peer::new(server.address);
    let session = peer.session("/echo");
    let texts: Vec<String> = (0..1000).map(|i| format!("stream {i}")).collect();
    let ids: Vec<u64> = texts.iter().map(|text| peer.bi(session, text.as_bytes(), true)).collect();
    for (id, text) in ids.iter().zip(&texts) {
        assert_eq!(peer.end(*id), "fin, stop none");
        assert_eq!(peer.streams[id].bytes, text.as_bytes());
    }
}

#[test]
fn a_path_of_6000_characters_closes_the_connection() {
    let server = Running::new("long_path");
    let mut peer = Peer::new(server.address);
    peer.request(&format!("/echo?{}", "x".repeat(6000)));
    assert!(!peer.until(|_| false));
    // H3_EXCESSIVE_LOAD: a HEADERS frame has at most 4,096 bytes.
    assert_eq!(peer.lost.as_deref(), Some("closed by peer: 263"));
    is_alive(&server);
}

/// The same numbers each time.
struct Random(u64);

impl Random {
    fn below(&mut self, bound: usize) -> usize {
        self.0 ^= self.0 << 13;
        self.0 ^= self.0 >> 7;
        self.0 ^= self.0 << 17;
        (self.0 % bound as u64) as usize
    }

    fn bytes(&mut self, most: usize) -> Vec<u8> {
        (0..self.below(most)).map(|_| self.below(256) as u8).collect()
    }
}

/// One of the things that a peer may do, at random: most of them break no rule of QUIC's, and some of them HTTP/3's.
fn do_something(peer: &mut Peer, random: &mut Random, own: &mut Vec<u64>, session: u64) {
    let headers: [&[u8]; 6] = [&[0x40, 0x41, 0x00], &[0x40, 0x54, 0x00], &[0x01, 0x05], &[0x00, 0x03], &[0x21, 0x02], &[]];
    let dir = if random.below(2) == 0 { Dir::Bi } else { Dir::Uni };
    let one = own.get(random.below(own.len().max(1))).copied();
    match (random.below(10), one) {
        (0, _) => {
            let bytes = [headers[random.below(headers.len())], &random.bytes(40)].concat();
            own.extend(peer.try_open(dir, &bytes, random.below(3) == 0));
        }
        (1..=3, _) => {
            let header = headers[if dir == Dir::Bi { 0 } else { 1 }];
            own.extend(peer.try_open(dir, &[header, &random.bytes(3000)].concat(), random.below(2) == 0));
        }
        (4, Some(id)) => peer.reset(id, to_http3(random.below(1000) as u32)),
        (5, Some(id)) if id & 2 == 0 => peer.stop(id, random.below(1000) as u64),
        (6, _) => peer.send_datagram(session, &random.bytes(100)),
        (7, _) if random.below(8) == 0 => peer.send_datagram(session, b"!close 3 at random"),
        (8, _) => peer.send_datagram(session, [&b"!uni"[..], b"!bi"][random.below(2)]),
        _ => peer.rest(Duration::from_millis(2)),
    }
}

#[test]
fn what_comes_at_random_makes_no_turn_that_the_core_refuses() {
    let server = Running::new("random");
    for seed in 1..=60 {
        let mut random = Random(seed * 0x9e37_79b9_7f4a_7c15);
        let mut peer = Peer::new(server.address);
        let session = peer.session("/echo");
        let mut own = Vec::new();
        for _ in 0..80 {
            if peer.lost.is_some() {
                break;
            }
            do_something(&mut peer, &mut random, &mut own, session);
        }
        peer.rest(Duration::from_millis(20));
        // The link closes with H3_INTERNAL_ERROR where the core refuses a turn.
        assert_ne!(peer.lost.as_deref(), Some("closed by peer: 258"), "seed {seed}");
    }
    is_alive(&server);
}

#[test]
fn a_reset_is_answered_by_one_with_mapped_codes() {
    let server = Running::new("mapped_codes");
    let mut peer = Peer::new(server.address);
    let session = peer.session("/echo");
    let id = peer.bi(session, b"cut", false);
    assert!(peer.until(|peer| peer.streams[&id].bytes == b"cut"));
    peer.reset(id, to_http3(7));
    assert_eq!(peer.end(id), format!("reset {:#x}, stop none", to_http3(9)));
    // A stop is answered by a reset with its code, and what comes then is read all the same.
    let id = peer.bi(session, b"stopped", false);
    assert!(peer.until(|peer| peer.streams[&id].bytes == b"stopped"));
    peer.stop(id, to_http3(5));
    peer.send(id, &[7; 500_000], true);
    assert!(peer.until(|peer| peer.waiting(id) == 0));
    peer.echo(session, b"still there");
}

#[test]
fn a_reset_of_a_sessions_stream_closes_the_connection() {
    let server = Running::new("session_reset");
    let mut peer = Peer::new(server.address);
    let (a, b) = (peer.session("/echo?a"), peer.session("/echo?b"));
    peer.echo(b, b"lives");
    peer.reset(a, 0x10c);
    assert!(!peer.until(|_| false));
    // H3_CLOSED_CRITICAL_STREAM, for the neighbour too.
    assert_eq!(peer.lost.as_deref(), Some("closed by peer: 260"));
    is_alive(&server);
}
