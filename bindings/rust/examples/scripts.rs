//! Runs scripts (docs/PROGRAM.md) through the C functions, and compares what is answered with the `.answers` beside each, and
//! recorded cases with theirs. `cargo run --example scripts -- ../../examples/*.script ../../crates/wt_cases/data/*.txt`

use std::fmt::Write;
use std::net::{IpAddr, Ipv4Addr, Ipv6Addr, SocketAddr};
use zevombu::*;

fn hex(bytes: &[u8]) -> String {
    if bytes.is_empty() {
        return "-".into();
    }
    bare_hex(bytes)
}

fn bare_hex(bytes: &[u8]) -> String {
    bytes.iter().fold(String::new(), |mut out, b| {
        write!(out, "{b:02x}").unwrap();
        out
    })
}

fn unhex(word: &str) -> Vec<u8> {
    if word == "-" {
        return Vec::new();
    }
    (0..word.len()).step_by(2).map(|i| u8::from_str_radix(&word[i..i + 2], 16).unwrap()).collect()
}

fn string(word: &str) -> String {
    String::from_utf8(unhex(word)).unwrap()
}

fn number(word: &str) -> u64 {
    word.parse().unwrap()
}

fn socket(version: &str, ip: &str, port: &str) -> SocketAddr {
    let ip = match version {
        "v4" => IpAddr::V4(Ipv4Addr::from(u32::from_str_radix(ip, 16).unwrap())),
        _ => IpAddr::V6(Ipv6Addr::from(u128::from_str_radix(ip, 16).unwrap())),
    };
    SocketAddr::new(ip, port.parse().unwrap())
}

/// What a line's turn borrows.
#[derive(Default)]
struct Kept {
    bytes: Vec<u8>,
    text: String,
    name: String,
    fields: Vec<(String, String)>,
}

fn datagrams(word: &str) -> Datagrams {
    match word {
        "off" => Datagrams::Disabled,
        "unsupported" => Datagrams::Unsupported,
        limit => Datagrams::Limit(number(limit)),
    }
}

fn loss<'a>(words: &[&str], kept: &'a mut Kept) -> Loss<'a> {
    let code = words.get(1).map_or(0, |w| number(w));
    if let Some(reason) = words.get(2) {
        kept.bytes = unhex(reason);
    }
    match words[0] {
        "version_mismatch" => Loss::VersionMismatch,
        "transport" => {
            kept.text = String::from_utf8(kept.bytes.clone()).unwrap();
            Loss::TransportError { code, reason: &kept.text }
        }
        "connection" => Loss::ConnectionClosed { code, reason: &kept.bytes },
        "application" => Loss::ApplicationClosed { code, reason: &kept.bytes },
        "reset" => Loss::Reset,
        "timed_out" => Loss::TimedOut,
        _ => Loss::CidsExhausted,
    }
}

fn keep_fields(words: &[&str], kept: &mut Kept) {
    kept.fields = words.iter().filter(|w| **w != "-").filter_map(|w| w.split_once('=')).map(|(n, v)| (string(n), string(v))).collect();
}

fn connect(core: &mut Core, words: &[&str], kept: &mut Kept) -> Result<String, Refused> {
    keep_fields(&words[3..], kept);
    let (lookup, outcome): (Vec<&str>, Vec<&str>) = (words[1].split(':').collect(), words[2].split(':').collect());
    if lookup[0] == "fault" {
        kept.text = string(lookup[1]);
    }
    if outcome[0] == "name" {
        kept.name = string(outcome[1]);
    }
    let fields: Vec<(&str, &str)> = kept.fields.iter().map(|(n, v)| (n.as_str(), v.as_str())).collect();
    let turn = Turn::Connect {
        url: words[0],
        fields: &fields,
        lookup: match lookup[0] {
            "none" => Lookup::NotFound,
            "fault" => Lookup::Fault(&kept.text),
            version => Lookup::Found(socket(version, lookup[1], lookup[2])),
        },
        outcome: match outcome[0] {
            "proceed" => Outcome::Proceed,
            "stopping" => Outcome::EndpointStopping,
            "cids" => Outcome::CidsExhausted,
            "name" => Outcome::InvalidServerName(&kept.name),
            _ => Outcome::InvalidRemoteAddress(socket(outcome[1], outcome[2], outcome[3])),
        },
    };
    Ok(line(&core.turn(&turn)?))
}

/// An event of numbers alone.
fn event(words: &[&str]) -> Option<Turn<'static>> {
    let at = |i: usize| number(words[i]);
    Some(match words[0] {
        "connected" => Turn::Connected { uni: at(1), bi: at(2), credit: at(3), datagrams: datagrams(words[4]) },
        "peer_uni" => Turn::PeerUni,
        "peer_bi" => Turn::PeerBi,
        "end" => Turn::End { id: at(1) },
        "reset" => Turn::Reset { id: at(1), code: at(2) },
        "stop" => Turn::Stop { id: at(1), code: at(2) },
        "acked" => Turn::Acked { id: at(1) },
        "max_uni" => Turn::MaxUni(at(1)),
        "max_bi" => Turn::MaxBi(at(1)),
        "max_data" => Turn::MaxData { id: at(1), total: at(2) },
        "datagram_limit" => Turn::DatagramLimit(datagrams(words[1])),
        _ => return None,
    })
}

/// A call of a handshake or on a session, without fields and bytes.
fn session_call(words: &[&str]) -> Option<Turn<'static>> {
    let session = words.get(1).and_then(|word| word.parse().ok());
    Some(match words[0] {
        "incoming" => Turn::Incoming,
        "forbidden" => Turn::Forbidden,
        "not_found" => Turn::NotFound,
        "too_many_requests" => Turn::TooManyRequests,
        "handshake" => Turn::Handshake,
        "accept_uni" => Turn::AcceptUni(session),
        "accept_bi" => Turn::AcceptBi(session),
        "receive_datagram" => Turn::ReceiveDatagram(session),
        "open_uni" => Turn::OpenUni(session),
        "open_bi" => Turn::OpenBi(session),
        "end_session" => Turn::EndSession(session),
        "max_datagram_size" => Turn::MaxDatagramSize(session),
        "session_id" => Turn::SessionId(session),
        "closed" => Turn::Closed,
        _ => return None,
    })
}

/// A call on a stream, without bytes.
fn stream_call(words: &[&str]) -> Option<Turn<'static>> {
    let at = |i: usize| number(words[i]);
    Some(match words[0] {
        "poll_opening" => Turn::PollOpening { id: at(1) },
        "finish" => Turn::Finish { id: at(1) },
        "stopped" => Turn::Stopped { id: at(1) },
        "priority" => Turn::Priority { id: at(1) },
        "set_priority" => Turn::SetPriority { id: at(1), priority: words[2].parse().unwrap() },
        "reset_send" => Turn::ResetSend { id: at(1), code: at(2) },
        "read" => Turn::Read { id: at(1), size: at(2) },
        "read_exact" => Turn::ReadExact { id: at(1), size: at(2) },
        "stop_recv" => Turn::StopRecv { id: at(1), code: at(2) },
        _ => return None,
    })
}

/// A turn with bytes, which are kept.
fn with_bytes<'a>(words: &[&str], kept: &'a mut Kept) -> Turn<'a> {
    let place = if words[0].ends_with("datagram") { 1 } else { 2 };
    kept.bytes = unhex(words[place]);
    let bytes = &kept.bytes[..];
    let first = || number(words[1]);
    match words[0] {
        "datagram" => Turn::Datagram(bytes),
        "send_datagram" => Turn::SendDatagram { payload: bytes, session: words.get(2).map(|word| number(word)) },
        "bytes" => Turn::Bytes { id: first(), bytes },
        "write" => Turn::Write { id: first(), bytes },
        "write_all" => Turn::WriteAll { id: first(), bytes },
        "close" => Turn::Close { code: first(), reason: bytes },
        "endpoint_close" => Turn::EndpointClose { code: first(), reason: bytes },
        other => panic!("no turn is called {other}"),
    }
}

/// Accepts, with these fields.
fn accept(core: &mut Core, words: &[&str], kept: &mut Kept) -> Result<String, Refused> {
    keep_fields(words, kept);
    let fields: Vec<(&str, &str)> = kept.fields.iter().map(|(n, v)| (n.as_str(), v.as_str())).collect();
    Ok(line(&core.turn(&Turn::Accept(&fields))?))
}

/// The printed line of the answer to a line's turn.
fn turn(core: &mut Core, words: &[&str]) -> Result<String, Refused> {
    let mut kept = Kept::default();
    match words[0] {
        "connect" => return connect(core, &words[1..], &mut kept),
        "accept" => return accept(core, &words[1..], &mut kept),
        _ => {}
    }
    let plain = event(words).or_else(|| session_call(words)).or_else(|| stream_call(words));
    let turn = match plain {
        Some(turn) => turn,
        None if words[0] == "loss" => Turn::Loss(loss(&words[1..], &mut kept)),
        None => with_bytes(words, &mut kept),
    };
    Ok(line(&core.turn(&turn)?))
}

fn address(a: SocketAddr) -> String {
    match a.ip() {
        IpAddr::V4(ip) => format!("v4:{}:{}", bare_hex(&ip.octets()), a.port()),
        IpAddr::V6(ip) => format!("v6:{}:{}", bare_hex(&ip.octets()), a.port()),
    }
}

fn ended(e: &Ended) -> String {
    match e {
        Ended::ConnectionClosed { code, reason } => format!("connection_closed {code} {}", hex(reason)),
        Ended::ApplicationClosed { code, reason } => format!("application_closed {code} {}", hex(reason)),
        Ended::LocallyClosed => "locally_closed".into(),
        Ended::LocalH3Error { code } => format!("local_h3 {code}"),
        Ended::TimedOut => "timed_out".into(),
        Ended::QuicProto { code: Some(code), reason } => format!("quic_proto {code} {}", hex(reason.as_bytes())),
        Ended::QuicProto { code: None, reason } => format!("quic_proto none {}", hex(reason.as_bytes())),
        Ended::CidsExhausted => "cids_exhausted".into(),
    }
}

fn connect_failed(e: &ConnectFailed) -> String {
    match e {
        ConnectFailed::InvalidUrl => "invalid_url parse".into(),
        ConnectFailed::InvalidScheme => "invalid_url scheme".into(),
        ConnectFailed::DnsLookup(reason) => format!("dns_lookup {}", hex(reason.as_bytes())),
        ConnectFailed::DnsNotFound => "dns_not_found".into(),
        ConnectFailed::Connection(e) => format!("connection {}", ended(e)),
        ConnectFailed::SessionRejected => "session_rejected".into(),
        ConnectFailed::ReservedHeader(name) => format!("reserved_header {}", hex(name.as_bytes())),
        ConnectFailed::EndpointStopping => "endpoint_stopping".into(),
        ConnectFailed::CidsExhausted => "cids_exhausted".into(),
        ConnectFailed::InvalidServerName(name) => format!("invalid_server_name {}", hex(name.as_bytes())),
        ConnectFailed::InvalidRemoteAddress(a) => format!("invalid_remote_address {}", address(*a)),
    }
}

fn write_failed(e: WriteFailed) -> String {
    match e {
        WriteFailed::NotConnected => "not_connected".into(),
        WriteFailed::Closed => "closed".into(),
        WriteFailed::Stopped(code) => format!("stopped {code}"),
        WriteFailed::QuicProto => "quic_proto".into(),
    }
}

fn read_failed(e: ReadFailed) -> String {
    match e {
        ReadFailed::NotConnected => "not_connected".into(),
        ReadFailed::Reset(code) => format!("reset {code}"),
        ReadFailed::QuicProto => "quic_proto".into(),
    }
}

fn reply(r: &Reply) -> String {
    match r {
        Reply::Done => "done".into(),
        Reply::Pending => "pending".into(),
        Reply::NoSession => "no_session".into(),
        Reply::NoStream => "no_stream".into(),
        Reply::Request { id, fields } => fields.iter().fold(format!("request {id}"), |mut out, (name, value)| {
            write!(out, " {}={}", bare_hex(name.as_bytes()), bare_hex(value.as_bytes())).unwrap();
            out
        }),
        Reply::Session(id) => format!("session {id}"),
        Reply::Rejected => "rejected".into(),
        Reply::Uni(id) => format!("uni {id}"),
        Reply::Bi(id) => format!("bi {id}"),
        Reply::Opening(id) => format!("opening {id}"),
        Reply::SendReady(id) => format!("send_ready {id}"),
        Reply::BiReady(id) => format!("bi_ready {id}"),
        Reply::Id(id) => format!("id {id}"),
        Reply::Datagram(bytes) => format!("datagram {}", hex(bytes)),
        Reply::Size(None) => "size none".into(),
        Reply::Size(Some(size)) => format!("size {size}"),
        Reply::Written(count) => format!("written {count}"),
        Reply::AllWritten => "all_written".into(),
        Reply::Count(count) => format!("count {count}"),
        Reply::Finished => "finished".into(),
        Reply::Priority(priority) => format!("priority {priority}"),
        Reply::ClosedStream => "closed_stream".into(),
        Reply::Read(None) => "end".into(),
        Reply::Read(Some(bytes)) => format!("read {}", hex(bytes)),
        Reply::Exact(bytes) => format!("exact {}", hex(bytes)),
        Reply::Failed(e) => format!("failed {}", ended(e)),
        Reply::Closed(e) => format!("closed {}", ended(e)),
        Reply::ConnectFailed(e) => format!("connect_failed {}", connect_failed(e)),
        Reply::OpeningFailed(OpeningFailed::NotConnected) => "opening_failed not_connected".into(),
        Reply::OpeningFailed(OpeningFailed::Refused) => "opening_failed refused".into(),
        Reply::WriteFailed(e) => format!("write_failed {}", write_failed(*e)),
        Reply::StoppedBy(e) => format!("stopped_by {}", write_failed(*e)),
        Reply::ReadFailed(e) => format!("read_failed {}", read_failed(*e)),
        Reply::ExactFailed(ExactFailed::FinishedEarly(count), bytes) => format!("exact_failed finished_early {count} {}", hex(bytes)),
        Reply::ExactFailed(ExactFailed::Read(e), _) => format!("exact_failed {}", read_failed(*e)),
        Reply::DatagramFailed(e) => format!(
            "datagram_failed {}",
            match e {
                DatagramFailed::NotConnected => "not_connected",
                DatagramFailed::UnsupportedByPeer => "unsupported",
                DatagramFailed::TooLarge => "too_large",
                DatagramFailed::Disabled => "disabled",
            }
        ),
    }
}

fn action(a: &Action) -> String {
    match a {
        Action::Dial { address: to, name } => format!("dial {} {}", address(*to), hex(name.as_bytes())),
        Action::Opened { id } => format!("opened {id}"),
        Action::Send { id, bytes } => format!("send {id} {}", hex(bytes)),
        Action::Finish { id } => format!("finish {id}"),
        Action::Reset { id, code } => format!("reset {id} {code}"),
        Action::Stop { id, code } => format!("stop {id} {code}"),
        Action::Datagram(bytes) => format!("datagram_out {}", hex(bytes)),
        Action::Close { code, reason } => format!("close {code} {}", hex(reason)),
    }
}

/// The printed line of an answer.
fn line(answer: &Answer) -> String {
    answer.actions().fold(reply(&answer.reply()), |out, a| out + " ; " + &action(&a))
}

/// A script, with the lines that its turns are to be answered, where there are any.
struct Case {
    name: String,
    script: String,
    wanted: Option<String>,
}

/// The whole traces of a file of recorded cases (crates/wt_cases): scripts after `>`, answers after `<`.
fn recorded(path: &str) -> Vec<Case> {
    let text = std::fs::read_to_string(path).unwrap();
    let mut cases: Vec<(bool, Case)> = Vec::new();
    for line in text.lines() {
        if let Some(words) = line.strip_prefix("case ") {
            let name = format!("{path}: case {}", cases.len());
            cases.push((words == "0 trace", Case { name, script: String::new(), wanted: Some(String::new()) }));
            continue;
        }
        let (whole, case) = cases.last_mut().expect("a case begins");
        *whole &= !line.contains('\\');
        let (out, text) = match line.split_at(1) {
            (">", text) => (&mut case.script, text),
            (_, text) => (case.wanted.get_or_insert_with(String::new), text),
        };
        out.push_str(text);
        out.push('\n');
    }
    cases.into_iter().filter(|(whole, _)| *whole).map(|(_, case)| case).collect()
}

/// The cases of a file: a script with its answers beside it, or recorded ones.
fn cases(path: &str) -> Vec<Case> {
    if path.ends_with(".txt") {
        return recorded(path);
    }
    let script = std::fs::read_to_string(path).unwrap();
    let wanted = std::fs::read_to_string(path.replace(".script", ".answers")).ok();
    vec![Case { name: path.into(), script, wanted }]
}

/// How many turns of a script were answered as is wanted, and what differed first. With no answers beside it all are.
fn run(case: &Case) -> (usize, Option<String>) {
    let mut lines = case.script.lines().filter(|l| !l.is_empty() && !l.starts_with('#'));
    let side = if lines.next() == Some("client") { Side::Client } else { Side::Server };
    let mut core = Core::new(side).expect("memory suffices");
    let mut wanted = case.wanted.as_deref().map(str::lines);
    let mut turns = 0;
    for line in lines {
        let words: Vec<&str> = line.split(' ').collect();
        let got = turn(&mut core, &words);
        let want = wanted.as_mut().map(|lines| lines.next().unwrap_or("no turn"));
        match got {
            Ok(got) if want.map_or(true, |want| want == got) => turns += 1,
            got => return (turns, Some(format!("{}: {line}\n  got  {got:?}\n  want {want:?}", case.name))),
        }
    }
    let more = wanted.and_then(|mut lines| lines.next());
    (turns, more.map(|more| format!("{}: no turn for {more:?}", case.name)))
}

fn main() {
    let (mut scripts, mut turns, mut differ) = (0, 0, 0);
    for case in std::env::args().skip(1).flat_map(|path| cases(&path)) {
        let (count, first) = run(&case);
        scripts += 1;
        turns += count;
        if let Some(first) = first {
            differ += 1;
            println!("{first}");
        }
    }
    println!("{scripts} scripts: {turns} turns answered as is wanted, {differ} scripts differ");
    std::process::exit((differ > 0).into());
}
