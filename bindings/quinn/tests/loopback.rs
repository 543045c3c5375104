//! A client and a server of this crate, over UDP: many streams, many bytes, datagrams, a close with a code, and lost packets.

mod common;

use std::collections::{BTreeMap, BTreeSet};
use std::net::SocketAddr;
use std::sync::atomic::{AtomicBool, Ordering};
use std::sync::Arc;
use std::thread::JoinHandle;
use std::time::{Duration, Instant};
use zevombu::{Ended, Refused, Reply, Turn};
use zevombu_quinn::{Application, Calls, Host, Link, Plain};

/// What goes out on one stream, and whether nothing follows.
#[derive(Default)]
struct Writing {
    bytes: Vec<u8>,
    is_last: bool,
}

impl Writing {
    /// Writes what it can; whether the stream is finished.
    fn go_on(&mut self, calls: &mut Calls<'_>, id: u64) -> Result<bool, Refused> {
        while !self.bytes.is_empty() {
            match calls.make(&Turn::Write { id, bytes: &self.bytes })? {
                Reply::Written(count) => drop(self.bytes.drain(..count as usize)),
                _ => return Ok(false),
            }
        }
        if self.is_last {
            // The answer is pending until the peer has all of it.
            calls.make(&Turn::Finish { id })?;
        }
        Ok(self.is_last)
    }
}

/// Echoes bidirectional streams and datagrams of one session, reading no more than it could write.
#[derive(Default)]
struct Echo {
    session: Option<u64>,
    streams: BTreeMap<u64, Writing>,
    ended: Option<Ended>,
    /// The client's close may be lost.
    has_loss: bool,
}

impl Echo {
    fn establish(&mut self, calls: &mut Calls<'_>) -> Result<bool, Refused> {
        if let Reply::Request { .. } = calls.make(&Turn::Incoming)? {
            let reply = calls.make(&Turn::Accept(&[]))?;
            assert!(matches!(reply, Reply::Session(_)), "{reply:?}");
            self.session = Some(0);
        }
        Ok(self.session.is_some())
    }

    fn accept(&mut self, calls: &mut Calls<'_>) -> Result<bool, Refused> {
        let mut goes_on = false;
        while let Reply::Bi(id) = calls.make(&Turn::AcceptBi(self.session))? {
            self.streams.insert(id, Writing::default());
            self.echo(calls, id)?;
            goes_on = true;
        }
        while let Reply::Datagram(payload) = calls.make(&Turn::ReceiveDatagram(self.session))? {
            calls.make(&Turn::SendDatagram { payload: &payload, session: self.session })?;
            goes_on = true;
        }
        Ok(goes_on)
    }

    fn echo(&mut self, calls: &mut Calls<'_>, id: u64) -> Result<(), Refused> {
        let writing = match self.streams.get_mut(&id) {
            Some(writing) => writing,
            None => return Ok(()),
        };
        loop {
            if writing.go_on(calls, id)? {
                self.streams.remove(&id);
                return Ok(());
            }
            if !writing.bytes.is_empty() {
                return Ok(());
            }
            match calls.make(&Turn::Read { id, size: 16384 })? {
                Reply::Read(Some(bytes)) => writing.bytes = bytes,
                Reply::Read(None) => writing.is_last = true,
                _ => return Ok(()),
            }
        }
    }
}

impl Application for Echo {
    type Adapter = Plain;

    fn poll(&mut self, calls: &mut Calls<'_>) -> Result<bool, Refused> {
        if self.ended.is_some() || (self.session.is_none() && !self.establish(calls)?) {
            return Ok(false);
        }
        let goes_on = self.accept(calls)?;
        for id in calls.take_news() {
            self.echo(calls, id)?;
        }
        if let Reply::Closed(ended) = calls.make(&Turn::Closed)? {
            self.ended = Some(ended);
        }
        Ok(goes_on)
    }

    fn gone(&mut self, turns: u64, refused: Option<Refused>) {
        println!("server: {:?} after {turns} turns", self.ended);
        assert_eq!(refused, None);
        let closed = Some(Ended::ApplicationClosed { code: 17, reason: b"done".to_vec() });
        let is_lost = self.has_loss && self.ended == Some(Ended::TimedOut);
        assert!(self.ended == closed || is_lost, "{:?}", self.ended);
    }
}

/// What a stream of the client has sent, and what came back.
struct Trip {
    sent: Vec<u8>,
    writing: Writing,
    is_open: bool,
    came: Vec<u8>,
}

/// Sends so many streams of so many bytes, a few at once, and compares what comes back.
struct Sender {
    streams: usize,
    length: usize,
    datagrams: usize,
    session: Option<u64>,
    started: usize,
    trips: BTreeMap<u64, Trip>,
    echoed: BTreeSet<Vec<u8>>,
    sent_at: Option<Instant>,
    is_done: Arc<AtomicBool>,
}

const AT_ONCE: usize = 64;

fn pattern(seed: usize, length: usize) -> Vec<u8> {
    (0..length).map(|i| (i * 31 % 251 + seed) as u8).collect()
}

impl Sender {
    fn start(&mut self, calls: &mut Calls<'_>) -> Result<bool, Refused> {
        let mut goes_on = false;
        while self.started < self.streams && self.trips.len() < AT_ONCE {
            let id = match calls.make(&Turn::OpenBi(self.session))? {
                Reply::Opening(id) => id,
                _ => break,
            };
            let sent = pattern(self.started, self.length);
            let writing = Writing { bytes: sent.clone(), is_last: true };
            self.trips.insert(id, Trip { sent, writing, is_open: false, came: Vec::new() });
            self.started += 1;
            goes_on = true;
        }
        let opening: Vec<u64> = self.trips.iter().filter(|(_, trip)| !trip.is_open).map(|(id, _)| *id).collect();
        for id in opening {
            if calls.make(&Turn::PollOpening { id })? == Reply::BiReady(id) {
                let trip = self.trips.get_mut(&id).unwrap();
                trip.is_open = true;
                trip.writing.go_on(calls, id)?;
                goes_on = true;
            }
        }
        Ok(goes_on)
    }

    fn go_on(&mut self, calls: &mut Calls<'_>, id: u64) -> Result<bool, Refused> {
        let trip = match self.trips.get_mut(&id) {
            Some(trip) if trip.is_open => trip,
            _ => return Ok(false),
        };
        if !trip.writing.bytes.is_empty() {
            trip.writing.go_on(calls, id)?;
        }
        loop {
            match calls.make(&Turn::Read { id, size: 65536 })? {
                Reply::Read(Some(bytes)) => trip.came.extend(bytes),
                Reply::Read(None) => break,
                Reply::Pending => return Ok(false),
                other => panic!("stream {id}: {other:?}"),
            }
        }
        assert!(trip.came == trip.sent, "stream {id}: {} bytes came back of {}", trip.came.len(), trip.sent.len());
        self.trips.remove(&id);
        Ok(true)
    }

    /// Sends each datagram that didn't come back, again and again, since they may be lost.
    fn send_datagrams(&mut self, calls: &mut Calls<'_>) -> Result<(), Refused> {
        while let Reply::Datagram(payload) = calls.make(&Turn::ReceiveDatagram(self.session))? {
            self.echoed.insert(payload);
        }
        if self.sent_at.map_or(false, |at| calls.now() < at + Duration::from_millis(50)) {
            return Ok(());
        }
        self.sent_at = Some(calls.now());
        let all = (0..self.datagrams).map(|i| format!("datagram {i}").into_bytes());
        for payload in all.filter(|it| !self.echoed.contains(it)).take(8) {
            calls.make(&Turn::SendDatagram { payload: &payload, session: self.session })?;
        }
        Ok(())
    }
}

impl Application for Sender {
    type Adapter = Plain;

    fn poll(&mut self, calls: &mut Calls<'_>) -> Result<bool, Refused> {
        if self.is_done.load(Ordering::SeqCst) {
            return Ok(false);
        }
        if self.session.is_none() {
            match calls.make(&Turn::Handshake)? {
                Reply::Session(id) => self.session = Some(id),
                Reply::Pending => return Ok(false),
                other => panic!("no session: {other:?}"),
            }
        }
        let mut goes_on = self.start(calls)?;
        for id in calls.take_news() {
            goes_on |= self.go_on(calls, id)?;
        }
        self.send_datagrams(calls)?;
        if self.started == self.streams && self.trips.is_empty() && self.echoed.len() == self.datagrams {
            assert_eq!(calls.make(&Turn::Close { code: 17, reason: b"done" })?, Reply::Done);
            self.is_done.store(true, Ordering::SeqCst);
        }
        Ok(goes_on)
    }

    fn deadline(&self) -> Option<Instant> {
        self.sent_at.map(|at| at + Duration::from_millis(50))
    }

    fn gone(&mut self, turns: u64, refused: Option<Refused>) {
        println!("client: {turns} turns, refused {refused:?}");
        assert_eq!(refused, None);
    }
}

/// A server of one connection, which ends with it.
fn serve(name: &str, has_loss: bool) -> (SocketAddr, JoinHandle<()>) {
    let mut host = Host::<Echo>::new(common::socket(), Some(common::server_config(name)));
    let address = host.local_addr().unwrap();
    let thread = std::thread::spawn(move || {
        let mut came = false;
        while !came || !host.is_empty() {
            let mut accept = |_| {
                came = true;
                Some((Link::server(Plain)?, Echo { has_loss, ..Echo::default() }))
            };
            host.round(Duration::from_secs(1), &mut accept).unwrap();
        }
    });
    (address, thread)
}

fn send(name: &str, streams: usize, length: usize, datagrams: usize, loss: u64) {
    let begun = Instant::now();
    let (server, thread) = serve(name, loss > 0);
    let address = common::lossy_link(server, loss);
    let url = format!("https://localhost:{}/echo", address.port());
    let (link, dial) = Link::client(&url, &[("origin", "https://localhost")], address, Plain).unwrap();
    let is_done = Arc::new(AtomicBool::new(false));
    let sender = Sender {
        streams,
        length,
        datagrams,
        session: None,
        started: 0,
        trips: BTreeMap::new(),
        echoed: BTreeSet::new(),
        sent_at: None,
        is_done: is_done.clone(),
    };
    let mut host = Host::new(common::socket(), None);
    host.connect(common::client_config(), &dial, link, sender).unwrap();
    while !host.is_empty() {
        host.round(Duration::from_secs(1), &mut |_| None).unwrap();
    }
    assert!(is_done.load(Ordering::SeqCst), "{name}: the connection was lost");
    thread.join().unwrap();
    println!(
        "{name}: {streams} streams of {length} bytes and {datagrams} datagrams, {loss} of 1000 packets lost, in {:?}",
        begun.elapsed()
    );
}

#[test]
fn a_thousand_streams() {
    send("a_thousand_streams", 1000, 100, 100, 0);
}

#[test]
fn eight_megabytes() {
    send("eight_megabytes", 1, 8 << 20, 1, 0);
}

#[test]
fn eight_megabytes_with_a_loss_of_five_percent_each_way() {
    send("eight_megabytes_with_loss", 1, 8 << 20, 1, 50);
}

#[test]
fn a_loss_of_five_percent_each_way() {
    send("a_loss_of_five_percent_each_way", 200, 10_000, 50, 50);
}
