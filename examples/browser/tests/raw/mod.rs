//! A client of bare bytes on quinn-proto, which does what no browser does, and a server to do it to.

use bytes::BytesMut;
use quinn_proto::{
    ClientConfig, Connection, ConnectionHandle, DatagramEvent, Dir, Endpoint, EndpointConfig, Event, ReadError, StreamEvent,
    StreamId, TransportConfig, VarInt, WriteError,
};
use rustls::client::{ServerCertVerified, ServerCertVerifier};
use std::collections::{BTreeMap, VecDeque};
use std::net::{Ipv4Addr, SocketAddr, UdpSocket};
use std::path::Path;
use std::process::Command;
use std::sync::atomic::{AtomicBool, Ordering};
use std::sync::Arc;
use std::thread::JoinHandle;
use std::time::{Duration, Instant, SystemTime};
use zevombu_browser::{decode, encode, server_config, Lines, Server};
use zevombu_quinn::{put_varint, read_varint};

/// How long a test waits for what has to come.
pub const SOON: Duration = Duration::from_secs(20);

fn socket() -> UdpSocket {
    UdpSocket::bind((Ipv4Addr::LOCALHOST, 0)).unwrap()
}

/// Makes a certificate with openssl, and reads it and its key.
fn certificate(name: &str) -> (Vec<u8>, Vec<u8>) {
    let folder = Path::new(env!("CARGO_TARGET_TMPDIR")).join(name);
    std::fs::create_dir_all(&folder).unwrap();
    let script = "openssl ecparam -name prime256v1 -genkey -noout | openssl pkcs8 -topk8 -nocrypt -outform DER -out key.der && \
        openssl req -x509 -new -keyform DER -key key.der -subj /CN=localhost -days 2 -outform DER -out cert.der";
    let made = Command::new("sh").args(["-c", script]).current_dir(&folder).output().unwrap();
    assert!(made.status.success(), "openssl: {}", String::from_utf8_lossy(&made.stderr));
    (std::fs::read(folder.join("cert.der")).unwrap(), std::fs::read(folder.join("key.der")).unwrap())
}

/// A server on a thread of its own, until it is dropped.
pub struct Running {
    pub address: SocketAddr,
    stops: Arc<AtomicBool>,
    thread: Option<JoinHandle<()>>,
}

impl Running {
    pub fn new(name: &str) -> Running {
        let (certificate, key) = certificate(name);
        let socket = socket();
        let address = socket.local_addr().unwrap();
        let stops = Arc::new(AtomicBool::new(false));
        let stopped = stops.clone();
        let config = server_config(certificate, key).unwrap();
        let thread = std::thread::spawn(move || {
            let mut server = Server::new(socket, config, false);
            while !stopped.load(Ordering::SeqCst) {
                server.round(Duration::from_millis(100)).unwrap();
            }
        });
        Running { address, stops, thread: Some(thread) }
    }
}

impl Drop for Running {
    fn drop(&mut self) {
        self.stops.store(true, Ordering::SeqCst);
        let ended = self.thread.take().map(JoinHandle::join);
        assert!(std::thread::panicking() || matches!(ended, Some(Ok(()))), "the server failed");
    }
}

struct AnyCertificate;

impl ServerCertVerifier for AnyCertificate {
    fn verify_server_cert(
        &self,
        _: &rustls::Certificate,
        _: &[rustls::Certificate],
        _: &rustls::ServerName,
        _: &mut dyn Iterator<Item = &[u8]>,
        _: &[u8],
        _: SystemTime,
    ) -> Result<ServerCertVerified, rustls::Error> {
        Ok(ServerCertVerified::assertion())
    }
}

fn client_config() -> ClientConfig {
    let mut crypto = rustls::ClientConfig::builder()
        .with_safe_default_cipher_suites()
        .with_safe_default_kx_groups()
        .with_protocol_versions(&[&rustls::version::TLS13])
        .unwrap()
        .with_custom_certificate_verifier(Arc::new(AnyCertificate))
        .with_no_client_auth();
    crypto.alpn_protocols = vec![b"h3".to_vec()];
    let mut transport = TransportConfig::default();
    transport.stream_receive_window(65536u32.into()).datagram_receive_buffer_size(Some(1 << 20));
    let mut config = ClientConfig::new(Arc::new(crypto));
    config.transport_config(Arc::new(transport));
    config
}

/// What came on a stream.
#[derive(Default, Clone)]
pub struct Came {
    pub bytes: Vec<u8>,
    /// `fin`, or `reset` and its code.
    pub end: Option<String>,
    pub stop: Option<u64>,
}

impl Came {
    /// How it ended both ways.
    pub fn ends(&self) -> String {
        let stop = self.stop.map_or_else(|| "none".into(), |code| format!("{code:#x}"));
        format!("{}, stop {stop}", self.end.as_deref().unwrap_or("open"))
    }
}

/// The client.
pub struct Peer {
    endpoint: Endpoint,
    handle: ConnectionHandle,
    quic: Connection,
    socket: UdpSocket,
    /// By id; streams in it are read, others aren't.
    pub streams: BTreeMap<u64, Came>,
    pub datagrams: Vec<Vec<u8>>,
    out: BTreeMap<u64, (VecDeque<u8>, bool)>,
    pub lost: Option<String>,
}

fn stream(id: u64) -> StreamId {
    StreamId::from(VarInt::from_u64(id).unwrap())
}

fn number(id: StreamId) -> u64 {
    VarInt::from(id).into_inner()
}

/// A frame, or a capsule.
pub fn framed(kind: u64, bytes: &[u8]) -> Vec<u8> {
    let mut out = Vec::new();
    put_varint(kind, &mut out);
    put_varint(bytes.len() as u64, &mut out);
    out.extend(bytes);
    out
}

/// The capsule that closes a session, in a DATA frame.
pub fn close_capsule(code: u32, reason: &str) -> Vec<u8> {
    framed(0, &framed(0x2843, &[&code.to_be_bytes(), reason.as_bytes()].concat()))
}

/// The status in front of what came on a request's stream, and how long its frame is.
fn response(bytes: &[u8]) -> Option<(String, usize)> {
    let (kind, rest) = read_varint(bytes)?;
    let (length, rest) = read_varint(rest)?;
    let section = rest.get(..length as usize)?;
    assert_eq!(kind, 1);
    let lines = decode(section)?;
    let status = lines.iter().find(|(name, _)| name == b":status")?;
    Some((String::from_utf8_lossy(&status.1).into(), bytes.len() - rest.len() + section.len()))
}

impl Peer {
    /// A connection with the streams that HTTP/3 wants.
    pub fn new(server: SocketAddr) -> Peer {
        let mut endpoint = Endpoint::new(Arc::new(EndpointConfig::default()), None);
        let (handle, quic) = endpoint.connect(client_config(), server, "localhost").unwrap();
        let mut peer = Peer {
            endpoint,
            handle,
            quic,
            socket: socket(),
            streams: BTreeMap::new(),
            datagrams: Vec::new(),
            out: BTreeMap::new(),
            lost: None,
        };
        assert!(peer.until(|peer| !peer.quic.is_handshaking()), "no handshake: {:?}", peer.lost);
        // Its control stream: ENABLE_CONNECT_PROTOCOL, H3_DATAGRAM, ENABLE_WEBTRANSPORT.
        let settings = [0x08, 0x01, 0x33, 0x01, 0xab, 0x60, 0x37, 0x42, 0x01];
        peer.open(Dir::Uni, &[&[0x00][..], &framed(0x04, &settings)].concat(), false);
        peer.open(Dir::Uni, &[0x02], false);
        peer.open(Dir::Uni, &[0x03], false);
        peer
    }

    /// Opens a stream, waiting for credit, and sends bytes on it; `None` where the connection is lost.
    pub fn try_open(&mut self, dir: Dir, bytes: &[u8], is_last: bool) -> Option<u64> {
        let begun = Instant::now();
        let id = loop {
            if self.lost.is_some() {
                return None;
            }
            if let Some(id) = self.quic.streams().open(dir) {
                break number(id);
            }
            assert!(begun.elapsed() < SOON, "no credit for a stream");
            self.pump(Duration::from_millis(2));
        };
        if dir == Dir::Bi {
            self.streams.insert(id, Came::default());
        }
        self.send(id, bytes, is_last);
        Some(id)
    }

    pub fn open(&mut self, dir: Dir, bytes: &[u8], is_last: bool) -> u64 {
        self.try_open(dir, bytes, is_last).unwrap_or_else(|| panic!("the connection is lost: {:?}", self.lost))
    }

    pub fn send(&mut self, id: u64, bytes: &[u8], is_last: bool) {
        let (waiting, ends) = self.out.entry(id).or_default();
        waiting.extend(bytes);
        *ends |= is_last;
        self.pump(Duration::ZERO);
    }

    /// How many bytes QUIC didn't take yet.
    pub fn waiting(&self, id: u64) -> usize {
        self.out.get(&id).map_or(0, |(waiting, _)| waiting.len())
    }

    pub fn reset(&mut self, id: u64, code: u64) {
        // It may have ended.
        let _ = self.quic.send_stream(stream(id)).reset(VarInt::from_u64(code).unwrap());
        self.pump(Duration::ZERO);
    }

    pub fn stop(&mut self, id: u64, code: u64) {
        // It may have ended.
        let _ = self.quic.recv_stream(stream(id)).stop(VarInt::from_u64(code).unwrap());
        self.pump(Duration::ZERO);
    }

    pub fn send_datagram(&mut self, session: u64, payload: &[u8]) {
        let mut bytes = Vec::new();
        put_varint(session / 4, &mut bytes);
        bytes.extend(payload);
        self.quic.datagrams().send(bytes.into()).unwrap();
        self.pump(Duration::ZERO);
    }

    /// A bidirectional or unidirectional stream of a session.
    pub fn bi(&mut self, session: u64, bytes: &[u8], is_last: bool) -> u64 {
        let mut header = vec![0x40, 0x41];
        put_varint(session, &mut header);
        self.open(Dir::Bi, &[&header, bytes].concat(), is_last)
    }

    pub fn uni(&mut self, session: u64, bytes: &[u8], is_last: bool) -> u64 {
        let mut header = vec![0x40, 0x54];
        put_varint(session, &mut header);
        self.open(Dir::Uni, &[&header, bytes].concat(), is_last)
    }

    /// Asks for a session.
    pub fn request(&mut self, path: &str) -> u64 {
        let fields = [
            (":method", "CONNECT"),
            (":scheme", "https"),
            (":authority", "localhost"),
            (":path", path),
            (":protocol", "webtransport"),
        ];
        let lines: Lines = fields.iter().map(|(name, value)| (name.as_bytes().to_vec(), value.as_bytes().to_vec())).collect();
        self.open(Dir::Bi, &framed(1, &encode(&lines)), false)
    }

    /// The status that answers a request, or how its stream ended.
    pub fn status(&mut self, id: u64) -> String {
        let is_answered = |came: &Came| came.end.is_some() || response(&came.bytes).is_some();
        self.until(|peer| is_answered(&peer.streams[&id]));
        let came = &self.streams[&id];
        response(&came.bytes).map_or_else(|| came.ends(), |(status, _)| status)
    }

    pub fn session(&mut self, path: &str) -> u64 {
        let id = self.request(path);
        assert_eq!(self.status(id), "200");
        id
    }

    /// What came on a session's stream after the response.
    pub fn after_response(&self, id: u64) -> &[u8] {
        let bytes = &self.streams[&id].bytes;
        response(bytes).map_or(&[], |(_, length)| &bytes[length..])
    }

    /// Waits for a stream's end, and says how it ended.
    pub fn end(&mut self, id: u64) -> String {
        self.until(|peer| peer.streams[&id].end.is_some());
        self.streams[&id].ends()
    }

    /// Sends bytes on a stream of its own, and compares what comes back.
    pub fn echo(&mut self, session: u64, bytes: &[u8]) {
        let id = self.bi(session, bytes, true);
        assert_eq!(self.end(id), "fin, stop none");
        assert!(self.streams[&id].bytes == bytes, "{} bytes came back of {}", self.streams[&id].bytes.len(), bytes.len());
    }

    pub fn echo_datagram(&mut self, session: u64, payload: &[u8]) {
        self.send_datagram(session, payload);
        let mut wanted = Vec::new();
        put_varint(session / 4, &mut wanted);
        wanted.extend(b"echo: ");
        wanted.extend(payload);
        assert!(self.until(|peer| peer.datagrams.contains(&wanted)));
    }

    /// Goes on until this holds; false where it doesn't soon.
    pub fn until(&mut self, holds: impl Fn(&Peer) -> bool) -> bool {
        let begun = Instant::now();
        loop {
            self.pump(Duration::from_millis(2));
            if holds(self) {
                return true;
            }
            if self.lost.is_some() || begun.elapsed() > SOON {
                return false;
            }
        }
    }

    pub fn rest(&mut self, time: Duration) {
        let begun = Instant::now();
        while begun.elapsed() < time {
            self.pump(Duration::from_millis(5));
        }
    }

    fn pump(&mut self, wait: Duration) {
        let now = Instant::now();
        if self.quic.poll_timeout().map_or(false, |at| at <= now) {
            self.quic.handle_timeout(now);
        }
        self.write();
        while let Some(event) = self.quic.poll_endpoint_events() {
            if let Some(event) = self.endpoint.handle_event(self.handle, event) {
                self.quic.handle_event(event);
            }
        }
        while let Some(packet) = self.quic.poll_transmit(now, 1) {
            let _ = self.socket.send_to(&packet.contents, packet.destination);
        }
        while let Some(event) = self.quic.poll() {
            self.take(event);
        }
        let ids: Vec<u64> = self.streams.keys().copied().collect();
        for id in ids {
            self.read(id);
        }
        if !wait.is_zero() {
            self.receive(wait);
        }
    }

    fn write(&mut self) {
        for (id, (waiting, is_last)) in &mut self.out {
            let mut half = self.quic.send_stream(stream(*id));
            while !waiting.is_empty() {
                match half.write(waiting.make_contiguous()) {
                    Ok(count) => drop(waiting.drain(..count)),
                    Err(WriteError::Blocked) => break,
                    Err(_) => waiting.clear(),
                }
            }
            if waiting.is_empty() && std::mem::take(is_last) {
                let _ = half.finish();
            }
        }
        self.out.retain(|_, (waiting, is_last)| !waiting.is_empty() || *is_last);
    }

    fn take(&mut self, event: Event) {
        match event {
            Event::Stream(StreamEvent::Opened { dir }) => {
                while let Some(id) = self.quic.streams().accept(dir) {
                    self.streams.insert(number(id), Came::default());
                }
            }
            Event::Stream(StreamEvent::Stopped { id, error_code }) => {
                self.streams.entry(number(id)).or_default().stop = Some(error_code.into_inner());
            }
            Event::DatagramReceived => {
                while let Some(datagram) = self.quic.datagrams().recv() {
                    self.datagrams.push(datagram.to_vec());
                }
            }
            Event::ConnectionLost { reason } => self.lost = Some(reason.to_string()),
            _ => {}
        }
    }

    fn read(&mut self, id: u64) {
        let is_readable = id & 2 == 0 || id & 1 == 1;
        let came = match self.streams.get_mut(&id) {
            Some(came) if is_readable && came.end.is_none() => came,
            _ => return,
        };
        let mut half = self.quic.recv_stream(stream(id));
        let mut chunks = match half.read(true) {
            Ok(chunks) => chunks,
            Err(_) => return,
        };
        while came.end.is_none() {
            match chunks.next(usize::MAX) {
                Ok(Some(chunk)) => came.bytes.extend(&chunk.bytes),
                Ok(None) => came.end = Some("fin".into()),
                Err(ReadError::Reset(code)) => came.end = Some(format!("reset {:#x}", code.into_inner())),
                Err(ReadError::Blocked) => break,
            }
        }
        let _ = chunks.finalize();
    }

    fn receive(&mut self, wait: Duration) {
        let mut packet = vec![0; 65536];
        self.socket.set_read_timeout(Some(wait)).unwrap();
        self.socket.set_nonblocking(false).unwrap();
        while let Ok((length, from)) = self.socket.recv_from(&mut packet) {
            let bytes = BytesMut::from(&packet[..length]);
            if let Some((_, DatagramEvent::ConnectionEvent(event))) = self.endpoint.handle(Instant::now(), from, None, None, bytes)
            {
                self.quic.handle_event(event);
            }
            self.socket.set_nonblocking(true).unwrap();
        }
    }
}
