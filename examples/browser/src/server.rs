//! The server: its configuration of QUIC and TLS, and its rounds.

use crate::{Echo, PlainHeaders};
use quinn_proto::{ServerConfig, TransportConfig, VarInt};
use std::io;
use std::net::{SocketAddr, UdpSocket};
use std::sync::Arc;
use std::time::Duration;
use zevombu_quinn::{Host, Link};

/// How many streams of each kind a peer may have open at once.
const STREAMS: u32 = 128;
/// How many bytes of a stream QUIC keeps for a core that doesn't take them.
const STREAM_WINDOW: u32 = 256 * 1024;
/// After how long a silent peer is given up, in milliseconds.
const IDLE: u32 = 30_000;

fn transport() -> TransportConfig {
    let mut config = TransportConfig::default();
    config
        .max_concurrent_uni_streams(STREAMS.into())
        .max_concurrent_bidi_streams(STREAMS.into())
        .stream_receive_window(STREAM_WINDOW.into())
        .max_idle_timeout(Some(VarInt::from_u32(IDLE).into()))
        .datagram_receive_buffer_size(Some(1 << 20));
    config
}

/// The configuration of a server with this certificate and key, both DER.
pub fn server_config(certificate: Vec<u8>, key: Vec<u8>) -> Result<Arc<ServerConfig>, rustls::Error> {
    let mut crypto = rustls::ServerConfig::builder()
        .with_safe_default_cipher_suites()
        .with_safe_default_kx_groups()
        .with_protocol_versions(&[&rustls::version::TLS13])?
        .with_no_client_auth()
        .with_single_cert(vec![rustls::Certificate(certificate)], rustls::PrivateKey(key))?;
    crypto.alpn_protocols = vec![b"h3".to_vec()];
    let mut config = ServerConfig::with_crypto(Arc::new(crypto));
    config.transport_config(Arc::new(transport()));
    Ok(Arc::new(config))
}

/// A socket with its connections.
pub struct Server {
    host: Host<Echo>,
    prints_turns: bool,
}

impl Server {
    /// A server on this socket, which prints each turn and its answer if asked to.
    pub fn new(socket: UdpSocket, config: Arc<ServerConfig>, prints_turns: bool) -> Server {
        Server { host: Host::new(socket, Some(config)), prints_turns }
    }

    /// One round of its connections; it waits at most so long for a packet.
    pub fn round(&mut self, longest: Duration) -> io::Result<()> {
        let prints_turns = self.prints_turns;
        self.host.round(longest, &mut |from| accept(from, prints_turns))
    }
}

fn accept(from: SocketAddr, prints_turns: bool) -> Option<(Link<PlainHeaders>, Echo)> {
    let name = from.port().to_string();
    let mut link = Link::server(PlainHeaders::default())?;
    if prints_turns {
        let name = name.clone();
        link.observe(move |turn, reply, actions| println!("[{name}] {turn:?} -> {reply:?} {actions:?}"));
    }
    println!("[{name}] a connection comes");
    Some((link, Echo::new(name)))
}
