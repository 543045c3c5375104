//! Two ends over UDP on loopback, with a link between them that may lose packets.

use quinn_proto::{ClientConfig, ServerConfig, TransportConfig, VarInt};
use rustls::client::{ServerCertVerified, ServerCertVerifier};
use std::net::{Ipv4Addr, SocketAddr, UdpSocket};
use std::path::Path;
use std::process::Command;
use std::sync::Arc;
use std::time::{Duration, SystemTime};

/// Takes any certificate: these tests are of what stands above TLS.
struct AnyCertificate;

impl ServerCertVerifier for AnyCertificate {
    fn verify_server_cert(
        &self,
        _: &rustls::Certificate,
        _: &[rustls::Certificate],
        _: &rustls::ServerName,
        _: &mut dyn Iterator<Item = &[u8]>,
        _: &[u8],
        _: SystemTime,
    ) -> Result<ServerCertVerified, rustls::Error> {
        Ok(ServerCertVerified::assertion())
    }
}

fn transport() -> Arc<TransportConfig> {
    let mut config = TransportConfig::default();
    config.max_idle_timeout(Some(VarInt::from_u32(10_000).into())).datagram_receive_buffer_size(Some(1 << 20));
    Arc::new(config)
}

/// Makes a certificate with openssl, and reads it and its key.
fn certificate(name: &str) -> (Vec<u8>, Vec<u8>) {
    let folder = Path::new(env!("CARGO_TARGET_TMPDIR")).join(name);
    std::fs::create_dir_all(&folder).unwrap();
    let script = "openssl ecparam -name prime256v1 -genkey -noout | openssl pkcs8 -topk8 -nocrypt -outform DER -out key.der && \
        openssl req -x509 -new -keyform DER -key key.der -subj /CN=localhost -days 2 -outform DER -out cert.der";
    let made = Command::new("sh").args(["-c", script]).current_dir(&folder).output().unwrap();
    assert!(made.status.success(), "openssl: {}", String::from_utf8_lossy(&made.stderr));
    (std::fs::read(folder.join("cert.der")).unwrap(), std::fs::read(folder.join("key.der")).unwrap())
}

pub fn server_config(name: &str) -> Arc<ServerConfig> {
    let (certificate, key) = certificate(name);
    let mut crypto = rustls::ServerConfig::builder()
        .with_safe_default_cipher_suites()
        .with_safe_default_kx_groups()
        .with_protocol_versions(&[&rustls::version::TLS13])
        .unwrap()
        .with_no_client_auth()
        .with_single_cert(vec![rustls::Certificate(certificate)], rustls::PrivateKey(key))
        .unwrap();
    crypto.alpn_protocols = vec![b"h3".to_vec()];
    let mut config = ServerConfig::with_crypto(Arc::new(crypto));
    config.transport_config(transport());
    Arc::new(config)
}

pub fn client_config() -> ClientConfig {
    let mut crypto = rustls::ClientConfig::builder()
        .with_safe_default_cipher_suites()
        .with_safe_default_kx_groups()
        .with_protocol_versions(&[&rustls::version::TLS13])
        .unwrap()
        .with_custom_certificate_verifier(Arc::new(AnyCertificate))
        .with_no_client_auth();
    crypto.alpn_protocols = vec![b"h3".to_vec()];
    let mut config = ClientConfig::new(Arc::new(crypto));
    config.transport_config(transport());
    config
}

pub fn socket() -> UdpSocket {
    UdpSocket::bind((Ipv4Addr::LOCALHOST, 0)).unwrap()
}

/// Drops so many of a thousand packets, always the same ones.
struct Lossy {
    seed: u64,
    per_thousand: u64,
}

impl Lossy {
    fn drops(&mut self) -> bool {
        self.seed ^= self.seed << 13;
        self.seed ^= self.seed >> 7;
        self.seed ^= self.seed << 17;
        self.seed % 1000 < self.per_thousand
    }
}

/// A socket that passes packets between one client and the server, and loses so many of a thousand each way. It ends when nothing
/// came for some seconds.
pub fn lossy_link(server: SocketAddr, per_thousand: u64) -> SocketAddr {
    let link = socket();
    let address = link.local_addr().unwrap();
    link.set_read_timeout(Some(Duration::from_secs(30))).unwrap();
    std::thread::spawn(move || {
        let mut lossy = Lossy { seed: 88_172_645_463_325_252, per_thousand };
        let mut client = None;
        let mut packet = vec![0; 65536];
        while let Ok((length, from)) = link.recv_from(&mut packet) {
            let to = if from == server { client } else { Some(server) };
            if from != server {
                client = Some(from);
            }
            if let (Some(to), false) = (to, lossy.drops()) {
                let _ = link.send_to(&packet[..length], to);
            }
        }
    });
    address
}
