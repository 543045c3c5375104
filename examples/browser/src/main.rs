//! `zevombu-browser CERTIFICATES PAGE [--quic PORT] [--http PORT] [--result FILE] [--turns]`: serves WebTransport and its page on 127.0.0.1.
//! The folder CERTIFICATES has cert.der and key.der; the page's result is written to a file, and each turn printed, if asked for.

use ring::digest::{digest, SHA256};
use std::error::Error;
use std::net::{Ipv4Addr, TcpListener, UdpSocket};
use std::path::{Path, PathBuf};
use std::time::Duration;
use zevombu_browser::{server_config, Page, Server};

struct Options {
    certificates: PathBuf,
    page: PathBuf,
    quic: u16,
    http: u16,
    result: Option<PathBuf>,
    prints_turns: bool,
}

const USAGE: &str = "usage: zevombu-browser CERTIFICATES PAGE [--quic PORT] [--http PORT] [--result FILE] [--turns]";

fn options() -> Result<Options, Box<dyn Error>> {
    let mut words = std::env::args().skip(1);
    let certificates = words.next().ok_or(USAGE)?.into();
    let page = words.next().ok_or(USAGE)?.into();
    let mut options = Options { certificates, page, quic: 4443, http: 8080, result: None, prints_turns: false };
    while let Some(word) = words.next() {
        let mut value = || words.next().ok_or(USAGE);
        match word.as_str() {
            "--quic" => options.quic = value()?.parse()?,
            "--http" => options.http = value()?.parse()?,
            "--result" => options.result = Some(value()?.into()),
            "--turns" => options.prints_turns = true,
            _ => return Err(USAGE.into()),
        }
    }
    Ok(options)
}

fn read(folder: &Path, name: &str) -> Result<Vec<u8>, Box<dyn Error>> {
    let path = folder.join(name);
    std::fs::read(&path).map_err(|error| format!("{}: {error}", path.display()).into())
}

fn hex(bytes: &[u8]) -> String {
    bytes.iter().map(|byte| format!("{byte:02x}")).collect()
}

fn main() -> Result<(), Box<dyn Error>> {
    let options = options()?;
    let certificate = read(&options.certificates, "cert.der")?;
    let key = read(&options.certificates, "key.der")?;
    let hash = hex(digest(&SHA256, &certificate).as_ref());
    let html = std::fs::read_to_string(&options.page)?.replace("@PORT@", &options.quic.to_string()).replace("@HASH@", &hash);
    let socket = UdpSocket::bind((Ipv4Addr::LOCALHOST, options.quic))?;
    let listener = TcpListener::bind((Ipv4Addr::LOCALHOST, options.http))?;
    Page::new(html, options.result).serve(listener);
    println!("WebTransport at https://127.0.0.1:{}/echo, its page at http://127.0.0.1:{}/", options.quic, options.http);
    let mut server = Server::new(socket, server_config(certificate, key)?, options.prints_turns);
    loop {
        server.round(Duration::from_secs(1))?;
    }
}
