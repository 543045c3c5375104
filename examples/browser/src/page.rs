//! The page over plain HTTP on loopback, which browsers take for secure, and what it reports.

use std::io::{self, BufRead, BufReader, Read, Write};
use std::net::{TcpListener, TcpStream};
use std::path::PathBuf;
use std::sync::{Arc, Condvar, Mutex};
use std::time::Duration;

/// How long the page's last image is kept back at most.
const PATIENCE: Duration = Duration::from_secs(110);
/// How long a report may be.
const LONGEST: usize = 1 << 20;

/// A page, with how often it reported its result.
pub struct Page {
    html: String,
    result: Option<PathBuf>,
    results: Mutex<u64>,
    reported: Condvar,
}

struct Request {
    path: String,
    body: String,
}

fn read_request(stream: &TcpStream) -> io::Result<Request> {
    let mut reader = BufReader::new(stream).take(LONGEST as u64);
    let mut first = String::new();
    reader.read_line(&mut first)?;
    let mut length = 0;
    loop {
        let mut line = String::new();
        if reader.read_line(&mut line)? == 0 || line.trim().is_empty() {
            break;
        }
        if let Some(value) = line.to_ascii_lowercase().strip_prefix("content-length:") {
            length = value.trim().parse().unwrap_or(0);
        }
    }
    let mut body = vec![0; LONGEST.min(length)];
    reader.read_exact(&mut body)?;
    let path = first.split(' ').nth(1).unwrap_or("/").to_string();
    Ok(Request { path, body: String::from_utf8_lossy(&body).into_owned() })
}

fn respond(mut stream: &TcpStream, kind: &str, body: &str) -> io::Result<()> {
    write!(
        stream,
        "HTTP/1.1 200 OK\r\nContent-Type: {kind}\r\nContent-Length: {}\r\nConnection: close\r\nCache-Control: no-store\r\n\r\n{body}",
        body.len()
    )
}

impl Page {
    /// A page, whose result is written to a file if there is one.
    pub fn new(html: String, result: Option<PathBuf>) -> Arc<Page> {
        Arc::new(Page { html, result, results: Mutex::new(0), reported: Condvar::new() })
    }

    /// Serves it on threads of its own.
    pub fn serve(self: Arc<Page>, listener: TcpListener) {
        std::thread::spawn(move || {
            for stream in listener.incoming().flatten() {
                let page = self.clone();
                // A browser that goes away in the middle is no matter.
                std::thread::spawn(move || drop(page.answer(&stream)));
            }
        });
    }

    fn answer(&self, stream: &TcpStream) -> io::Result<()> {
        let request = read_request(stream)?;
        match request.path.as_str() {
            "/" => respond(stream, "text/html; charset=utf-8", &self.html),
            "/log" => {
                println!("page: {}", request.body);
                respond(stream, "text/plain", "")
            }
            "/result" => {
                self.report(&request.body)?;
                respond(stream, "text/plain", "")
            }
            "/hold" => {
                self.wait_for_result();
                respond(stream, "image/svg+xml", "<svg xmlns=\"http://www.w3.org/2000/svg\" width=\"1\" height=\"1\"/>")
            }
            _ => respond(stream, "text/plain", ""),
        }
    }

    fn report(&self, result: &str) -> io::Result<()> {
        if let Some(path) = &self.result {
            std::fs::write(path, result)?;
        }
        if let Ok(mut results) = self.results.lock() {
            *results += 1;
        }
        self.reported.notify_all();
        Ok(())
    }

    /// The page's load isn't over before its result, so that a screenshot shows it.
    fn wait_for_result(&self) {
        if let Ok(results) = self.results.lock() {
            let before = *results;
            drop(self.reported.wait_timeout_while(results, PATIENCE, |results| *results == before));
        }
    }
}
