//! A server that browsers talk to over WebTransport: the proved core of Zevombu under quinn-proto, with an adapter of header fields in
//! front of it. README.md says what is proved of it, and what isn't.

#![forbid(unsafe_code)]
#![warn(missing_docs)]

mod echo;
mod headers;
mod huffman;
mod page;
mod pipe;
mod qpack;
mod server;
mod tables;

pub use echo::Echo;
pub use headers::PlainHeaders;
pub use page::Page;
pub use qpack::{decode, encode, Lines};
pub use server::{server_config, Server};
