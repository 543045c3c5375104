//! The core of Zevombu under [quinn-proto](quinn_proto): what QUIC reports becomes turns of the core, and the actions of its answers
//! become calls of quinn-proto. Like both it does no input or output itself, but for [`Host`], which has a UDP socket.
//!
//! - [`Link`] is one connection: it gives the core credit of its own, holds back what the application doesn't read, and ends what
//!   the core leaves open.
//! - [`Calls`] is how an application makes its calls on a link.
//! - [`Host`] runs the connections of a UDP socket, each with an [`Application`].
//! - [`Adapter`] may rewrite what a peer sends before the core sees it.
//!
//! The answers to the turns are proved; this crate, which makes the turns, is plain Rust (README.md says where the line is).

#![forbid(unsafe_code)]
#![warn(missing_docs)]

mod adapter;
mod calls;
mod codes;
mod host;
mod inbound;
mod link;
mod outbound;
mod quic;
mod varint;

pub use adapter::{Adapter, Plain};
pub use calls::Calls;
pub use codes::{from_http3, to_http3};
pub use host::{Application, Host};
pub use link::{ConnectError, Dial, Link};
pub use varint::{put_varint, read_varint};

/// How many bytes of a stream the link keeps each way: beyond what QUIC took, and beyond what the application read.
pub const WINDOW: u64 = 64 * 1024;
