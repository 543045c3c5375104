//! quinn-proto's ids, codes and pieces of streams, in the core's terms.

use crate::codes::from_http3;
use bytes::Bytes;
use quinn_proto::{Connection, ReadError, StreamId, VarInt};
use zevombu::Datagrams;

/// A stream by its id.
pub(crate) fn stream(id: u64) -> StreamId {
    StreamId::from(varint(id))
}

/// The id of a stream.
pub(crate) fn number(id: StreamId) -> u64 {
    VarInt::from(id).into_inner()
}

/// The core's ids, codes and totals are below 2^62.
pub(crate) fn varint(value: u64) -> VarInt {
    VarInt::from_u64(value).unwrap_or(VarInt::MAX)
}

/// Whether a stream goes both ways (RFC 9000, section 2.1).
pub(crate) fn is_bidirectional(id: u64) -> bool {
    id & 2 == 0
}

/// A code of the peer's, mapped back where it is an application's.
pub(crate) fn code_from_peer(code: VarInt) -> u64 {
    let code = code.into_inner();
    from_http3(code).map_or(code, u64::from)
}

/// What QUIC had of a stream.
pub(crate) struct Chunk {
    pub bytes: Bytes,
    pub end: Option<End>,
}

/// How a stream ends.
pub(crate) enum End {
    Finished,
    Reset(VarInt),
}

/// As many bytes of a stream as QUIC has, up to a bound; `None` where there is nothing.
pub(crate) fn next_chunk(quic: &mut Connection, id: u64, most: u64) -> Option<Chunk> {
    let mut half = quic.recv_stream(stream(id));
    let mut chunks = half.read(true).ok()?;
    let mut bytes = Vec::new();
    let mut end = None;
    while (bytes.len() as u64) < most {
        match chunks.next(most as usize - bytes.len()) {
            Ok(Some(chunk)) => bytes.extend_from_slice(&chunk.bytes),
            Ok(None) => end = Some(End::Finished),
            Err(ReadError::Reset(code)) => end = Some(End::Reset(code)),
            Err(ReadError::Blocked) => break,
        }
        if end.is_some() {
            break;
        }
    }
    // The windows that this opens go out with the next packets.
    let _ = chunks.finalize();
    (!bytes.is_empty() || end.is_some()).then(|| Chunk { bytes: bytes.into(), end })
}

/// What holds of datagrams now.
pub(crate) fn fact(quic: &mut Connection) -> Datagrams {
    quic.datagrams().max_size().map_or(Datagrams::Unsupported, |size| Datagrams::Limit(size as u64))
}
