//! What may stand between a peer's bytes and the core.

use bytes::Bytes;

/// Rewrites the streams of requests before the core sees them: for peers that write their header fields in a way that the core
/// doesn't read. What is told to the core is what these functions answer.
pub trait Adapter {
    /// Bytes that came on a bidirectional stream that the peer opened, in order; those of a session's streams don't come here once
    /// their header is whole.
    fn received(&mut self, id: u64, bytes: Bytes) -> Bytes {
        let _ = id;
        bytes
    }

    /// Such a stream ended, or was reset: the bytes that were kept back until now. It isn't named again.
    fn ended(&mut self, id: u64) -> Bytes {
        let _ = id;
        Bytes::new()
    }
}

/// Changes nothing: for peers whose header fields are literals without Huffman codes.
#[derive(Clone, Copy, Debug, Default)]
pub struct Plain;

impl Adapter for Plain {}
