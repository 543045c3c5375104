//! Integers as QUIC writes them (RFC 9000, section 16).

/// Appends an integer below 2^62.
pub fn put_varint(value: u64, out: &mut Vec<u8>) {
    match value {
        0..=0x3f => out.push(value as u8),
        0x40..=0x3fff => out.extend((value as u16 | 0x4000).to_be_bytes()),
        0x4000..=0x3fff_ffff => out.extend((value as u32 | 0x8000_0000).to_be_bytes()),
        _ => out.extend((value | 0xc000_0000_0000_0000).to_be_bytes()),
    }
}

/// The integer in front of the bytes, and what follows it; `None` where it isn't whole.
pub fn read_varint(bytes: &[u8]) -> Option<(u64, &[u8])> {
    let length = 1 << (bytes.first()? >> 6);
    let head = bytes.get(..length)?;
    let first = u64::from(head[0] & 0x3f);
    let value = head[1..].iter().fold(first, |value, byte| value << 8 | u64::from(*byte));
    Some((value, &bytes[length..]))
}

#[cfg(test)]
mod tests {
    use super::*;

    #[test]
    fn what_is_written_reads_back() {
        for value in [0, 63, 64, 16383, 16384, (1 << 30) - 1, 1 << 30, (1 << 62) - 1] {
            let mut bytes = Vec::new();
            put_varint(value, &mut bytes);
            bytes.push(7);
            assert_eq!(read_varint(&bytes), Some((value, &[7][..])));
            assert_eq!(read_varint(&bytes[..bytes.len() - 2]), None);
        }
    }
}
