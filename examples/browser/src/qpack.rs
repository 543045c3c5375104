//! Field sections of a peer, made plain: what comes with the static table and Huffman codes (RFC 9204, RFC 7541) goes on as literal
//! lines without them, which is all that the core reads. There is no dynamic table, since the core's SETTINGS give it no room.

use crate::huffman;
use crate::tables::STATIC;

/// The names and values of a field section.
pub type Lines = Vec<(Vec<u8>, Vec<u8>)>;

/// An integer whose first byte has so many bits of it (RFC 7541, section 5.1), and what follows it.
fn read_integer(bytes: &[u8], bits: u32) -> Option<(usize, &[u8])> {
    let mask = (1usize << bits) - 1;
    let (first, mut rest) = bytes.split_first()?;
    let mut value = usize::from(*first) & mask;
    if value < mask {
        return Some((value, rest));
    }
    for shift in (0..28).step_by(7) {
        let (byte, after) = rest.split_first()?;
        rest = after;
        value += usize::from(byte & 0x7f) << shift;
        if byte & 0x80 == 0 {
            return Some((value, rest));
        }
    }
    None
}

fn put_integer(first: u8, bits: u32, value: usize, out: &mut Vec<u8>) {
    let mask = (1usize << bits) - 1;
    if value < mask {
        out.push(first | value as u8);
        return;
    }
    out.push(first | mask as u8);
    let mut value = value - mask;
    while value >= 0x80 {
        out.push(value as u8 | 0x80);
        value >>= 7;
    }
    out.push(value as u8);
}

/// A text, whose length has so many bits of its first byte; the bit above them says whether it has Huffman codes.
fn read_text(bytes: &[u8], bits: u32) -> Option<(Vec<u8>, &[u8])> {
    let is_huffman = bytes.first()? >> bits & 1 == 1;
    let (length, rest) = read_integer(bytes, bits)?;
    let text = rest.get(..length)?;
    let text = if is_huffman { huffman::decode(text)? } else { text.to_vec() };
    Some((text, &rest[length..]))
}

/// One line of a section, and what follows it (RFC 9204, section 4.5); `None` also for what needs a dynamic table.
fn read_line(bytes: &[u8]) -> Option<(Vec<u8>, Vec<u8>, &[u8])> {
    let first = *bytes.first()?;
    if first & 0xc0 == 0xc0 {
        let (index, rest) = read_integer(bytes, 6)?;
        let (name, value) = STATIC.get(index)?;
        return Some((name.as_bytes().to_vec(), value.as_bytes().to_vec(), rest));
    }
    let (name, rest) = if first & 0xd0 == 0x50 {
        let (index, rest) = read_integer(bytes, 4)?;
        (STATIC.get(index)?.0.as_bytes().to_vec(), rest)
    } else if first & 0xe0 == 0x20 {
        read_text(bytes, 3)?
    } else {
        return None;
    };
    let (value, rest) = read_text(rest, 7)?;
    Some((name, value, rest))
}

/// The lines of a field section; `None` where it is malformed or needs a dynamic table.
pub fn decode(section: &[u8]) -> Option<Lines> {
    let (insert_count, rest) = read_integer(section, 8)?;
    let (_base, mut rest) = read_integer(rest, 7)?;
    if insert_count != 0 {
        return None;
    }
    let mut lines = Lines::new();
    while !rest.is_empty() {
        let (name, value, after) = read_line(rest)?;
        lines.push((name, value));
        rest = after;
    }
    Some(lines)
}

/// A field section of literal lines without Huffman codes.
pub fn encode(lines: &Lines) -> Vec<u8> {
    let mut out = vec![0, 0];
    for (name, value) in lines {
        put_integer(0x20, 3, name.len(), &mut out);
        out.extend(name);
        put_integer(0, 7, value.len(), &mut out);
        out.extend(value);
    }
    out
}

#[cfg(test)]
mod tests {
    use super::*;

    fn lines(fields: &[(&str, &str)]) -> Lines {
        fields.iter().map(|(name, value)| (name.as_bytes().to_vec(), value.as_bytes().to_vec())).collect()
    }

    /// The section of a request as nghttp3 writes it: static entries, and a text with Huffman codes.
    const REQUEST: [u8; 27] = [
        0, 0, 0xcf, 0xd7, 0x50, 0x01, 0x68, 0xc1, 0x2f, 0x00, 0xb9, 0x5d, 0x87, 0x49, 0xc8, 0x7a, 0x3f, 0x89, 0xf0, 0x58, 0xd3,
        0x60, 0xea, 0x45, 0x67, 0xb1, 0x3f,
    ];

    #[test]
    fn a_request_is_read() {
        let wanted = lines(&[
            (":method", "CONNECT"),
            (":scheme", "https"),
            (":authority", "h"),
            (":path", "/"),
            (":protocol", "webtransport"),
        ]);
        assert_eq!(decode(&REQUEST), Some(wanted.clone()));
        assert_eq!(decode(&encode(&wanted)), Some(wanted));
    }

    #[test]
    fn what_is_cut_within_a_line_is_refused() {
        let ends_of_lines = [2, 3, 4, 7, 8];
        for length in 0..REQUEST.len() {
            assert_eq!(decode(&REQUEST[..length]).is_some(), ends_of_lines.contains(&length), "{length}");
        }
    }

    #[test]
    fn a_dynamic_table_is_refused() {
        assert_eq!(decode(&[2, 0, 0x80]), None);
        assert_eq!(decode(&[0, 0, 0x80]), None);
        assert_eq!(decode(&[0, 0, 0x10]), None);
    }

    #[test]
    fn long_texts_come_back() {
        for length in [0, 6, 7, 8, 126, 127, 128, 255, 300, 20_000] {
            let wanted = lines(&[(&"n".repeat(length + 1), &"v".repeat(length))]);
            assert_eq!(decode(&encode(&wanted)), Some(wanted));
        }
    }
}
