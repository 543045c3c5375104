//! Texts with Huffman codes (RFC 7541, section 5.2).

use crate::tables::HUFFMAN_LENGTHS;

const LONGEST: usize = 30;
const END: u16 = 256;

/// The codes of one length, which follow each other in the order of their symbols.
#[derive(Clone, Copy, Default)]
struct Row {
    first: u32,
    count: u32,
    /// Where their symbols begin.
    at: usize,
}

/// The code: its symbols in the order of their codes, and a row for each length.
struct Code {
    symbols: Vec<u16>,
    rows: [Row; LONGEST + 1],
}

fn length(symbol: u16) -> usize {
    usize::from(HUFFMAN_LENGTHS[usize::from(symbol)])
}

fn code() -> Code {
    let mut symbols: Vec<u16> = (0..=END).collect();
    symbols.sort_by_key(|symbol| (length(*symbol), *symbol));
    let mut rows = [Row::default(); LONGEST + 1];
    let mut next = Row::default();
    for (bits, row) in rows.iter_mut().enumerate().skip(1) {
        next.first <<= 1;
        next.count = symbols.iter().filter(|symbol| length(**symbol) == bits).count() as u32;
        *row = next;
        next.first += next.count;
        next.at += next.count as usize;
    }
    Code { symbols, rows }
}

impl Code {
    /// The symbol of a code of so many bits.
    fn symbol(&self, bits: usize, code: u32) -> Option<u16> {
        let row = self.rows[bits];
        let place = code.checked_sub(row.first).filter(|place| *place < row.count)?;
        Some(self.symbols[row.at + place as usize])
    }
}

/// The text; `None` where it isn't one.
pub fn decode(bytes: &[u8]) -> Option<Vec<u8>> {
    let table = code();
    let mut out = Vec::new();
    let (mut code, mut bits) = (0, 0);
    let all = bytes.iter().flat_map(|byte| (0..8).rev().map(move |shift| u32::from(byte >> shift & 1)));
    for bit in all {
        code = code << 1 | bit;
        bits += 1;
        match table.symbol(bits, code) {
            Some(END) => return None,
            Some(symbol) => {
                out.push(symbol as u8);
                (code, bits) = (0, 0);
            }
            None if bits == LONGEST => return None,
            None => {}
        }
    }
    // What is left is the beginning of the end's code, which is all ones, and shorter than a byte.
    let is_padding = bits < 8 && code + 1 == 1 << bits;
    is_padding.then_some(out)
}

#[cfg(test)]
mod tests {
    use super::*;

    #[test]
    fn texts_of_the_standard() {
        // RFC 7541, appendix C.4 and C.6
        let text = [0xf1, 0xe3, 0xc2, 0xe5, 0xf2, 0x3a, 0x6b, 0xa0, 0xab, 0x90, 0xf4, 0xff];
        assert_eq!(decode(&text).as_deref(), Some(&b"www.example.com"[..]));
        let key = [0x25, 0xa8, 0x49, 0xe9, 0x5b, 0xa9, 0x7d, 0x7f];
        assert_eq!(decode(&key).as_deref(), Some(&b"custom-key"[..]));
        assert_eq!(decode(&[]), Some(Vec::new()));
    }

    #[test]
    fn padding_is_short_and_all_ones() {
        assert_eq!(decode(&[0xff]), None);
        assert_eq!(decode(&[0xff; 4]), None);
        assert_eq!(decode(&[0xf1, 0xe3, 0xc2, 0xe5, 0xf2, 0x3a, 0x6b, 0xa0, 0xab, 0x90, 0xf4, 0xfe]), None);
    }
}
