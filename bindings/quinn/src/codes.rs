//! The codes of a session's streams in the space of HTTP/3's codes (draft-ietf-webtrans-http3, section 4.4). The core takes and gives
//! an application's codes as they are.

const FIRST: u64 = 0x52e4_a40f_a8db;
const LAST: u64 = 0x52e5_ac98_3162;

/// The code on the wire of an application's code.
pub fn to_http3(code: u32) -> u64 {
    FIRST + u64::from(code) + u64::from(code) / 0x1e
}

/// The application's code of a code on the wire; `None` where it is another one, or reserved.
pub fn from_http3(code: u64) -> Option<u32> {
    if !(FIRST..=LAST).contains(&code) || (code - 0x21) % 0x1f == 0 {
        return None;
    }
    let shifted = code - FIRST;
    u32::try_from(shifted - shifted / 0x1f).ok()
}

#[cfg(test)]
mod tests {
    use super::*;

    #[test]
    fn codes_come_back() {
        for code in [0, 1, 7, 29, 30, 31, 59, 60, 255, 256, 1000, u32::MAX - 1, u32::MAX] {
            assert_eq!(from_http3(to_http3(code)), Some(code));
        }
        assert_eq!(to_http3(u32::MAX), LAST);
        assert_eq!(from_http3(0x100), None);
    }
}
