//! What each octet may stand in, the sizes, and the numbers a call answers with.

use super::items::*;

pub const CR: u8 = 0x0d;
pub const LF: u8 = 0x0a;
pub const SP: u8 = 0x20;
pub const TAB: u8 = 0x09;

// "Sizes"
pub const METHOD_MOST: usize = 32;
pub const AUTHORITY_MOST: usize = 255;
pub const PATH_MOST: usize = 4_096;
pub const HEADS_MOST: usize = 8_192;
pub const TRAILER_PART_MOST: usize = 2_048;
pub const CHUNK_LINE_MOST: usize = 256;
pub const LINES_MOST: usize = 64;
pub const CHUNKS_MOST: usize = 256;
pub const CONTENT_MOST: usize = 32_768;
pub const BINARY_MOST: usize = 65_535;
pub const INFORMATIONAL_MOST: usize = 4;
pub const STATED_DIGITS_MOST: usize = 15;
pub const LISTING_MOST: usize = 65_536;

// "Numbers a call answers with"
pub const MORE: u32 = 1;
pub const SYNTAX: u32 = 2;
pub const VERSION: u32 = 3;
pub const UNSUPPORTED: u32 = 4;
pub const STATUS: u32 = 5;
pub const HOST: u32 = 6;
pub const LENGTH: u32 = 7;
pub const SIZE: u32 = 8;
pub const CUT: u32 = 9;
pub const FRAMING: u32 = 10;
pub const CROSSES: u32 = 11;
pub const PADDING: u32 = 12;
pub const ROOM: u32 = 13;
pub const OTHER_SCHEME: u32 = 14;

// Those of document 02
pub const ENTRY: u32 = 15;
pub const TABLE: u32 = 16;
pub const EDITION: u32 = 17;
pub const NO_ENTRY: u32 = 18;
pub const STEP_ROOM: u32 = 19;

/// A refusal (or, with number 1, the call for more bytes) and its place.
#[derive(Clone, Copy, PartialEq, Eq, Debug)]
pub struct Refusal {
    pub number: u32,
    pub place: usize,
}

pub fn refuse<T>(number: u32, place: usize) -> Result<T, Refusal> {
    Err(Refusal { number, place })
}

/// RFC 9110, 5.6.2: tchar.
pub fn is_token(b: u8) -> bool {
    match b {
        b'!' | b'#' | b'$' | b'%' | b'&' | b'\'' | b'*' | b'+' | b'-' | b'.' | b'^' | b'_' | b'`'
        | b'|' | b'~' => true,
        b'0'..=b'9' | b'A'..=b'Z' | b'a'..=b'z' => true,
        _ => false,
    }
}

/// "Names are lower-case tokens" (Binary).
pub fn is_lower_token(b: u8) -> bool {
    is_token(b) && !b.is_ascii_uppercase()
}

/// "its bytes are 0x09, 0x20 to 0x7e, 0x80 to 0xff (H)".
pub fn is_value(b: u8) -> bool {
    b == 0x09 || (0x20..=0x7e).contains(&b) || b >= 0x80
}

/// "its bytes are 0x21 to 0x7e but `#` (H)".
pub fn is_path(b: u8) -> bool {
    (0x21..=0x7e).contains(&b) && b != b'#'
}

/// "each a letter, digit or one of `-._~!$&'()*+,;=:[]%` (H)".
pub fn is_authority(b: u8) -> bool {
    b.is_ascii_alphanumeric() || b"-._~!$&'()*+,;=:[]%".contains(&b)
}

/// Space and tab.
pub fn is_blank(b: u8) -> bool {
    b == SP || b == TAB
}

/// One or more bytes, all of a class.
pub fn all_of(bytes: &[u8], class: fn(u8) -> bool) -> bool {
    !bytes.is_empty() && bytes.iter().all(|&b| class(b))
}

/// "1 to 255 bytes, each ...": an authority that a Host may give.
pub fn good_host(value: &[u8]) -> bool {
    value.len() <= AUTHORITY_MOST && all_of(value, is_authority)
}

/// "one or more digits and nothing else, leading zeros taken": the number, or None.
/// Saturating, so that no number of digits wraps.
pub fn decimal(value: &[u8]) -> Option<u128> {
    if !all_of(value, |b| b.is_ascii_digit()) {
        return None;
    }
    let mut n: u128 = 0;
    for &b in value {
        n = n.saturating_mul(10).saturating_add((b - b'0') as u128);
    }
    Some(n)
}

/// The same for hex digits of either case.
pub fn hexadecimal(value: &[u8]) -> Option<u128> {
    if !all_of(value, |b| b.is_ascii_hexdigit()) {
        return None;
    }
    let mut n: u128 = 0;
    for &b in value {
        let digit = match b {
            b'0'..=b'9' => b - b'0',
            b'a'..=b'f' => b - b'a' + 10,
            _ => b - b'A' + 10,
        };
        n = n.saturating_mul(16).saturating_add(digit as u128);
    }
    Some(n)
}

/// "A stated length has at most 15 digits after leading zeros."
pub fn within_stated_digits(value: &[u8]) -> bool {
    value.iter().skip_while(|&&b| b == b'0').count() <= STATED_DIGITS_MOST
}

/// The method's rule behind its shape: "method 2, 8, 4". Number of the refusal, if any.
/// (Binary tests the size before it has the bytes; the order 2, 8 then never shows.)
pub fn judge_method(method: &[u8], items: Items) -> Option<u32> {
    if !all_of(method, is_token) {
        return Some(SYNTAX);
    }
    if method.len() > METHOD_MOST {
        return Some(SIZE);
    }
    // Item 5: "HEAD leaves 4".
    if method == b"CONNECT" || (method == b"HEAD" && !items.has(Item::Head)) {
        return Some(UNSUPPORTED);
    }
    None
}

/// "path 4, 2, 8"; "Empty method or path is 2". Item 2: "Take `*` for OPTIONS only, in both forms"; "`*` with another
/// method or with bytes behind is 4".
pub fn judge_path(method: &[u8], path: &[u8], items: Items) -> Option<u32> {
    if path.is_empty() {
        return Some(SYNTAX);
    }
    if items.has(Item::Target) && path == b"*" && method == b"OPTIONS" {
        return None;
    }
    if path[0] != b'/' {
        return Some(UNSUPPORTED);
    }
    if !all_of(path, is_path) {
        return Some(SYNTAX);
    }
    if path.len() > PATH_MOST {
        return Some(SIZE);
    }
    None
}

/// A status: "5, 4, then a fifth informational 8".
pub fn judge_status(status: u64, informational_before: usize) -> Option<u32> {
    if status < 100 || status > 599 {
        return Some(STATUS);
    }
    if status == 101 {
        return Some(UNSUPPORTED);
    }
    if status < 200 && informational_before >= INFORMATIONAL_MOST {
        return Some(SIZE);
    }
    None
}
