//! Random messages of both forms: valid, damaged and hostile.

use crate::reference::items::*;
use crate::Random;

/// The manner of the messages being made.
#[derive(Clone, Copy, Default)]
pub struct Manner {
    /// Most messages valid, for the cases that need accepted ones.
    pub calm: bool,
    /// Short contents and values, many of them looking like the framing of HTTP/1.1: for the lists of `stream`.
    pub small: bool,
    /// Responses answer a HEAD.
    pub answers_head: bool,
    /// Responses in HTTP/1.1 have no length line: their content ends with the input.
    pub without_length: bool,
    /// Binary messages have no content and no trailers that are kept.
    pub empty: bool,
    /// Binary messages are those of the 2021 draft.
    pub draft: bool,
    /// Binary messages have many long integers.
    pub long_forms: bool,
}

pub struct Maker {
    pub random: Random,
    /// The items of document 02 that the messages may show something of.
    pub items: Items,
    manner: Manner,
    /// How many of 1000 decisions go wrong in the message being made.
    pub faults: usize,
    /// The same for those that touch framing and meaning only: lengths, codings, hosts, chunk sizes, trailer names.
    pub sharp_faults: usize,
}

pub type Pair = (Vec<u8>, Vec<u8>);

const COMMON_NAMES: [&str; 12] = [
    "accept", "x-a", "a", "cookie", "user-agent", "date", "x-flock", "b", "etag", "trailer", "x-b", "accept-language",
];
const DROPPED_NAMES: [&str; 5] = ["connection", "keep-alive", "proxy-connection", "te", "upgrade"];

impl Maker {
    pub fn new(random: Random, items: Items) -> Maker {
        Maker { random, items, manner: Manner::default(), faults: 0, sharp_faults: 0 }
    }

    /// What is made in this manner.
    pub fn with<T>(&mut self, manner: Manner, make: impl FnOnce(&mut Maker) -> T) -> T {
        let before = std::mem::replace(&mut self.manner, manner);
        let made = make(self);
        self.manner = before;
        made
    }

    fn bad(&mut self) -> bool {
        self.faults > 0 && self.random.below(1000) < self.faults
    }

    fn bad_framing(&mut self) -> bool {
        let faults = self.faults.max(self.sharp_faults);
        faults > 0 && self.random.below(1000) < faults
    }

    fn choose_faults(&mut self) {
        let calm = self.manner.calm;
        self.faults = match self.random.below(20) {
            0..=7 => 0,
            8..=14 => if calm { 0 } else { 25 },
            15..=17 => if calm { 0 } else { 80 },
            _ => if calm { 20 } else { 250 },
        };
        self.sharp_faults = if self.random.chance(if calm { 20 } else { 5 }) { 200 } else { 0 };
    }

    pub fn common_name(&mut self) -> &'static str {
        COMMON_NAMES[self.random.below(COMMON_NAMES.len())]
    }

    // ------------------------------------------------------------------------------------ small things

    fn token(&mut self, most: usize) -> Vec<u8> {
        const TOKEN: &[u8] = b"!#$%&'*+-.^_`|~0123456789abcdefghijklmnopqrstuvwxyz";
        let size = 1 + self.random.below(most);
        (0..size).map(|_| TOKEN[self.random.below(TOKEN.len())]).collect()
    }

    fn mixed_case(&mut self, name: &[u8]) -> Vec<u8> {
        match self.random.below(4) {
            0 => name.to_vec(),
            1 => name.to_ascii_uppercase(),
            2 => {
                let mut out = name.to_vec();
                let mut up = true;
                for b in out.iter_mut() {
                    if up {
                        *b = b.to_ascii_uppercase();
                    }
                    up = *b == b'-';
                }
                out
            }
            _ => name.iter().map(|b| if self.random.chance(2) { b.to_ascii_uppercase() } else { *b }).collect(),
        }
    }

    fn method(&mut self) -> Vec<u8> {
        if self.bad() {
            let bad: [&[u8]; 14] = [
                b"", b"HEAD", b"CONNECT", b"GE(T", b"G\tT", b"G\x00T", b"GET\x80", b"\"GET\"", b"GET:", b"GET,", b"G/T", b"{}",
                b"MMMMMMMMMMMMMMMMMMMMMMMMMMMMMMMMM", b"MMMMMMMMMMMMMMMMMMMMMMMMMMMMMMMMM(",
            ];
            return self.random.pick(&bad).to_vec();
        }
        if self.items.has(Item::Target) && self.random.chance(5) {
            return b"OPTIONS".to_vec();
        }
        if self.items.has(Item::Head) && self.random.chance(5) {
            return b"HEAD".to_vec();
        }
        match self.random.below(10) {
            0 => self.token(32),
            1 => self.random.pick(&["head", "connect", "HEADS", "Connect", "HEA", "M-SEARCH", "A", "MMMMMMMMMMMMMMMMMMMMMMMMMMMMMMMM"]).as_bytes().to_vec(),
            _ => self.random.pick(&["GET", "POST", "PUT", "DELETE", "OPTIONS", "PATCH"]).as_bytes().to_vec(),
        }
    }

    /// A target in absolute-form, or nearly so.
    fn absolute_target(&mut self) -> Vec<u8> {
        let scheme = self.random.pick(&["http://", "http://", "https://", "HTTP://", "hTtPs://", "http://"]);
        let scheme = if self.bad() { self.random.pick(&["http:/", "http:", "ftp://", "httpx://", "//"]) } else { scheme };
        let authority = if self.bad() { self.bad_authority() } else { self.authority() };
        let rest = match self.random.below(5) {
            0 => Vec::new(),
            1 => b"?q=/r".to_vec(),
            2 => b"?".to_vec(),
            _ => self.origin_path(),
        };
        [scheme.as_bytes(), &authority, &rest].concat()
    }

    /// The target of a request line.
    fn target(&mut self) -> Vec<u8> {
        if self.items.has(Item::Target) && !self.random.chance(3) {
            return self.absolute_target();
        }
        self.path()
    }

    fn path(&mut self) -> Vec<u8> {
        if self.items.has(Item::Target) && self.random.chance(10) {
            return self.random.pick(&["*", "*", "*", "*x", "**"]).as_bytes().to_vec();
        }
        self.origin_path()
    }

    fn origin_path(&mut self) -> Vec<u8> {
        if self.bad() {
            let bad: [&[u8]; 14] = [
                b"", b"*", b"s", b"http://a/s", b"/a#b", b"#", b"/a\x7f", b"/\x80", b"/a\tb", b"/a\x00", b"?q", b"\\", b"/a\x1f", b"/a\xff",
            ];
            return self.random.pick(&bad).to_vec();
        }
        match self.random.below(6) {
            0 => {
                let size = self.random.below(40);
                let mut out = vec![b'/'];
                for _ in 0..size {
                    let b = 0x21 + self.random.below(0x5e) as u8;
                    out.push(if b == b'#' { b'/' } else { b });
                }
                out
            }
            _ => self.random.pick(&["/", "/s", "/hello.txt", "/a?b=c%20d", "//", "/%", "/a:b@c;d=e?f", "/\"<>\\^`{|}"]).as_bytes().to_vec(),
        }
    }

    fn authority(&mut self) -> Vec<u8> {
        match self.random.below(8) {
            0 => {
                const SET: &[u8] = b"-._~!$&'()*+,;=:[]%aZ09";
                let size = 1 + self.random.below(20);
                (0..size).map(|_| SET[self.random.below(SET.len())]).collect()
            }
            _ => self.random.pick(&["a", "www.example.com", "[::1]:80", "10.0.0.1:8080", "A.b"]).as_bytes().to_vec(),
        }
    }

    fn bad_authority(&mut self) -> Vec<u8> {
        let bad: [&[u8]; 9] = [b"", b"a/b", b"a b", b"u@a", b"a\x80", b"a#", b"a\x00", b"a\tb", b"\"a\""];
        if self.random.chance(6) {
            return vec![b'h'; 256];
        }
        self.random.pick(&bad).to_vec()
    }

    /// A value without blanks at its ends.
    fn value(&mut self) -> Vec<u8> {
        if self.bad() {
            let bad: [&[u8]; 10] =
                [b"a\x00b", b"\x7f", b"a\x0bb", b"\x1f", b"a\rb", b"a\nb", b"a\r\nb", b"\x0c", b"\x01", b"x\r\n\r\nGET / HTTP/1.1"];
            return self.random.pick(&bad).to_vec();
        }
        match self.random.below(10) {
            0 if self.manner.draft => b"v".to_vec(),
            0 => Vec::new(),
            1 => {
                let size = 1 + self.random.below(30);
                let mut out: Vec<u8> = (0..size)
                    .map(|_| {
                        let b = 0x20 + self.random.below(0xe0) as u8;
                        if b == 0x7f { 0x09 } else { b }
                    })
                    .collect();
                for end in [0, size - 1] {
                    if out[end] == 0x20 || out[end] == 0x09 {
                        out[end] = b'.';
                    }
                }
                out
            }
            2 if !self.manner.small => {
                let size = [62, 63, 64, 65, 100, 127, 128, 255, 256, 300][self.random.below(10)];
                vec![b'v'; size]
            }
            _ => self.random.pick(&["1", "close", "text/plain", "a, b", "a \t b", "\u{e9}\u{df}", "x:y", "5", "chunked", "\"q;\""]).as_bytes().to_vec(),
        }
    }

    /// A value of Connection: a list whose members are mostly of these names, with commas and blanks between them as they come.
    pub fn member_list(&mut self, names: &[&str]) -> Vec<u8> {
        let mut out = self.random.pick(&["", "", "", "", ",", ",\t,"]).as_bytes().to_vec();
        let count = 1 + self.random.below(4);
        for i in 0..count {
            if i > 0 {
                out.extend_from_slice(self.random.pick(&[",", ",", ", ", " ,", "\t,  ", ",,", ", ,", " ", "\t"]).as_bytes());
            }
            let member = match self.random.below(12) {
                0 => self.random.pick(&["close", "keep-alive", "host", "content-length", "transfer-encoding", "connection"]).as_bytes().to_vec(),
                1 => self.random.pick(&["\"a\"", "\"a,b,x\"", "\"b", "a b", "x-a;q", "(b)", "\u{e9}", "a=b"]).as_bytes().to_vec(),
                2 => self.token(6),
                _ => self.random.pick(names).as_bytes().to_vec(),
            };
            out.extend(self.mixed_case(&member));
        }
        out.extend_from_slice(self.random.pick(&["", "", "", "", ",", " ,"]).as_bytes());
        out
    }

    fn other_fields(&mut self, most: usize) -> Vec<Pair> {
        let count = self.random.below(most + 1);
        (0..count)
            .map(|_| {
                if self.items.has(Item::Connection) && self.random.chance(4) {
                    return (b"connection".to_vec(), self.member_list(&COMMON_NAMES));
                }
                if self.manner.small && self.random.chance(5) {
                    return self.framing_look();
                }
                let name = match self.random.below(10) {
                    0 => self.token(12),
                    1 | 2 => DROPPED_NAMES[self.random.below(DROPPED_NAMES.len())].as_bytes().to_vec(),
                    _ => self.common_name().as_bytes().to_vec(),
                };
                (name, self.value())
            })
            .collect()
    }

    fn shuffle<T>(&mut self, items: &mut [T]) {
        for i in (1..items.len()).rev() {
            let j = self.random.below(i + 1);
            items.swap(i, j);
        }
    }

    /// A kept field that looks like a statement of a length, a start line or a chunk.
    fn framing_look(&mut self) -> Pair {
        const LOOKS: [(&str, &str); 14] = [
            ("x-content-length", "5"), ("content-length-x", "0"), ("content_length", "3"), ("transfer-encodings", "chunked"),
            ("a", "content-length: 5"), ("b", "transfer-encoding: chunked"), ("get", "/ HTTP/1.1"), ("0", ""), ("5", "abcde"),
            ("http-1.1", "200"), ("trailer", "content-length"), ("hosts", "b"), ("x-host", "host: b"), ("content-lengt", "h: 5"),
        ];
        let (name, value) = LOOKS[self.random.below(LOOKS.len())];
        (name.as_bytes().to_vec(), value.as_bytes().to_vec())
    }

    /// Short contents, many of which look like requests, chunks or statements of a length.
    fn framing_content(&mut self) -> Vec<u8> {
        const LOOKS: [&[u8]; 14] = [
            b"GET /x HTTP/1.1\r\nHost: evil\r\n\r\n",
            b"POST /x HTTP/1.1\r\nHost: evil\r\nContent-Length: 500\r\n\r\n",
            b"GET /x HTTP/1.1\r\nHost: ev",
            b"0\r\n\r\n",
            b"\r\n0\r\n\r\n",
            b"0\r\n\r\nGET / HTTP/1.1\r\nHost: a\r\n\r\n",
            b"3\r\nabc\r\n0\r\n\r\n",
            b"\r\n0\r\nt: u\r\n\r\n",
            b"5\r\nab",
            b"\r\n",
            b"\n",
            b"HTTP/1.1 200 OK\r\n\r\n",
            b"content-length: 5\r\n\r\n",
            b"\r\n\r\n",
        ];
        match self.random.below(6) {
            0 | 1 => Vec::new(),
            2 | 3 => LOOKS[self.random.below(LOOKS.len())].to_vec(),
            _ => {
                let size = 1 + self.random.below(20);
                (0..size).map(|_| self.random.octet()).collect()
            }
        }
    }

    fn content(&mut self) -> Vec<u8> {
        if self.manner.small {
            return self.framing_content();
        }
        match self.random.below(8) {
            0 => Vec::new(),
            1 => b"GET /x HTTP/1.1\r\nHost: evil\r\n\r\n".to_vec(),
            2 => b"\r\n0\r\n\r\n".to_vec(),
            3 => {
                let size = [62, 63, 64, 65, 200, 255, 256, 257][self.random.below(8)];
                (0..size).map(|_| self.random.octet()).collect()
            }
            _ => {
                let size = 1 + self.random.below(24);
                (0..size).map(|_| self.random.octet()).collect()
            }
        }
    }

    /// Octets flipped, put in, taken out, doubled or swapped for those that matter.
    pub fn mutate(&mut self, bytes: &mut Vec<u8>) {
        const SHARP: &[u8] = b"\r\n\r\n \t:;,0159afAF/#\x00\x01\x3f\x40\x7f\x80\xc0\xff";
        let times = 1 + self.random.below(3);
        for _ in 0..times {
            let at = self.random.below(bytes.len() + 1);
            let sharp = SHARP[self.random.below(SHARP.len())];
            match self.random.below(7) {
                0 if at < bytes.len() => bytes[at] ^= 1 << self.random.below(8),
                1 if at < bytes.len() => bytes[at] = self.random.octet(),
                2 if at < bytes.len() => bytes[at] = sharp,
                3 if at < bytes.len() => {
                    bytes.remove(at);
                }
                4 => {
                    let octet = self.random.octet();
                    bytes.insert(at, octet);
                }
                5 => bytes.insert(at, sharp),
                6 if at < bytes.len() => {
                    let end = at + 1 + self.random.below((bytes.len() - at).min(12));
                    let part = bytes[at..end].to_vec();
                    if self.random.chance(2) {
                        bytes.drain(at..end);
                    } else {
                        bytes.splice(at..at, part);
                    }
                }
                _ => {}
            }
        }
    }

    pub fn damage(&mut self, bytes: &mut Vec<u8>) {
        let rare = if self.manner.calm { 5 } else { 1 };
        if self.random.below(100) < 15 / rare {
            self.mutate(bytes);
        }
        if self.random.below(100) < 12 / rare {
            let keep = self.random.below(bytes.len() + 1);
            bytes.truncate(keep);
        }
    }

    // ------------------------------------------------------------------------------------ HTTP/1.1

    fn line_end(&mut self) -> &'static [u8] {
        if self.bad() {
            let bad: [&'static [u8]; 11] = [
                b"\n", b"\r", b"\r\r\n", b"", b"\n\r\n", b"\r\n ", b" \r\n", b"\r\n\r\n", b"\rx\r\n", b"\r\n\t", b"\r \n",
            ];
            return self.random.pick(&bad);
        }
        b"\r\n"
    }

    fn field_text(&mut self, name: &[u8], value: &[u8]) -> Vec<u8> {
        let mut out = self.mixed_case(name);
        if self.bad() {
            out = match self.random.below(9) {
                0 => Vec::new(),
                1 => [&out[..], b" "].concat(),
                2 => [&out[..], b"\t"].concat(),
                3 => [b" ", &out[..]].concat(),
                4 => [&out[..], b"\x80"].concat(),
                5 => [&out[..], b"(x)"].concat(),
                6 => [&out[..], b"\x00"].concat(),
                7 => [&out[..], b" a"].concat(),
                _ => [b"\t", &out[..]].concat(),
            };
        }
        if !self.bad() {
            out.push(b':');
        }
        out.extend_from_slice(self.random.pick(&[" ", " ", " ", "", "  ", "\t", " \t "]).as_bytes());
        out.extend_from_slice(value);
        if self.random.chance(6) {
            out.extend_from_slice(self.random.pick(&[" ", "\t", " \t", "   "]).as_bytes());
        }
        out
    }

    pub fn push_section(&mut self, out: &mut Vec<u8>, fields: &[Pair]) {
        for (name, value) in fields {
            let text = self.field_text(name, value);
            out.extend_from_slice(&text);
            out.extend_from_slice(self.line_end());
        }
        out.extend_from_slice(self.line_end());
    }

    fn hosts(&mut self) -> Vec<Pair> {
        let good = self.authority();
        let mut hosts = vec![(b"host".to_vec(), good.clone())];
        if self.bad_framing() {
            match self.random.below(5) {
                0 => hosts.clear(),
                1 => hosts.push((b"host".to_vec(), good)),
                2 => hosts.push((b"host".to_vec(), self.authority())),
                3 => hosts.push((b"host".to_vec(), Vec::new())),
                _ => hosts[0].1 = self.bad_authority(),
            }
        }
        hosts
    }

    /// Field lines that frame a content, and the body that fits them (or does not).
    fn framing(&mut self, may_be_none: bool) -> (Vec<Pair>, Vec<u8>) {
        let kind = if may_be_none { self.random.below(10) } else { 4 + self.random.below(6) };
        let mut fields = Vec::new();
        let mut body = Vec::new();
        if kind < 4 {
            // none
        } else if kind < 7 {
            body = self.content();
            let mut size = body.len() as u64;
            if self.bad_framing() {
                size = size.wrapping_add([1, 2, 5, u64::MAX, u64::MAX - 1][self.random.below(5)]).min(1 << 40);
            }
            let mut text = size.to_string();
            if self.random.chance(8) {
                let zeros = [1, 2, 10, 30, 60][self.random.below(5)];
                text = format!("{}{}", "0".repeat(zeros), text);
            }
            if self.bad_framing() {
                text = match self.random.below(14) {
                    0 => format!("{}, {}", text, text),
                    1 => format!("+{}", text),
                    2 => format!("-{}", text),
                    3 => String::new(),
                    4 => format!("{} {}", text, text),
                    5 => format!("0x{}", text),
                    6 => format!("{}.0", text),
                    7 => format!("{}", (1u128 << 64) + body.len() as u128),
                    8 => format!("{}", (1u128 << 32) + body.len() as u128),
                    9 => format!("00000000000000000000{}", u128::MAX),
                    10 => "9".repeat(1 + self.random.below(60)),
                    11 => format!("34028236692093846346337460743176821145{}", 6 + body.len() % 4),
                    12 => "32769".to_string(),
                    _ => format!("{};", text),
                };
            }
            fields.push((b"content-length".to_vec(), text.clone().into_bytes()));
            if self.bad_framing() {
                let other = match self.random.below(3) {
                    0 => text,
                    1 => "0".to_string(),
                    _ => (body.len() + 1).to_string(),
                };
                fields.push((b"content-length".to_vec(), other.into_bytes()));
            }
        } else {
            let value = self.mixed_case(b"chunked");
            fields.push((b"transfer-encoding".to_vec(), value));
            if self.bad_framing() {
                let bad = ["gzip, chunked", "chunked, chunked", "identity", "", "chunked;q=1", "chunke", "chunkedd", "chunked,", "x"];
                fields[0].1 = self.random.pick(&bad).as_bytes().to_vec();
            }
            if self.bad_framing() {
                fields.push((b"transfer-encoding".to_vec(), b"chunked".to_vec()));
            }
            body = self.chunked_body();
        }
        if self.bad_framing() {
            match self.random.below(3) {
                0 => fields.push((b"transfer-encoding".to_vec(), b"chunked".to_vec())),
                1 => fields.push((b"content-length".to_vec(), body.len().to_string().into_bytes())),
                _ => fields.push((b"content-length".to_vec(), b"5".to_vec())),
            }
        }
        (fields, body)
    }

    /// Whether the length line of this reply would only state a length.
    fn states_length(&self, status: u64) -> bool {
        self.items.has(Item::Head) && status != 204 && (status == 304 || self.manner.answers_head)
    }

    /// A stated length: about 15 digits, at times behind zeros.
    fn stated_digits(&mut self) -> String {
        let count = [1, 1, 2, 5, 14, 15, 15][self.random.below(7)] + if self.bad_framing() { 1 } else { 0 };
        let digits: String = (0..count).map(|i| char::from(b'0' + self.random.below(10) as u8).max(if i == 0 { '1' } else { '0' })).collect();
        let zeros = if self.random.chance(4) { 1 + self.random.below(20) } else { 0 };
        format!("{}{}", "0".repeat(zeros), digits)
    }

    /// The length lines of a reply without content.
    fn stated_fields(&mut self, may_be_chunked: bool) -> Vec<Pair> {
        let chunked = (b"transfer-encoding".to_vec(), self.mixed_case(b"chunked"));
        let mut fields = match self.random.below(6) {
            0 => Vec::new(),
            1 if may_be_chunked => vec![chunked.clone()],
            2 => vec![(b"content-length".to_vec(), b"000".to_vec())],
            _ => vec![(b"content-length".to_vec(), self.stated_digits().into_bytes())],
        };
        if self.bad_framing() {
            let more: [Pair; 4] = [
                chunked,
                (b"content-length".to_vec(), b"5".to_vec()),
                (b"transfer-encoding".to_vec(), b"gzip".to_vec()),
                (b"content-length".to_vec(), b"1234567890123456x".to_vec()),
            ];
            fields.push(more[self.random.below(4)].clone());
        }
        fields
    }

    fn chunk_size(&mut self, size: usize) -> String {
        if self.bad_framing() {
            return match self.random.below(16) {
                0 => format!("1000000000000000{:x}", size & 15),
                1 => format!("1{:016x}", size),
                2 => format!("1{:019x}", size),
                3 => format!("1{:039x}", size),
                4 => "f".repeat([15, 16, 17, 20, 32, 33, 40][self.random.below(7)]),
                5 => format!("1{:08x}", size),
                6 => "8000000000000000".to_string(),
                7 => "fffffffffffffffe".to_string(),
                8 => format!(" {:x}", size),
                9 => format!("{:x} ", size),
                10 => format!("0x{:x}", size),
                11 => format!("-{:x}", size),
                12 => "g".to_string(),
                13 => String::new(),
                14 => format!("{:x}", size + 1),
                _ => format!("{:x}", size.saturating_sub(1)),
            };
        }
        let mut text = format!("{:x}", size);
        if self.random.chance(if self.manner.draft { 40 } else { 5 }) {
            let zeros = [1, 3, 15, 16, 19, 39][self.random.below(6)];
            text = format!("{}{}", "0".repeat(zeros), text);
        }
        if self.random.chance(4) {
            text = text.to_ascii_uppercase();
        }
        text
    }

    fn chunk_extension(&mut self) -> Vec<u8> {
        if self.bad_framing() {
            let bad: [&[u8]; 7] = [b" ;a", b";a\x00", b";\x7f", b"\t;a", b",a", b" ", b";\"a\nb\""];
            return self.random.pick(&bad).to_vec();
        }
        if self.random.chance(4) {
            let good: [&[u8]; 7] = [b";", b";a", b";a=b", b"; a = \"x y\"", b";a;b=c", b";\x80\xff", b";;\t "];
            return self.random.pick(&good).to_vec();
        }
        Vec::new()
    }

    fn chunked_body(&mut self) -> Vec<u8> {
        let mut out = Vec::new();
        let count = self.random.below(4);
        for _ in 0..count {
            let data = self.content();
            if data.is_empty() {
                continue;
            }
            out.extend_from_slice(self.chunk_size(data.len()).as_bytes());
            let extension = self.chunk_extension();
            out.extend_from_slice(&extension);
            out.extend_from_slice(self.line_end());
            out.extend_from_slice(&data);
            out.extend_from_slice(self.line_end());
        }
        if !self.bad() {
            out.extend_from_slice(self.random.pick(&["0", "0", "0", "000", "00000000000000000000"]).as_bytes());
            let extension = self.chunk_extension();
            out.extend_from_slice(&extension);
            out.extend_from_slice(self.line_end());
        }
        let mut trailers = if self.random.chance(2) { self.other_fields(3) } else { Vec::new() };
        if self.bad_framing() {
            let name = self.random.pick(&["host", "content-length", "transfer-encoding"]);
            trailers.push((name.as_bytes().to_vec(), b"0".to_vec()));
            self.shuffle(&mut trailers);
        }
        self.push_section(&mut out, &trailers);
        out
    }

    pub fn request(&mut self) -> Vec<u8> {
        let mut out = Vec::new();
        if self.bad() {
            out.extend_from_slice(self.random.pick(&["\r\n", "\n", " ", "\r", "\r\n\r\n"]).as_bytes());
        }
        out.extend_from_slice(&self.method());
        out.extend_from_slice(self.space());
        out.extend_from_slice(&self.target());
        out.extend_from_slice(self.space());
        out.extend_from_slice(self.version());
        out.extend_from_slice(self.line_end());
        let mut fields = self.hosts();
        let (framing, body) = self.framing(true);
        fields.extend(framing);
        fields.extend(self.other_fields(4));
        self.shuffle(&mut fields);
        self.push_section(&mut out, &fields);
        out.extend_from_slice(&body);
        out
    }

    fn space(&mut self) -> &'static [u8] {
        if self.bad() {
            let bad: [&'static [u8]; 4] = [b"  ", b"\t", b"", b"   "];
            return self.random.pick(&bad);
        }
        b" "
    }

    fn version(&mut self) -> &'static [u8] {
        if self.bad() {
            let bad: [&'static [u8]; 9] = [
                b"HTTP/1.0", b"HTTP/2", b"http/1.1", b"HTTP/1.10", b"", b"HTTP/1.1\t", b"HTTP/1.1 ", b"HTTP/01.1", b"HTTP/1",
            ];
            return self.random.pick(&bad);
        }
        b"HTTP/1.1"
    }

    fn status(&mut self, informational: bool) -> Vec<u8> {
        if self.bad() {
            let bad: [&[u8]; 14] = [
                b"099", b"600", b"000", b"999", b"101", b"20", b"2000", b"", b"2x0", b"-20", b" 200", b"204", b"304", b"100",
            ];
            return self.random.pick(&bad).to_vec();
        }
        if informational {
            return self.random.pick(&["100", "102", "103", "199", "150"]).as_bytes().to_vec();
        }
        self.random.pick(&["200", "200", "200", "201", "404", "500", "599", "204", "304", "205", "303", "400"]).as_bytes().to_vec()
    }

    fn status_line(&mut self, out: &mut Vec<u8>, status: &[u8]) {
        out.extend_from_slice(self.version());
        out.extend_from_slice(self.space());
        out.extend_from_slice(status);
        out.extend_from_slice(self.space());
        let reason = if self.random.chance(3) { Vec::new() } else { self.value() };
        out.extend_from_slice(&reason);
        if self.random.chance(10) {
            out.extend_from_slice(b" \t");
        }
        out.extend_from_slice(self.line_end());
    }

    pub fn response(&mut self) -> Vec<u8> {
        let mut out = Vec::new();
        if self.bad() {
            out.extend_from_slice(self.random.pick(&["\r\n", "\n", " ", "\r"]).as_bytes());
        }
        let informational = match self.random.below(12) {
            0..=6 => 0,
            7..=9 => 1,
            10 => 2,
            _ => if self.bad_framing() { 5 } else { 4 },
        };
        for _ in 0..informational {
            let status = self.status(true);
            self.status_line(&mut out, &status);
            let mut fields = self.other_fields(2);
            if self.bad_framing() {
                let name = self.random.pick(&["content-length", "transfer-encoding", "host"]);
                fields.push((name.as_bytes().to_vec(), b"0".to_vec()));
            }
            self.push_section(&mut out, &fields);
        }
        let status = self.status(false);
        self.status_line(&mut out, &status);
        let mut fields = self.other_fields(4);
        if self.random.chance(8) {
            fields.push((b"host".to_vec(), self.value()));
        }
        let mut body = Vec::new();
        let bodiless = status == b"204" || status == b"304";
        let number = String::from_utf8_lossy(&status).parse().unwrap_or(0);
        if self.states_length(number) {
            fields.extend(self.stated_fields(self.manner.answers_head));
        } else if self.manner.without_length && !bodiless {
            body = self.content();
        } else if bodiless == self.bad_framing() {
            let (framing, bytes) = self.framing(false);
            fields.extend(framing);
            body = bytes;
        }
        self.shuffle(&mut fields);
        self.push_section(&mut out, &fields);
        out.extend_from_slice(&body);
        out
    }

    fn behind(&mut self, out: &mut Vec<u8>) {
        match self.random.below(10) {
            0 => {
                let next = self.request();
                out.extend_from_slice(&next);
            }
            1 => {
                let size = self.random.below(10);
                out.extend((0..size).map(|_| b'z'));
            }
            2 => out.extend_from_slice(b"\r\n"),
            _ => {}
        }
    }

    pub fn request_input(&mut self) -> Vec<u8> {
        self.choose_faults();
        let mut out = if self.random.chance(80) { self.big_http1(true) } else { self.request() };
        self.behind(&mut out);
        self.damaged_at_times(out)
    }

    pub fn response_input(&mut self) -> Vec<u8> {
        self.choose_faults();
        let mut out = if self.random.chance(80) { self.big_http1(false) } else { self.response() };
        self.behind(&mut out);
        self.damaged_at_times(out)
    }

    pub fn stream_input(&mut self) -> Vec<u8> {
        let mut out = Vec::new();
        let count = self.random.below(6);
        for _ in 0..count {
            self.faults = if self.random.chance(8) { 40 } else { 0 };
            self.sharp_faults = if self.random.chance(8) { 100 } else { 0 };
            let next = if self.random.chance(150) { self.big_http1(true) } else { self.request() };
            out.extend_from_slice(&next);
        }
        self.damage(&mut out);
        out
    }

    /// A size at a limit, up to two below or above.
    pub fn near(&mut self, limit: usize) -> usize {
        limit + self.random.below(5) - 2
    }

    /// Messages at the sizes of 01.
    fn big_http1(&mut self, request: bool) -> Vec<u8> {
        let start: Vec<u8> = if request { b"POST /s HTTP/1.1\r\nHost: a\r\n".to_vec() } else { b"HTTP/1.1 200 OK\r\n".to_vec() };
        let text = |more: &str| [&start[..], more.as_bytes()].concat();
        let chunked = "Transfer-Encoding: chunked\r\n\r\n";
        let kind = match self.random.below(12) {
            // the contents are large: seldom
            9 if !self.random.chance(6) => 3,
            10 if !self.random.chance(6) => 4,
            kind => kind,
        };
        match kind {
            0 if request => {
                let method = "M".repeat(self.near(32));
                format!("{} /s HTTP/1.1\r\nHost: a\r\n\r\n", method).into_bytes()
            }
            1 if request => {
                let host = "h".repeat(self.near(255));
                format!("GET /s HTTP/1.1\r\nHost: {}\r\n\r\n", host).into_bytes()
            }
            2 if request => {
                let path = "p".repeat(self.near(4_096) - 1);
                format!("GET /{} HTTP/1.1\r\nHost: a\r\n\r\n", path).into_bytes()
            }
            0..=3 => {
                // heads of about 8,192, sometimes with the empty line or more cut off
                let mut out = start.clone();
                if !request {
                    out = b"HTTP/1.1 100 Go\r\nA: b\r\n\r\n".repeat(self.random.below(4));
                    out.extend_from_slice(&start);
                }
                let end = if request { "\r\n\r\n" } else { "\r\nContent-Length: 0\r\n\r\n" };
                let total = self.near(8_192);
                let filler = total - out.len() - 2 - end.len();
                out.extend_from_slice(b"b:");
                out.extend(std::iter::repeat(b'f').take(filler));
                out.extend_from_slice(end.as_bytes());
                if self.random.chance(3) {
                    let keep = out.len() - self.random.below(5);
                    out.truncate(keep);
                }
                out
            }
            4 => {
                let part = self.near(2_048);
                let mut out = text(&format!("{}0\r\nT:{}\r\n\r\n", chunked, "t".repeat(part - 6)));
                if self.random.chance(3) {
                    let keep = out.len() - self.random.below(5);
                    out.truncate(keep);
                }
                out
            }
            5 => {
                let line = self.near(256);
                let (size, data) = if self.random.chance(2) { ("3", "abc\r\n0\r\n\r\n") } else { ("0", "\r\n") };
                if self.random.chance(2) {
                    text(&format!("{}{};{}\r\n{}", chunked, size, "e".repeat(line - 4), data))
                } else {
                    text(&format!("{}{}{}\r\n{}", chunked, "0".repeat(line - 3), size, data))
                }
            }
            6 => {
                let lines = self.near(64) - if request { 1 } else { 0 };
                let field = self.random.pick(&["a:\r\n", "te:\r\n", "A: b\r\n"]);
                let mut body = field.repeat(lines - 1);
                body.push_str(self.random.pick(&["Content-Length: 0\r\n", "zz\r\n", "z: \n", "content-length: 1, 1\r\n"]));
                text(&format!("{}\r\n", body))
            }
            7 => {
                let lines = self.near(64);
                let field = self.random.pick(&["a:\r\n", "te:\r\n", "A: b\r\n"]);
                let last = self.random.pick(&["a:\r\n", "host:\r\n", "zz\r\n", "z: \n"]);
                text(&format!("{}0\r\n{}{}\r\n", chunked, field.repeat(lines - 1), last))
            }
            8 => {
                let chunks = self.near(256);
                let last = self.random.pick(&["0\r\n\r\n", "0\r\nA: b\r\n\r\n", "1\r\na\r\n0\r\n\r\n", ""]);
                text(&format!("{}{}{}", chunked, "1\r\na\r\n".repeat(chunks - 1), last))
            }
            9 => {
                let size = self.near(32_768);
                let there = if self.random.chance(2) { size } else { size - self.random.below(3) };
                text(&format!("Content-Length: {}\r\n\r\n{}", size, "c".repeat(there)))
            }
            10 => {
                let size = self.near(32_768);
                let first = 1 + self.random.below(size - 1);
                text(&format!(
                    "{}{:x}\r\n{}\r\n{:X}\r\n{}\r\n0\r\n\r\n",
                    chunked, first, "c".repeat(first), size - first, "d".repeat(size - first)
                ))
            }
            _ => {
                // many field lines, large in all
                let lines = self.random.below(62);
                let value = self.random.below(130);
                text(&format!("{}Content-Length: 0\r\n\r\n", format!("x-a: {}\r\n", "v".repeat(value)).repeat(lines)))
            }
        }
    }

    // ------------------------------------------------------------------------------------ Binary HTTP

    fn integer(&mut self, out: &mut Vec<u8>, value: u64) {
        let mut form = if value < 1 << 6 { 0 } else if value < 1 << 14 { 1 } else if value < 1 << 30 { 2 } else { 3 };
        if self.random.chance(if self.manner.long_forms { 2 } else { 8 }) {
            form += self.random.below(4 - form);
        }
        push_form(out, value, form);
    }

    /// A length; now and then a damaged one.
    fn length(&mut self, out: &mut Vec<u8>, size: usize) {
        let mut value = size as u64;
        if self.bad() {
            value = match self.random.below(9) {
                0 => value + 1,
                1 => value.saturating_sub(1),
                2 => value + self.random.below(70) as u64,
                3 => (1 << 62) - 1,
                4 => 1 << 32 | value,
                5 => 0,
                6 => 1 << 61,
                7 => 32_769,
                _ => self.random.below(64) as u64,
            };
        }
        self.integer(out, value);
    }

    fn string(&mut self, out: &mut Vec<u8>, bytes: &[u8]) {
        self.length(out, bytes.len());
        out.extend_from_slice(bytes);
    }

    fn binary_name(&mut self, name: &[u8]) -> Vec<u8> {
        if self.bad() {
            return match self.random.below(8) {
                0 => self.mixed_case(name),
                1 => [b":", name].concat(),
                2 => b":path".to_vec(),
                3 => [name, b" "].concat(),
                4 => [name, b":"].concat(),
                5 => Vec::new(),
                6 => [name, b"\x80"].concat(),
                _ => [name, b"\r\n"].concat(),
            };
        }
        name.to_vec()
    }

    fn binary_section(&mut self, out: &mut Vec<u8>, fields: &[Pair], known: bool) {
        let mut lines = Vec::new();
        for (name, value) in fields {
            let name = self.binary_name(name);
            let mut value = value.clone();
            if self.bad() {
                match self.random.below(4) {
                    0 => value.push(b' '),
                    1 => value.insert(0, b'\t'),
                    2 => value = b" ".to_vec(),
                    _ => value.insert(0, b' '),
                }
            }
            self.string(&mut lines, &name);
            self.string(&mut lines, &value);
        }
        if known {
            self.length(out, lines.len());
            out.extend_from_slice(&lines);
        } else {
            out.extend_from_slice(&lines);
            if !self.bad() {
                self.integer(out, 0);
            }
        }
    }

    fn binary_content(&mut self, out: &mut Vec<u8>, content: &[u8], known: bool) {
        if known {
            self.string(out, content);
            return;
        }
        let mut at = 0;
        while at < content.len() {
            let size = if self.random.chance(2) { content.len() - at } else { 1 + self.random.below(content.len() - at) };
            self.string(out, &content[at..at + size]);
            at += size;
        }
        if !self.bad() {
            self.integer(out, 0);
        }
    }

    fn content_length_field(&mut self, content: &[u8]) -> Vec<Pair> {
        let mut fields = Vec::new();
        if self.random.chance(4) {
            let mut text = content.len().to_string();
            if self.random.chance(4) {
                text = format!("{}{}", "0".repeat(1 + self.random.below(40)), text);
            }
            if self.bad_framing() {
                text = match self.random.below(9) {
                    0 => (content.len() + 1).to_string(),
                    1 => format!("+{}", text),
                    2 => String::new(),
                    3 => format!("{}, {}", text, text),
                    4 => ((1u128 << 64) + content.len() as u128).to_string(),
                    5 => "9".repeat(50),
                    6 => format!("34028236692093846346337460743176821145{}", 6 + content.len() % 4),
                    7 => ((1u128 << 32) + content.len() as u128).to_string(),
                    _ => "0".to_string(),
                };
            }
            fields.push((b"content-length".to_vec(), text.clone().into_bytes()));
            if self.bad_framing() {
                fields.push((b"content-length".to_vec(), text.into_bytes()));
            }
        }
        if self.random.chance(if self.manner.small { 4 } else { 10 }) {
            let value = if self.manner.small && self.random.chance(2) { b"chunked".to_vec() } else { self.value() };
            fields.push((b"transfer-encoding".to_vec(), value));
        }
        fields
    }

    fn binary(&mut self) -> Vec<u8> {
        let framing = self.random.below(4) as u64;
        self.binary_of(framing, None)
    }

    /// A message of this framing and, if it is a request, of this scheme (0 http, 1 https).
    pub fn binary_of(&mut self, framing: u64, wanted: Option<u64>) -> Vec<u8> {
        let mut out = Vec::new();
        let mut framing = framing;
        let (request, known) = (framing & 1 == 0, framing < 2);
        if self.bad() {
            framing = [4, 5, 63, 64, 1 << 32, (1 << 62) - 1][self.random.below(6)];
        }
        self.integer(&mut out, framing);
        let mut fields = Vec::new();
        let mut content = if self.random.chance(3) { Vec::new() } else { self.content() };
        let mut trailers = if self.random.chance(2) { self.other_fields(3) } else { Vec::new() };
        if self.manner.empty {
            content.clear();
            trailers.retain(|(name, _)| DROPPED_NAMES.iter().any(|d| d.as_bytes() == &name[..]));
        }
        if request {
            let method = self.method();
            self.string(&mut out, &method);
            let scheme: &[u8] = if self.bad() {
                let bad: [&[u8]; 7] = [b"", b"ftp", b"HTTP", b"httpss", b"htt", b"http ", b"https:"];
                self.random.pick(&bad)
            } else if wanted == Some(0) {
                b"http"
            } else if wanted == Some(1) || self.random.chance(3) {
                b"https"
            } else {
                b"http"
            };
            self.string(&mut out, scheme);
            // authority in control data, in host, or in both
            let mut authority = self.authority();
            let mut hosts = Vec::new();
            match self.random.below(5) {
                0 => {
                    hosts.push((b"host".to_vec(), authority.clone()));
                    authority.clear();
                }
                1 => hosts.push((b"host".to_vec(), authority.clone())),
                _ => {}
            }
            if self.bad_framing() {
                match self.random.below(6) {
                    0 => authority.clear(),
                    1 => hosts.clear(),
                    2 => hosts.push((b"host".to_vec(), authority.clone())),
                    3 => hosts = vec![(b"host".to_vec(), self.bad_authority())],
                    4 => hosts.push((b"host".to_vec(), b"other".to_vec())),
                    _ => authority = self.bad_authority(),
                }
            }
            self.string(&mut out, &authority);
            let path = self.path();
            self.string(&mut out, &path);
            fields.extend(hosts);
            fields.extend(self.content_length_field(&content));
        } else {
            let informational = match self.random.below(10) {
                0..=5 => 0,
                6 | 7 => 1,
                8 => 2,
                _ => if self.bad_framing() { 5 } else { 4 },
            };
            for _ in 0..informational {
                let status = self.binary_status(true);
                self.integer(&mut out, status);
                let mut lines = self.other_fields(2);
                if self.bad_framing() {
                    let name = self.random.pick(&["content-length", "transfer-encoding", "host"]);
                    lines.push((name.as_bytes().to_vec(), b"0".to_vec()));
                }
                self.binary_section(&mut out, &lines, known);
            }
            let status = self.binary_status(false);
            self.integer(&mut out, status);
            if self.states_length(status) && !self.bad_framing() {
                content.clear();
                trailers.clear();
                fields.extend(self.stated_fields(true));
            } else if (status == 204 || status == 304) && !self.bad_framing() {
                content.clear();
                if !self.bad_framing() {
                    trailers.retain(|(name, _)| DROPPED_NAMES.iter().any(|d| d.as_bytes() == &name[..]));
                }
                if self.bad_framing() {
                    fields.extend(self.content_length_field(&content));
                }
            } else {
                fields.extend(self.content_length_field(&content));
            }
            if self.random.chance(8) {
                fields.push((b"host".to_vec(), self.value()));
            }
        }
        if self.manner.draft && self.random.chance(6) {
            return out;
        }
        fields.extend(self.other_fields(4));
        self.shuffle(&mut fields);
        self.binary_section(&mut out, &fields, known);
        if self.bad_framing() {
            let name = self.random.pick(&["host", "content-length", "transfer-encoding"]);
            trailers.push((name.as_bytes().to_vec(), b"0".to_vec()));
            self.shuffle(&mut trailers);
        }
        // missing parts
        if trailers.is_empty() && self.random.chance(3) {
            if content.is_empty() && self.random.chance(2) {
                return out;
            }
            self.binary_content(&mut out, &content, known);
            return out;
        }
        self.binary_content(&mut out, &content, known);
        self.binary_section(&mut out, &trailers, known);
        if self.random.chance(if self.manner.draft { 40 } else { 5 }) {
            let zeros = 1 + self.random.below(20);
            out.extend(std::iter::repeat(0).take(zeros));
            if self.bad_framing() {
                let at = out.len() - 1 - self.random.below(zeros);
                out[at] = self.random.octet();
            }
        }
        out
    }

    fn binary_status(&mut self, informational: bool) -> u64 {
        if self.bad() {
            return [0, 99, 101, 600, 599, 1000, 204, 304, 100, 199, 200, 65_736, (1 << 62) - 1][self.random.below(13)];
        }
        let text = self.status_number(informational);
        text
    }

    fn status_number(&mut self, informational: bool) -> u64 {
        if informational {
            [100, 102, 103, 199, 150][self.random.below(5)]
        } else {
            [200, 200, 200, 201, 404, 500, 599, 204, 304, 205, 303, 400][self.random.below(12)]
        }
    }

    pub fn binary_input(&mut self) -> Vec<u8> {
        self.choose_faults();
        let out = if self.random.chance(60) { self.big_binary() } else { self.binary() };
        self.damaged_at_times(out)
    }

    /// A message of this framing, damaged at times.
    pub fn binary_input_of(&mut self, framing: u64) -> Vec<u8> {
        self.choose_faults();
        let out = self.binary_of(framing, None);
        self.damaged_at_times(out)
    }

    fn damaged_at_times(&mut self, mut out: Vec<u8>) -> Vec<u8> {
        if out.len() < 5_000 || self.random.chance(4) {
            self.damage(&mut out);
        }
        out
    }

    /// Binary messages at the sizes of 01, and those whose turning passes a size.
    pub fn big_binary(&mut self) -> Vec<u8> {
        let known = self.random.chance(2);
        let mut out = Vec::new();
        let mut fields: Vec<Pair> = Vec::new();
        let mut trailers: Vec<Pair> = Vec::new();
        let mut content = Vec::new();
        let mut method = b"GET".to_vec();
        let mut authority = b"a".to_vec();
        let mut path = b"/".to_vec();
        let mut status = None;
        let kind = match self.random.below(13) {
            9 | 10 if !self.random.chance(6) => 4,
            11 if !self.random.chance(10) => 6,
            kind => kind,
        };
        match kind {
            0 => method = vec![b'M'; self.near(32)],
            1 => authority = vec![b'h'; self.near(255)],
            2 => {
                authority.clear();
                fields.push((b"host".to_vec(), vec![b'h'; self.near(255)]));
            }
            3 => path = [b"/".to_vec(), vec![b'p'; self.near(4_096) - 1]].concat(),
            // written heads of about 8,192: "GET / HTTP/1.1", "host: a", "b: ...", ""
            4 => fields.push((b"b".to_vec(), vec![b'v'; self.near(8_192) - 32])),
            // "HTTP/1.1 200 ", "content-length: 0", "b: ...", ""
            5 => {
                status = Some(200);
                fields.push((b"b".to_vec(), vec![b'v'; self.near(8_192) - 15 - 19 - 5 - 2]));
            }
            // written trailers of about 2,048: "t: ...", ""
            6 => trailers.push((b"t".to_vec(), vec![b'v'; self.near(2_048) - 7])),
            7 => {
                let lines = self.near(64) - self.random.below(2);
                fields = vec![(b"a".to_vec(), Vec::new()); lines];
                if self.random.chance(2) {
                    status = Some([200, 204][self.random.below(2)]);
                }
                if self.random.chance(2) && status != Some(204) {
                    content = b"c".to_vec();
                }
            }
            8 => trailers = vec![(b"a".to_vec(), Vec::new()); self.near(64)],
            9 => content = vec![b'c'; self.near(32_768)],
            10 => {
                // input of about 65,535 by padding
                self.faults = 0;
                self.integer(&mut out, 0);
                for part in [&b"GET"[..], b"http", b"a", b"/"] {
                    self.string(&mut out, part);
                }
                let total = self.near(65_535);
                out.resize(total, 0);
                return out;
            }
            11 => {
                // indeterminate, of which the known length is longer
                let total = self.near(65_535);
                self.faults = 0;
                if self.random.chance(2) {
                    out.extend_from_slice(b"\x03\x40\xc8");
                } else {
                    out.extend_from_slice(b"\x02\x03GET\x04http\x01a\x01/");
                }
                push_form(&mut out, 1, 0);
                out.push(b'a');
                let value = total - out.len() - 4 - [1, 3][self.random.below(2)];
                push_form(&mut out, value as u64, 2);
                out.extend(std::iter::repeat(b'v').take(value));
                out.push(0);
                return out;
            }
            _ => {
                // many chunks
                let chunks = self.near(256);
                push_form(&mut out, 2, 0);
                for part in [&b"GET"[..], b"http", b"a", b"/"] {
                    self.string(&mut out, part);
                }
                self.integer(&mut out, 0);
                for _ in 0..chunks {
                    self.string(&mut out, b"c");
                }
                self.integer(&mut out, 0);
                return out;
            }
        }
        let framing = if known { 0 } else { 2 } + if status.is_some() { 1 } else { 0 };
        self.integer(&mut out, framing);
        match status {
            Some(status) => self.integer(&mut out, status),
            None => {
                for part in [&method[..], b"http", &authority, &path] {
                    self.string(&mut out, part);
                }
            }
        }
        self.binary_section(&mut out, &fields, known);
        self.binary_content(&mut out, &content, known);
        self.binary_section(&mut out, &trailers, known);
        out
    }
}

/// An integer in the form of 1, 2, 4 or 8 bytes.
pub fn push_form(out: &mut Vec<u8>, value: u64, form: usize) {
    match form {
        0 => out.push(value as u8 & 0x3f),
        1 => out.extend_from_slice(&((value as u16 & 0x3fff) | 0x4000).to_be_bytes()),
        2 => out.extend_from_slice(&((value as u32 & 0x3fff_ffff) | 0x8000_0000).to_be_bytes()),
        _ => out.extend_from_slice(&((value & 0x3fff_ffff_ffff_ffff) | 0xc000_0000_0000_0000).to_be_bytes()),
    }
}
