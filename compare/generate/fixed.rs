//! The fixed cases: figures, 01's examples, each size at its limit and next to it, truncations, each octet in each
//! place, statuses, integers.

use crate::binary;
use crate::messages::{push_form, Pair};
use crate::questions;
use crate::reference::figures::*;
use crate::reference::items::Items;
use crate::reference::told::Told;
use crate::streams;
use crate::{hex, needed, turn_line, Turn};

pub const A: &[u8] = b"POST /s HTTP/1.1\r\nHost: a\r\nContent-Length: 3\r\n\r\nabc";
pub const P5: &str = "0004504f535404687474700161022f73000361626300";

pub fn cases(items: Items) -> Vec<String> {
    let mut out = Cases::new(items);
    figures(&mut out);
    examples(&mut out);
    http1_sizes(&mut out);
    binary_sizes(&mut out);
    written_sizes(&mut out);
    listings(&mut out);
    truncations(&mut out);
    octets(&mut out);
    statuses(&mut out);
    integers(&mut out);
    told_schemes(&mut out);
    binary::cases(&mut out);
    streams::cases(&mut out);
    questions::cases(&mut out);
    no_commands(&mut out);
    out.lines
}

pub fn unhex(text: &str) -> Vec<u8> {
    let digits: Vec<u8> = text.bytes().filter_map(|b| (b as char).to_digit(16).map(|d| d as u8)).collect();
    digits.chunks(2).map(|pair| pair[0] * 16 + pair.get(1).copied().unwrap_or(0)).collect()
}

pub struct Cases {
    pub lines: Vec<String>,
    /// The items that have landed: the rooms of turnings are made by them.
    pub items: Items,
}

impl Cases {
    pub fn new(items: Items) -> Cases {
        Cases { lines: Vec::new(), items }
    }

    /// What a call without options is told.
    pub fn told(&self) -> Told {
        Told::nothing(self.items)
    }

    pub fn push(&mut self, line: String) {
        self.lines.push(line);
    }

    /// A turning with rooms around what it needs.
    pub fn turn(&mut self, turn: Turn, scheme: u64, input: &[u8]) {
        let rooms = match needed(&self.told(), turn, scheme, input) {
            Some(size) if size > 10_000 => vec![size - 1, size],
            Some(size) => vec![0, 1, size - 1, size, size + 1, size + 100],
            None => vec![0, 300],
        };
        for room in rooms {
            self.push(turn_line(&[], turn, scheme, room, input));
        }
    }

    /// Every command that meets an HTTP/1.1 request.
    pub fn request(&mut self, input: impl AsRef<[u8]>) {
        let input = input.as_ref();
        self.push(format!("h1req 0 {}", hex(input)));
        self.push(format!("listing {}", hex(input)));
        self.turn(Turn::RequestToBinary, 0, input);
        for name in ["b", "accept-language"] {
            self.push(format!("field_h1req 0 {} 6465 {}", hex(name.as_bytes()), hex(input)));
        }
    }

    /// Every command that meets an HTTP/1.1 response.
    pub fn response(&mut self, input: impl AsRef<[u8]>) {
        let input = input.as_ref();
        self.push(format!("h1resp {}", hex(input)));
        self.turn(Turn::ResponseToBinary, 0, input);
        for name in ["b", "server"] {
            self.push(format!("field_h1resp {} 6465 {}", hex(name.as_bytes()), hex(input)));
        }
    }

    /// Every command that meets Binary HTTP.
    pub fn binary(&mut self, input: impl AsRef<[u8]>) {
        let input = input.as_ref();
        self.push(format!("bin {}", hex(input)));
        self.turn(Turn::BinaryToHttp1, 0, input);
        self.turn(Turn::BinaryToHttp1, 1, input);
        self.turn(Turn::BinaryToBinary, 0, input);
        for name in ["b", "accept-language"] {
            self.push(format!("field_bin {} 6465 {}", hex(name.as_bytes()), hex(input)));
        }
    }

    /// Both forms of HTTP/1.1 message with these lines behind the start; a request's Host is the first line.
    fn both(&mut self, rest: &str) {
        self.request(format!("POST /s HTTP/1.1\r\nHost: a\r\n{}", rest));
        self.response(format!("HTTP/1.1 200 OK\r\n{}", rest));
    }
}

// ---------------------------------------------------------------------------------------- Binary messages by hand

pub fn string(out: &mut Vec<u8>, bytes: &[u8]) {
    let form = if bytes.len() < 64 { 0 } else if bytes.len() < 16_384 { 1 } else { 2 };
    push_form(out, bytes.len() as u64, form);
    out.extend_from_slice(bytes);
}

fn lines_of(fields: &[(Vec<u8>, Vec<u8>)]) -> Vec<u8> {
    let mut out = Vec::new();
    for (name, value) in fields {
        string(&mut out, name);
        string(&mut out, value);
    }
    out
}

#[derive(Clone)]
pub struct Plan {
    pub method: Vec<u8>,
    pub scheme: Vec<u8>,
    pub authority: Vec<u8>,
    pub path: Vec<u8>,
    /// None: a request.
    pub statuses: Option<Vec<u64>>,
    /// Of the informational heads.
    pub early: Vec<(Vec<u8>, Vec<u8>)>,
    /// Of the first informational heads, in place of `early`: one section for each.
    pub heads: Vec<Vec<Pair>>,
    pub headers: Vec<(Vec<u8>, Vec<u8>)>,
    pub chunks: Vec<Vec<u8>>,
    pub trailers: Vec<(Vec<u8>, Vec<u8>)>,
}

pub fn request_plan() -> Plan {
    Plan {
        method: b"GET".to_vec(),
        scheme: b"http".to_vec(),
        authority: b"a".to_vec(),
        path: b"/".to_vec(),
        statuses: None,
        early: Vec::new(),
        heads: Vec::new(),
        headers: Vec::new(),
        chunks: Vec::new(),
        trailers: Vec::new(),
    }
}

pub fn response_plan(statuses: &[u64]) -> Plan {
    Plan { statuses: Some(statuses.to_vec()), ..request_plan() }
}

pub fn empty_fields(count: usize) -> Vec<(Vec<u8>, Vec<u8>)> {
    vec![(b"b".to_vec(), Vec::new()); count]
}

pub fn field(name: &str, size: usize) -> (Vec<u8>, Vec<u8>) {
    (name.as_bytes().to_vec(), vec![b'v'; size])
}

pub fn pair(name: &str, value: &str) -> (Vec<u8>, Vec<u8>) {
    (name.as_bytes().to_vec(), value.as_bytes().to_vec())
}

pub fn pairs(fields: &[(&str, &str)]) -> Vec<Pair> {
    fields.iter().map(|(name, value)| pair(name, value)).collect()
}

impl Plan {
    pub fn known(&self) -> Vec<u8> {
        self.encode(true)
    }
    pub fn indeterminate(&self) -> Vec<u8> {
        self.encode(false)
    }
    /// The fields of an informational head, counted from 0.
    fn early_of(&self, head: usize) -> &[Pair] {
        self.heads.get(head).unwrap_or(&self.early)
    }

    fn encode(&self, known: bool) -> Vec<u8> {
        let mut out = Vec::new();
        let section = |out: &mut Vec<u8>, fields: &[(Vec<u8>, Vec<u8>)]| {
            let lines = lines_of(fields);
            if known {
                string(out, &lines);
            } else {
                out.extend_from_slice(&lines);
                out.push(0);
            }
        };
        let framing = if self.statuses.is_some() { 1 } else { 0 } + if known { 0 } else { 2 };
        push_form(&mut out, framing, 0);
        match &self.statuses {
            None => {
                for part in [&self.method, &self.scheme, &self.authority, &self.path] {
                    string(&mut out, part);
                }
            }
            Some(statuses) => {
                for (i, status) in statuses.iter().enumerate() {
                    push_form(&mut out, *status, 1);
                    if i + 1 < statuses.len() {
                        section(&mut out, self.early_of(i));
                    }
                }
            }
        }
        section(&mut out, &self.headers);
        if known {
            string(&mut out, &self.chunks.concat());
        } else {
            for chunk in &self.chunks {
                string(&mut out, chunk);
            }
            out.push(0);
        }
        section(&mut out, &self.trailers);
        out
    }

    /// The line of HTTP/1.1 that frames its content, if it needs one.
    fn framing(&self) -> Option<Pair> {
        if !self.trailers.is_empty() {
            return Some(pair("transfer-encoding", "chunked"));
        }
        let size = self.chunks.concat().len();
        let needs_none = self.statuses.as_ref().map_or(true, |statuses| matches!(statuses.last(), Some(204 | 304)));
        (size > 0 || !needs_none).then(|| pair("content-length", &size.to_string()))
    }

    /// The same message in HTTP/1.1, each section with its empty line as `section` writes it: Host is a request's first line,
    /// what frames the content is the last of the head.
    pub fn http1(&self, mut section: impl FnMut(&mut Vec<u8>, &[Pair])) -> Vec<u8> {
        let mut out = Vec::new();
        let mut headers = self.headers.clone();
        match &self.statuses {
            None => {
                out.extend([&self.method[..], b" ", &self.path, b" HTTP/1.1\r\n"].concat());
                headers.insert(0, (b"host".to_vec(), self.authority.clone()));
            }
            Some(statuses) => {
                for (i, status) in statuses.iter().enumerate() {
                    out.extend(format!("HTTP/1.1 {status} \r\n").bytes());
                    if i + 1 < statuses.len() {
                        section(&mut out, self.early_of(i));
                    }
                }
            }
        }
        headers.extend(self.framing());
        section(&mut out, &headers);
        if self.trailers.is_empty() {
            out.extend(self.chunks.concat());
            return out;
        }
        for chunk in &self.chunks {
            out.extend([format!("{:x}\r\n", chunk.len()).as_bytes(), chunk, b"\r\n"].concat());
        }
        out.extend(b"0\r\n");
        section(&mut out, &self.trailers);
        out
    }
}

pub fn both_framings(out: &mut Cases, plan: &Plan) {
    out.binary(plan.known());
    out.binary(plan.indeterminate());
}

// ---------------------------------------------------------------------------------------- figures and examples

fn figures(out: &mut Cases) {
    let figure_7 = format!("{}\r\n", FIGURE_7);
    let figure_12 = format!("{}\r\n", FIGURE_12);
    out.request(&figure_7);
    out.request(FIGURE_7);
    out.push(format!("h1req 1 {}", hex(figure_7.as_bytes())));
    out.turn(Turn::RequestToBinary, 1, figure_7.as_bytes());
    for name in ["user-agent", "accept-language", "host", "accept", "Accept-Language", ""] {
        let name = hex(name.as_bytes());
        out.push(format!("field_h1req 1 {} 64656661756c74 {}", name, hex(figure_7.as_bytes())));
        out.push(format!("field_bin {} 64656661756c74 {}", name, FIGURE_8));
        out.push(format!("field_bin {} - {}", name, FIGURE_9));
    }
    out.response(FIGURE_10);
    out.response(&figure_12);
    out.response(FIGURE_12);
    for name in ["link", "date", "server", "content-length", "content-type", "running", "vary"] {
        let name = hex(name.as_bytes());
        out.push(format!("field_h1resp {} 64 {}", name, hex(FIGURE_10.as_bytes())));
        out.push(format!("field_bin {} 64 {}", name, FIGURE_11));
    }
    for figure in [FIGURE_8, FIGURE_9, FIGURE_11, FIGURE_13] {
        out.binary(unhex(figure));
    }
}

fn examples(out: &mut Cases) {
    // P1 to P3 as a status, a length and a name length stand in other cases; here as framing and status.
    for text in ["25", "4025", "7bbd", "0125", "014025", "017bbd"] {
        out.binary(unhex(text));
    }
    out.request(A);
    out.push(format!("h1req 1 {}", hex(A)));
    out.binary(unhex(P5));
    out.request("");
    out.response("");
    out.binary("");
    out.binary([4]);
    let text = String::from_utf8_lossy(A).into_owned();
    out.request(text.replace("3\r\n\r\n", "3\r\nTransfer-Encoding: chunked\r\n\r\n"));
    out.request(text.replace("Content-Length: 3", "Content-Length: 5, 5"));
    out.request(text.replace("Content-Length: 3", "Content-Length: 3\r\nContent-Length: 3"));
    out.binary(&unhex(P5)[..17]);
    out.binary(&unhex(P5)[..16]);
    out.binary([unhex(FIGURE_13), vec![1]].concat());
    out.binary([unhex(FIGURE_13), vec![0]].concat());
    let coded = Plan { headers: vec![(b"transfer-encoding".to_vec(), b"chunked".to_vec())], ..request_plan() };
    both_framings(out, &coded);
}

// ---------------------------------------------------------------------------------------- sizes

fn http1_sizes(out: &mut Cases) {
    for size in [31, 32, 33] {
        out.request(format!("{} /s HTTP/1.1\r\nHost: a\r\n\r\n", "M".repeat(size)));
    }
    for size in [1, 254, 255, 256] {
        out.request(format!("GET /s HTTP/1.1\r\nHost: {}\r\n\r\n", "h".repeat(size)));
    }
    for size in [1, 4_095, 4_096, 4_097] {
        out.request(format!("GET /{} HTTP/1.1\r\nHost: a\r\n\r\n", "p".repeat(size - 1)));
    }
    // heads of one request: in a field line, in two, in the Host's blanks, in the request line
    for total in [8_191, 8_192, 8_193] {
        let start = "POST /s HTTP/1.1\r\nHost: a\r\nContent-Length: 1\r\n";
        let whole = format!("{}b:{}\r\n\r\nX", start, "v".repeat(total - start.len() - 6));
        out.request(&whole);
        for cut in 8_188..whole.len() {
            out.push(format!("h1req 0 {}", hex(&whole.as_bytes()[..cut])));
        }
        let two = format!("{}b:{}\r\nc:d\r\n\r\nX", start, "v".repeat(total - start.len() - 11));
        out.request(&two);
        for cut in 8_180..two.len() {
            out.push(format!("h1req 0 {}", hex(&two.as_bytes()[..cut])));
        }
        out.request(format!("GET /s HTTP/1.1\r\nHost: a{}\r\n\r\n", " ".repeat(total - 17 - 7 - 4)));
        // a bad line that is too long, a line whose bad end lies beyond
        out.request(format!("{}b{}\r\n\r\nX", start, "v".repeat(total - start.len() - 5)));
        out.request(format!("{}b:{}\n\r\nX", start, "v".repeat(total - start.len() - 5)));
        out.request(format!("GET /{} HTTP/1.1\r\n", "p".repeat(total - 16)));
        out.request(format!("GET /{}", "p".repeat(total - 5)));
        // responses: one head, and the allowance shared by informational heads
        for early in [0, 1, 4] {
            let start = format!("{}HTTP/1.1 200 OK\r\nContent-Length: 1\r\n", "HTTP/1.1 103 \r\nA: b\r\n\r\n".repeat(early));
            let whole = format!("{}b:{}\r\n\r\nX", start, "v".repeat(total - start.len() - 6));
            out.response(&whole);
            for cut in 8_188..whole.len() {
                out.push(format!("h1resp {}", hex(&whole.as_bytes()[..cut])));
            }
        }
        out.response(format!("HTTP/1.1 200 {}", "r".repeat(total - 13)));
        out.response(format!("HTTP/1.1 200 {}\r\n", "r".repeat(total - 15)));
        // the heads' allowance ends with an informational head
        let early = format!("HTTP/1.1 103 \r\nb:{}\r\n\r\n", "v".repeat(total - 15 - 6));
        out.response(&early);
        out.response(format!("{}HTTP/1.1 204 \r\n\r\n", early));
    }
    let chunked = "Transfer-Encoding: chunked\r\n\r\n";
    for part in [2_047, 2_048, 2_049] {
        out.both(&format!("{}0\r\nT:{}\r\n\r\nX", chunked, "t".repeat(part - 6)));
        out.both(&format!("{}0\r\nT:{}\r\nU: u\r\n\r\nX", chunked, "t".repeat(part - 12)));
        out.both(&format!("{}0\r\nT:{}\n\r\n", chunked, "t".repeat(part - 5)));
        let whole = format!("POST /s HTTP/1.1\r\nHost: a\r\n{}0\r\nT:{}\r\n\r\nX", chunked, "t".repeat(part - 6));
        for cut in whole.len() - 8..whole.len() {
            out.push(format!("h1req 0 {}", hex(&whole.as_bytes()[..cut])));
        }
        // the same, used up exactly by the lines
        out.both(&format!("{}0\r\nT:{}\r\n", chunked, "t".repeat(part - 4)));
        out.both(&format!("{}0\r\n{}", chunked, "t".repeat(part)));
    }
    for line in [255, 256, 257] {
        for (size, rest) in [("3", "abc\r\n0\r\n\r\n"), ("0", "\r\n")] {
            out.both(&format!("{}{};{}\r\n{}", chunked, size, "e".repeat(line - 4), rest));
            out.both(&format!("{}{}{}\r\n{}", chunked, "0".repeat(line - 3), size, rest));
            out.both(&format!("{}{}{}\n{}", chunked, "0".repeat(line - 2), size, rest));
        }
        out.both(&format!("{}{}", chunked, "0".repeat(line)));
        out.both(&format!("{}{}\r\n", chunked, "f".repeat(line - 2)));
    }
    for lines in [62, 63, 64, 65] {
        // a request has its Host besides
        for last in ["Content-Length: 0\r\n", "zz\r\n", "z:\n", "Content-Length: x\r\n"] {
            out.both(&format!("{}{}\r\n", "b:\r\n".repeat(lines - 1), last));
        }
        out.both(&format!("{}Content-Length: 0\r\n\r\n", "te: a\r\n".repeat(lines - 1)));
        out.response(format!("HTTP/1.1 103 \r\n{}\r\nHTTP/1.1 204 \r\n\r\n", "b:\r\n".repeat(lines)));
        out.response(format!("HTTP/1.1 204 \r\n{}\r\n", "b:\r\n".repeat(lines)));
        for last in ["b:\r\n", "zz\r\n", "z:\n", "host:\r\n", "te:\r\n"] {
            out.both(&format!("{}0\r\n{}{}\r\n", chunked, "b:\r\n".repeat(lines - 1), last));
            out.both(&format!("{}0\r\n{}{}", chunked, "host:\r\n".repeat(lines - 1), last));
        }
    }
    for early in [3, 4, 5] {
        for status in [100, 101, 199] {
            let head = format!("HTTP/1.1 {} \r\n\r\n", status);
            out.response(format!("{}HTTP/1.1 204 \r\n\r\n", head.repeat(early)));
            out.response(format!("{}{}HTTP/1.1 204 \r\n\r\n", "HTTP/1.1 102 \r\n\r\n".repeat(early - 1), head));
        }
    }
    for chunks in [255, 256, 257] {
        for last in ["0\r\n\r\n", "0\r\nT: t\r\n\r\n", "", "0"] {
            out.both(&format!("{}{}{}", chunked, "1\r\nc\r\n".repeat(chunks), last));
        }
        out.both(&format!("{}{}8000\r\n", chunked, "1\r\nc\r\n".repeat(chunks - 1)));
    }
    for size in [32_767, 32_768, 32_769] {
        let data = "c".repeat(size);
        out.both(&format!("Content-Length: {}\r\n\r\n{}X", size, data));
        out.both(&format!("Content-Length: 000{}\r\n\r\n{}", size, &data[1..]));
        out.both(&format!("{}{:x}\r\n{}\r\n0\r\n\r\n", chunked, size, data));
        out.both(&format!("{}{:X}\r\n{}\r\n1\r\nc\r\n0\r\n\r\n", chunked, size - 1, &data[1..]));
        out.both(&format!("{}4000\r\n{}\r\n{:x}\r\n{}\r\n0\r\nT: t\r\n\r\n", chunked, &data[..16_384], size - 16_384, &data[16_384..]));
    }
    // contents where the lengths of the Binary form change
    for size in [0, 1, 63, 64, 16_383, 16_384] {
        out.both(&format!("Content-Length: {}\r\n\r\n{}", size, "c".repeat(size)));
    }
    for size in [1, 62, 63, 64, 65] {
        out.both(&format!("{}:{}\r\nContent-Length: 0\r\n\r\n", "n".repeat(size), "v".repeat(65 - size)));
        out.both(&format!("b:{}\r\nContent-Length: 0\r\n\r\n", "v".repeat(size - 1)));
        out.both(&format!("{}0\r\n{}:\r\n\r\n", chunked, "n".repeat(size)));
        out.request(format!("GET /{} HTTP/1.1\r\nHost: {}\r\n\r\n", "p".repeat(size - 1), "h".repeat(size)));
    }
    // numbers that would wrap
    for text in [
        "4294967299", "18446744073709551619", "340282366920938463463374607431768211459", "36893488147419103235",
        "00000000000000000000000000000000000000003", "99999999999999999999999999999999999999999999999999",
        "9223372036854775811", "32768", "32769", "65539",
    ] {
        out.both(&format!("Content-Length: {}\r\n\r\nabc", text));
    }
    for text in [
        "100000003", "10000000000000003", "8000000000000003", "ffffffffffffffff", "fffffffffffffffe", "fffffffffffffffd",
        "100000000000000000003", "00000000000000000003", "1000000000000000000000000000000000000003",
        "0000000000000000000000000000000000000003", "ffffffffffffffffffffffffffffffffffffffff",
        "100000000000000000000000000000003", "7fffffffffffffff", "fffffffd", "10003",
    ] {
        out.both(&format!("{}{}\r\nabc\r\n0\r\n\r\n", chunked, text));
        out.both(&format!("{}1\r\nx\r\n{}\r\nabc\r\n0\r\n\r\n", chunked, text));
    }
}

fn binary_sizes(out: &mut Cases) {
    for size in [31, 32, 33] {
        both_framings(out, &Plan { method: vec![b'M'; size], ..request_plan() });
        both_framings(out, &Plan { method: vec![b'('; size], ..request_plan() });
    }
    for size in [1, 254, 255, 256] {
        both_framings(out, &Plan { authority: vec![b'h'; size], ..request_plan() });
        both_framings(out, &Plan { authority: vec![b'/'; size], ..request_plan() });
        let host = (b"host".to_vec(), vec![b'h'; size]);
        both_framings(out, &Plan { authority: Vec::new(), headers: vec![host.clone()], ..request_plan() });
        both_framings(out, &Plan { authority: host.1.clone(), headers: vec![host], ..request_plan() });
    }
    for size in [1, 4_095, 4_096, 4_097] {
        both_framings(out, &Plan { path: [vec![b'/'], vec![b'p'; size - 1]].concat(), ..request_plan() });
        both_framings(out, &Plan { path: vec![b'p'; size], ..request_plan() });
    }
    // lengths over a size, nothing behind them
    for (before, sizes) in [
        ("00", [31, 32, 33, 1 << 20]),
        ("0003474554", [4, 5, 6, 1 << 20]),
        ("00034745540468747470", [254, 255, 256, 1 << 20]),
        ("000347455404687474700161", [4_095, 4_096, 4_097, 1 << 20]),
        ("000347455404687474700161012f", [0, 1, 32_769, 1 << 20]),
        ("000347455404687474700161012f00", [32_767, 32_768, 32_769, 1 << 20]),
        ("000347455404687474700161012f0000", [0, 1, 32_769, 1 << 20]),
        ("020347455404687474700161012f", [0, 1, 32_769, 1 << 20]),
        ("020347455404687474700161012f00", [32_767, 32_768, 32_769, 1 << 20]),
        ("020347455404687474700161012f000163", [32_766, 32_767, 32_768, 1 << 20]),
        ("020347455404687474700161012f0000", [0, 1, 32_769, 1 << 20]),
    ] {
        for size in sizes {
            for form in [1, 2, 3] {
                let mut input = unhex(before);
                if form == 1 && size >= 1 << 14 {
                    continue;
                }
                push_form(&mut input, size, form);
                out.push(format!("bin {}", hex(&input)));
                for cut in 1..input.len() {
                    out.push(format!("bin {}", hex(&input[..cut])));
                }
            }
        }
        let mut input = unhex(before);
        push_form(&mut input, (1 << 62) - 1, 3);
        out.binary(&input);
    }
    for lines in [63, 64, 65] {
        let plan = Plan { headers: empty_fields(lines), ..request_plan() };
        both_framings(out, &plan);
        both_framings(out, &Plan { headers: vec![field("te", 1); lines], ..request_plan() });
        both_framings(out, &Plan { trailers: empty_fields(lines), ..request_plan() });
        both_framings(out, &Plan { trailers: vec![field("te", 1); lines], ..request_plan() });
        both_framings(out, &Plan { trailers: vec![field("host", 1); lines], ..request_plan() });
        both_framings(out, &Plan { headers: empty_fields(lines), ..response_plan(&[200]) });
        both_framings(out, &Plan { early: empty_fields(lines), ..response_plan(&[103, 204]) });
        both_framings(out, &Plan { trailers: empty_fields(lines), ..response_plan(&[200]) });
        // a 65th line that is cut, empty or bad
        for tail in ["", "00", "40", "4000", "3f", "0141", "014100", "ff"] {
            let tail = unhex(tail);
            let mut known = unhex("000347455404687474700161012f");
            string(&mut known, &[lines_of(&empty_fields(lines)), tail.clone()].concat());
            out.push(format!("bin {}", hex(&known)));
            let open = [unhex("020347455404687474700161012f"), lines_of(&empty_fields(lines)), tail].concat();
            out.push(format!("bin {}", hex(&open)));
        }
    }
    for early in [3, 4, 5] {
        for last in [100, 101, 199] {
            let mut statuses = vec![102; early - 1];
            statuses.extend([last, 204]);
            both_framings(out, &response_plan(&statuses));
        }
    }
    for chunks in [255, 256, 257] {
        let plan = Plan { chunks: vec![b"c".to_vec(); chunks], ..request_plan() };
        both_framings(out, &plan);
        both_framings(out, &Plan { trailers: vec![field("t", 1)], ..plan.clone() });
        let whole = plan.indeterminate();
        for tail in ["", "01", "40", "80008000", "3f"] {
            out.push(format!("bin {}", hex(&[&whole[..whole.len() - 2], &unhex(tail)].concat())));
        }
    }
    for size in [32_767, 32_768, 32_769] {
        let data = vec![b'c'; size];
        both_framings(out, &Plan { chunks: vec![data.clone()], ..request_plan() });
        both_framings(out, &Plan { chunks: vec![data[1..].to_vec(), b"d".to_vec()], ..request_plan() });
        both_framings(out, &Plan { chunks: vec![data.clone()], trailers: vec![field("t", 1)], ..response_plan(&[200]) });
        let length = (b"content-length".to_vec(), size.to_string().into_bytes());
        both_framings(out, &Plan { headers: vec![length], chunks: vec![data], ..response_plan(&[200]) });
    }
    for size in [1, 63, 64, 16_383, 16_384] {
        both_framings(out, &Plan { chunks: vec![vec![b'c'; size]], ..request_plan() });
        both_framings(out, &Plan { headers: vec![field("b", size)], ..request_plan() });
        both_framings(out, &Plan { headers: vec![field(&"n".repeat(size), 0)], ..request_plan() });
        both_framings(out, &Plan { trailers: vec![field("b", size)], ..request_plan() });
    }
    // input of 65,535 bytes, by padding
    for total in [65_534, 65_535, 65_536, 65_537] {
        let mut input = request_plan().known();
        input.resize(total, 0);
        out.binary(&input);
        *input.last_mut().unwrap() = 1;
        out.push(format!("bin {}", hex(&input)));
        out.push(format!("bin {}", hex(&vec![4; total])));
        out.push(format!("bin2h1 2 10 {}", hex(&input)));
        out.push(format!("field_bin 62 64 {}", hex(&vec![0xff; total])));
    }
}

/// Sizes that only the written form passes.
fn written_sizes(out: &mut Cases) {
    for total in [8_191, 8_192, 8_193] {
        // "GET / HTTP/1.1", "host: a", "b: ...", ""
        both_framings(out, &Plan { headers: vec![field("b", total - 16 - 9 - 5 - 2)], ..request_plan() });
        // "content-length: 1" besides
        both_framings(
            out,
            &Plan { headers: vec![field("b", total - 16 - 9 - 19 - 5 - 2)], chunks: vec![b"c".to_vec()], ..request_plan() },
        );
        // "transfer-encoding: chunked" besides
        both_framings(
            out,
            &Plan { headers: vec![field("b", total - 16 - 9 - 28 - 5 - 2)], trailers: vec![field("t", 1)], ..request_plan() },
        );
        // the authority from host alone
        let host = (b"host".to_vec(), b"a".to_vec());
        both_framings(
            out,
            &Plan { authority: Vec::new(), headers: vec![host, field("b", total - 16 - 9 - 5 - 2)], ..request_plan() },
        );
        // responses
        both_framings(out, &Plan { headers: vec![field("b", total - 15 - 19 - 5 - 2)], ..response_plan(&[200]) });
        both_framings(out, &Plan { headers: vec![field("b", total - 15 - 5 - 2)], ..response_plan(&[304]) });
        both_framings(out, &Plan { early: vec![field("b", total - 17 - 15 - 5 - 2)], ..response_plan(&[103, 204]) });
        both_framings(out, &Plan { headers: vec![field("b", total - 4 * 17 - 15 - 5 - 2)], ..response_plan(&[103, 103, 103, 103, 204]) });
        both_framings(
            out,
            &Plan { headers: vec![field("b", total - 17 - 15 - 28 - 5 - 2)], trailers: vec![field("t", 1)], ..response_plan(&[100, 200]) },
        );
    }
    for total in [2_047, 2_048, 2_049] {
        // "b: ...", ""
        for plan in [request_plan(), response_plan(&[200])] {
            both_framings(out, &Plan { trailers: vec![field("b", total - 5 - 2)], ..plan.clone() });
            both_framings(out, &Plan { trailers: vec![field("c", 1), field("b", total - 6 - 5 - 2)], chunks: vec![b"cc".to_vec()], ..plan.clone() });
            // dropped ones are not written
            both_framings(out, &Plan { trailers: vec![field("te", 3_000), field("b", total - 5 - 2)], ..plan });
        }
    }
    for lines in [61, 62, 63, 64] {
        for content in [0, 1] {
            for trailers in [0, 1] {
                let chunks = vec![b"c".to_vec(); content];
                let trailers = empty_fields(trailers);
                for plan in [request_plan(), response_plan(&[200])] {
                    let plan = Plan { headers: empty_fields(lines), chunks: chunks.clone(), trailers: trailers.clone(), ..plan };
                    both_framings(out, &plan);
                }
            }
        }
        both_framings(out, &Plan { headers: empty_fields(lines), ..response_plan(&[204]) });
        let mut fields = empty_fields(lines - 1);
        fields.push((b"host".to_vec(), b"a".to_vec()));
        both_framings(out, &Plan { headers: fields, ..request_plan() });
    }
    // Binary of 65,535 bytes written from an indeterminate one that is shorter: written are 1 + 2 + 4 + (1 + 1 + 4 + v) + 1 + 1
    for total in [65_534, 65_535, 65_536, 65_537] {
        let plan = Plan { headers: vec![field("b", total - 15)], ..response_plan(&[200]) };
        let whole = plan.indeterminate();
        out.binary(&whole);
        out.binary(&whole[..whole.len() - 2]);
        for room in [0, 65_535, 65_536] {
            out.push(format!("bin2bin {} {}", room, hex(&whole)));
        }
    }
}

fn listings(out: &mut Cases) {
    let next = b"GET /t HTTP/1.1\r\nHost: a\r\n\r\n";
    let stream = [A, next].concat();
    for cut in 0..=stream.len() {
        out.push(format!("listing {}", hex(&stream[..cut])));
    }
    out.push(format!("listing {}", hex(&[&stream[..], b"\r\n"].concat())));
    out.push(format!("listing {}", hex(&[&stream[..], b"X"].concat())));
    // 65,536 bytes of many small requests; of two large ones; of none
    for total in [65_535, 65_536, 65_537] {
        let mut many = next.repeat(2_339);
        let rest = total - many.len() - next.len();
        many.extend_from_slice(format!("GET /t{} HTTP/1.1\r\nHost: a\r\n\r\n", "t".repeat(rest)).as_bytes());
        out.push(format!("listing {}", hex(&many)));
        let mut two = format!("PUT / HTTP/1.1\r\nHost: a\r\nContent-Length: 32768\r\n\r\n{}", "c".repeat(32_768)).into_bytes();
        let head = "PUT / HTTP/1.1\r\nHost: a\r\nContent-Length: 00000\r\n\r\n".len();
        let size = total - two.len() - head;
        two.extend_from_slice(format!("PUT / HTTP/1.1\r\nHost: a\r\nContent-Length: {:05}\r\n\r\n{}", size, "d".repeat(size)).as_bytes());
        out.push(format!("listing {}", hex(&two)));
        out.push(format!("listing {}", hex(&vec![b'x'; total])));
        out.push(format!("listing {}", hex(&vec![b'\n'; total])));
    }
    out.push("listing -".to_string());
}

// ---------------------------------------------------------------------------------------- truncations

pub const REQUESTS: [&str; 11] = [
    "POST /s HTTP/1.1\r\nHost: a\r\nContent-Length: 3\r\n\r\nabc",
    "GET /t HTTP/1.1\r\nHost: a\r\n\r\n",
    "PUT /a?b HTTP/1.1\r\nAccept: x\r\nHOST:\t[::1]:80 \r\nB: \r\nContent-Length: 0004\r\n\r\n\r\n\r\nGET / HTTP/1.1\r\n",
    "POST /s HTTP/1.1\r\nTransfer-Encoding: Chunked\r\nHost: a\r\n\r\n3\r\nabc\r\n00;x=y\r\n\r\n",
    "POST /s HTTP/1.1\r\nhost: a\r\nb: c\r\ntransfer-encoding: chunked\r\n\r\n5;e\r\nabcde\r\n1\r\nf\r\n0\r\nT: u\r\nTE: v\r\nw:x\r\n\r\n",
    "POST /s HTTP/1.1\r\nHost: a\r\nTransfer-Encoding: chunked\r\n\r\n0\r\nHost: a\r\nb: c\r\n\r\n",
    "POST /s HTTP/1.1\r\nHost: a\r\nContent-Length: 3\r\nContent-Length: 3\r\n\r\nabc",
    "POST /s HTTP/1.1\r\nHost: a\r\nHost: a\r\nConnection: close\r\n\r\n",
    "POST /s HTTP/1.1\r\nHost: a\r\nTransfer-Encoding: chunked\r\n\r\n2\r\nabc\r\n0\r\n\r\n",
    "OPTIONS /x HTTP/1.1\r\nHost: a\r\nKeep-Alive: 1\r\nUpgrade: h2c\r\nProxy-Connection: x\r\nb:1\r\nb:2\r\n\r\nrest",
    "GET /s HTTP/1.1\r\nHost: a\r\nb: c\r\n d\r\n\r\n",
];

const RESPONSES: [&str; 10] = [
    "HTTP/1.1 200 OK\r\nContent-Length: 3\r\n\r\nabc",
    "HTTP/1.1 204 No Content\r\nb: c\r\n\r\nrest",
    "HTTP/1.1 304 \r\n\r\n",
    "HTTP/1.1 102 Processing\r\nRunning: \"sleep 15\"\r\n\r\nHTTP/1.1 103 Early Hints\r\nLink: x\r\n\r\nHTTP/1.1 200 OK\r\nb: 1\r\nContent-Length: 1\r\n\r\nz",
    "HTTP/1.1 200 OK\r\nTransfer-Encoding: chunked\r\n\r\n4\r\nThis\r\n6\r\n conte\r\n13;chunk-extension=foo\r\nnt contains CRLF.\r\n\r\n0\r\nTrailer: text\r\n\r\n",
    "HTTP/1.1 100 \r\nContent-Length: 0\r\n\r\nHTTP/1.1 204 \r\n\r\n",
    "HTTP/1.1 500 a\tb \r\nhost: h\r\nHost: i\r\ncontent-length: 0\r\n\r\n",
    "HTTP/1.1 200 OK\r\n\r\n",
    "HTTP/1.1 404 \r\nTransfer-Encoding: chunked\r\nContent-Length: 3\r\n\r\n3\r\nabc\r\n0\r\n\r\n",
    "HTTP/1.1 200 \r\ntransfer-encoding: chunked\r\n\r\n1\r\nab\r\n0\r\ncontent-length: 1\r\n\r\n",
];

fn binary_samples() -> Vec<Vec<u8>> {
    let request = Plan {
        method: b"POST".to_vec(),
        authority: b"a".to_vec(),
        path: b"/s".to_vec(),
        headers: vec![pair("b", "c"), pair("te", "x"), pair("content-length", "05"), pair("d", "")],
        chunks: vec![b"abc".to_vec(), b"de".to_vec()],
        trailers: vec![pair("t", "u"), pair("te", "v")],
        ..request_plan()
    };
    let host = Plan {
        authority: Vec::new(),
        scheme: b"https".to_vec(),
        headers: vec![pair("b", "c"), pair("host", "www.example.com"), pair("transfer-encoding", "x")],
        ..request.clone()
    };
    let response = Plan { early: vec![pair("link", "x")], headers: vec![pair("b", "c"), pair("host", "h")], ..response_plan(&[102, 103, 200]) };
    let bodiless = Plan { headers: vec![pair("b", "c")], trailers: vec![pair("te", "x")], ..response_plan(&[204]) };
    let wrong = Plan { headers: vec![pair("content-length", "6")], ..request.clone() };
    let mut samples = Vec::new();
    for plan in [request, host, response, bodiless, wrong] {
        samples.push(plan.known());
        samples.push(plan.indeterminate());
    }
    samples.push(unhex(FIGURE_13));
    // long forms everywhere
    samples.push(unhex("4000 8000 0003 474554 c000 0000 0000 0004 68747470 4001 61 8000 0001 2f 4004 4001 62 4001 63 8000 0001 64 4000 0000"));
    samples.push(unhex("8000 0003 40c8 4001 62 4001 63 4000 4002 6465 8000 0001 66 c000 0000 0000 0000 4001 74 4000 8000 0000 0000"));
    samples
}

fn truncations(out: &mut Cases) {
    for text in REQUESTS {
        let input = text.as_bytes();
        for cut in 0..=input.len() {
            let part = hex(&input[..cut]);
            out.push(format!("h1req 0 {}", part));
            out.push(format!("listing {}", part));
            out.push(format!("h1req2bin 0 400 {}", part));
            out.push(format!("field_h1req 0 62 6465 {}", part));
        }
        out.request(input);
    }
    for text in RESPONSES {
        let input = text.as_bytes();
        for cut in 0..=input.len() {
            let part = hex(&input[..cut]);
            out.push(format!("h1resp {}", part));
            out.push(format!("h1resp2bin 400 {}", part));
            out.push(format!("field_h1resp 62 6465 {}", part));
        }
        out.response(input);
    }
    for text in [FIGURE_10, FIGURE_12] {
        for cut in 0..=text.len() {
            out.push(format!("h1resp {}", hex(&text.as_bytes()[..cut])));
        }
    }
    for cut in 0..=FIGURE_7.len() {
        out.push(format!("h1req 1 {}", hex(&FIGURE_7.as_bytes()[..cut])));
    }
    for input in binary_samples() {
        for cut in 0..=input.len() {
            let part = hex(&input[..cut]);
            out.push(format!("bin {}", part));
            out.push(format!("bin2h1 0 400 {}", part));
            out.push(format!("bin2h1 1 400 {}", part));
            out.push(format!("bin2bin 400 {}", part));
            out.push(format!("field_bin 62 6465 {}", part));
        }
        out.binary(&input);
        // padding, good and bad
        for tail in [&[0][..], &[0, 0, 0], &[0, 0, 1], &[1], &[0x40], &[0x40, 0]] {
            out.push(format!("bin {}", hex(&[&input[..], tail].concat())));
        }
    }
    for figure in [FIGURE_8, FIGURE_9, FIGURE_11] {
        let input = unhex(figure);
        for cut in 0..=input.len() {
            out.push(format!("bin {}", hex(&input[..cut])));
        }
    }
}

// ---------------------------------------------------------------------------------------- octets, statuses, integers

/// Each of the 256 octets in each place: alone, within, and at either end.
fn octets(out: &mut Cases) {
    for octet in 0..=255u8 {
        let within = |before: &str, after: &str| [before.as_bytes(), &[octet], after.as_bytes()].concat();
        let end = " HTTP/1.1\r\nHost: a\r\n\r\n";
        for (before, after) in [
            ("", " /s HTTP/1.1\r\nHost: a\r\n\r\n"),
            ("G", "T /s HTTP/1.1\r\nHost: a\r\n\r\n"),
            ("GET ", end),
            ("GET /", end),
            ("GET /a", &format!("b{}", end)),
            ("GET /s", "HTTP/1.1\r\nHost: a\r\n\r\n"),
            ("GET /s HTTP/1.1", "\r\nHost: a\r\n\r\n"),
            ("GET /s HTTP/1.", "\r\nHost: a\r\n\r\n"),
            ("GET /s HTTP/1.1\r", "Host: a\r\n\r\n"),
            ("GET /s HTTP/1.1", "\nHost: a\r\n\r\n"),
            ("GET /s HTTP/1.1\r\nHost: ", "\r\n\r\n"),
            ("GET /s HTTP/1.1\r\nHost: a", "b\r\n\r\n"),
            ("GET /s HTTP/1.1\r\nHost: a\r\n", ": b\r\n\r\n"),
            ("GET /s HTTP/1.1\r\nHost: a\r\nb", "c: d\r\n\r\n"),
            ("GET /s HTTP/1.1\r\nHost: a\r\nb", " d\r\n\r\n"),
            ("GET /s HTTP/1.1\r\nHost: a\r\nb:", "\r\n\r\n"),
            ("GET /s HTTP/1.1\r\nHost: a\r\nb:", "c\r\n\r\n"),
            ("GET /s HTTP/1.1\r\nHost: a\r\nb:c", "d\r\n\r\n"),
            ("GET /s HTTP/1.1\r\nHost: a\r\nb:c", "\r\n\r\n"),
            ("GET /s HTTP/1.1\r\nHost: a\r\nb:c\r\n", "\r\n\r\n"),
            ("GET /s HTTP/1.1\r\nHost: a\r\nb:c\r\n", "\n"),
            ("GET /s HTTP/1.1\r\nHost: a\r\nb:c\r\n\r", ""),
            ("GET /s HTTP/1.1\r\nHost: a\r\nContent-Length: ", "\r\n\r\n123456789"),
            ("GET /s HTTP/1.1\r\nHost: a\r\nContent-Length: 1", "\r\n\r\n12345678901234567890"),
            ("GET /s HTTP/1.1\r\nHost: a\r\nTransfer-Encoding: chunke", "\r\n\r\n0\r\n\r\n"),
            ("GET /s HTTP/1.1\r\nHost: a\r\nTransfer-Encoding: chunked", "\r\n\r\n0\r\n\r\n"),
            ("GET /s HTTP/1.1\r\nHost: a\r\nTransfer-Encoding: chunked\r\n\r\n", "\r\n123456789012345\r\n0\r\n\r\n"),
            ("GET /s HTTP/1.1\r\nHost: a\r\nTransfer-Encoding: chunked\r\n\r\n", "\r\n\r\n"),
            ("GET /s HTTP/1.1\r\nHost: a\r\nTransfer-Encoding: chunked\r\n\r\n1", "\r\na\r\n0\r\n\r\n"),
            ("GET /s HTTP/1.1\r\nHost: a\r\nTransfer-Encoding: chunked\r\n\r\n1;", "\r\na\r\n0\r\n\r\n"),
            ("GET /s HTTP/1.1\r\nHost: a\r\nTransfer-Encoding: chunked\r\n\r\n1\r\na", "\n0\r\n\r\n"),
            ("GET /s HTTP/1.1\r\nHost: a\r\nTransfer-Encoding: chunked\r\n\r\n1\r\na\r", "0\r\n\r\n"),
            ("GET /s HTTP/1.1\r\nHost: a\r\nTransfer-Encoding: chunked\r\n\r\n0\r\nb", ": c\r\n\r\n"),
            ("GET /s HTTP/1.1\r\nHost: a\r\nTransfer-Encoding: chunked\r\n\r\n0\r\nb:c", "d\r\n\r\n"),
        ] {
            out.push(format!("h1req 0 {}", hex(&within(before, after))));
        }
        for (before, after) in [
            ("HTTP/1.1", "204 \r\n\r\n"),
            ("HTTP/1.", " 204 \r\n\r\n"),
            ("HTTP/1.1 ", "04 \r\n\r\n"),
            ("HTTP/1.1 2", "4 \r\n\r\n"),
            ("HTTP/1.1 20", " \r\n\r\n"),
            ("HTTP/1.1 204", "\r\n\r\n"),
            ("HTTP/1.1 204 ", "\r\n\r\n"),
            ("HTTP/1.1 204 a", "b\r\n\r\n"),
            ("HTTP/1.1 204 \r\n", ":\r\n\r\n"),
            ("HTTP/1.1 204 \r\na:b", "c\r\n\r\n"),
        ] {
            out.push(format!("h1resp {}", hex(&within(before, after))));
        }
        // Binary: method, scheme, authority, path, name, value; the framing and a length
        let one = |b: &[u8]| b.to_vec();
        let mut plans = Vec::new();
        for bytes in [vec![octet], vec![b'a', octet], vec![octet, b'a'], vec![b'a', octet, b'a']] {
            plans.push(Plan { method: bytes.clone(), ..request_plan() });
            plans.push(Plan { scheme: [b"http", &bytes[..1]].concat(), ..request_plan() });
            plans.push(Plan { authority: bytes.clone(), ..request_plan() });
            plans.push(Plan { path: bytes.clone(), ..request_plan() });
            plans.push(Plan { path: [b"/", &bytes[..]].concat(), ..request_plan() });
            plans.push(Plan { headers: vec![(bytes.clone(), one(b"v"))], ..request_plan() });
            plans.push(Plan { headers: vec![(one(b"b"), bytes.clone())], ..request_plan() });
            plans.push(Plan { authority: Vec::new(), headers: vec![(one(b"host"), bytes.clone())], ..request_plan() });
            plans.push(Plan { headers: vec![(one(b"content-length"), bytes.clone())], chunks: vec![one(b"c")], ..request_plan() });
            plans.push(Plan { headers: vec![(one(b"transfer-encoding"), bytes.clone())], ..request_plan() });
            plans.push(Plan { trailers: vec![(bytes.clone(), bytes)], ..request_plan() });
        }
        for plan in plans {
            out.push(format!("bin {}", hex(&plan.known())));
            out.push(format!("bin {}", hex(&plan.indeterminate())));
        }
        out.binary([octet]);
        for text in ["0003474554046874747001610 12f000000", "0203474554046874747001610 12f000000", "0140c8000000", "0340c8000000"] {
            let good = unhex(text);
            for at in 0..good.len() {
                let mut input = good.clone();
                input[at] = octet;
                out.push(format!("bin {}", hex(&input)));
            }
        }
    }
}

fn statuses(out: &mut Cases) {
    for status in 0..1000 {
        out.push(format!("h1resp {}", hex(format!("HTTP/1.1 {:03} \r\nContent-Length: 0\r\n\r\n", status).as_bytes())));
        out.push(format!("h1resp {}", hex(format!("HTTP/1.1 {:03} x\r\n\r\nHTTP/1.1 204 \r\n\r\n", status).as_bytes())));
        let mut known = vec![1];
        push_form(&mut known, status, 1);
        known.extend([0, 0, 0]);
        out.push(format!("bin {}", hex(&known)));
        out.push(format!("bin2h1 1 200 {}", hex(&known)));
        let mut open = vec![3];
        push_form(&mut open, status, 2);
        open.extend([0, 1, b'c', 0, 1, b't', 0, 0]);
        out.push(format!("bin {}", hex(&open)));
        out.push(format!("bin2bin 200 {}", hex(&open)));
    }
    for status in [204, 304, 200, 103] {
        for lines in [
            "", "Content-Length: 0\r\n", "Content-Length: x\r\n", "Transfer-Encoding: chunked\r\n", "Transfer-Encoding: x\r\n",
            "Content-Length: 99999\r\n", "Content-Length: 0\r\nTransfer-Encoding: chunked\r\n",
        ] {
            out.response(format!("HTTP/1.1 {} \r\n{}\r\n0\r\n\r\n", status, lines));
        }
        for length in ["", "0", "1", "x", "00"] {
            let mut plan = response_plan(&[status]);
            if !length.is_empty() {
                plan.headers.push((b"content-length".to_vec(), length.as_bytes().to_vec()));
            }
            for content in [0, 1] {
                for trailer in ["", "b", "te", "host", "content-length"] {
                    let mut plan = plan.clone();
                    plan.chunks = vec![b"c".to_vec(); content];
                    if !trailer.is_empty() {
                        plan.trailers.push((trailer.as_bytes().to_vec(), b"0".to_vec()));
                    }
                    both_framings(out, &plan);
                }
            }
        }
    }
}

fn integers(out: &mut Cases) {
    // as framing and as status, in each form
    for value in [0u64, 1, 2, 3, 4, 37, 63, 64, 100, 200, 599, 600, 15_293, 16_383, 16_384, (1 << 30) - 1, 1 << 30, (1 << 62) - 1] {
        for form in 0..4 {
            if (form == 0 && value >= 64) || (form == 1 && value >= 1 << 14) || (form == 2 && value >= 1 << 30) {
                continue;
            }
            let mut input = Vec::new();
            push_form(&mut input, value, form);
            for cut in 1..=input.len() {
                out.push(format!("bin {}", hex(&input[..cut])));
            }
            let mut input = vec![1];
            push_form(&mut input, value, form);
            for cut in 1..=input.len() {
                out.push(format!("bin {}", hex(&input[..cut])));
            }
            input.push(0);
            out.push(format!("bin {}", hex(&input)));
        }
    }
}

fn told_schemes(out: &mut Cases) {
    let response = unhex(FIGURE_13);
    for scheme in [0u64, 1, 2, 3, 255, 256, 257, 65_536, 4_294_967_295] {
        for input in [A, b"", b"\n", b"HEAD / HTTP/1.1\r\n"] {
            out.push(format!("h1req {} {}", scheme, hex(input)));
            out.push(format!("h1req2bin {} 100 {}", scheme, hex(input)));
            out.push(format!("h1req2bin {} 0 {}", scheme, hex(input)));
            out.push(format!("field_h1req {} 62 64 {}", scheme, hex(input)));
        }
        let https = Plan { scheme: b"https".to_vec(), ..request_plan() };
        for input in [&unhex(P5), &https.known(), &response, &Vec::new(), &vec![4]] {
            out.push(format!("bin2h1 {} 100 {}", scheme, hex(input)));
            out.push(format!("bin2h1 {} 0 {}", scheme, hex(input)));
        }
    }
}

fn no_commands(out: &mut Cases) {
    for line in ["", "x", "h1req", "h1req 0", "h1req 0 4", "h1req 0 zz", "bin", "bin 0", "bin2bin x 00", "listing"] {
        out.push(line.to_string());
    }
}
