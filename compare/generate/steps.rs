//! Cases of item 13: the request reader that takes one byte per step. One case meets every front of its input.

use crate::commands::request_scheme;
use crate::fixed::*;
use crate::hex;
use crate::messages::{Maker, Manner};

fn line(scheme: u64, room: usize, input: &[u8]) -> String {
    format!("steps {} {} {}", scheme, room, hex(input))
}

// ---------------------------------------------------------------------------------------- random

pub fn case(maker: &mut Maker) -> String {
    let manner = Manner { calm: !maker.random.chance(3), small: maker.random.chance(2), ..Manner::default() };
    let input = maker.with(manner, |maker| if maker.random.chance(10) { maker.stream_input() } else { maker.request_input() });
    let room = match maker.random.below(40) {
        0 => [0, 1, 4_096, 8_191][maker.random.below(4)],
        1 => [8_193, 10_000, 65_536][maker.random.below(3)],
        _ => 8_192,
    };
    line(request_scheme(maker, &input), room, &input)
}

// ---------------------------------------------------------------------------------------- fixed

pub fn cases(out: &mut Cases) {
    beginnings(out);
    for text in REQUESTS.iter().chain(&WIDER) {
        for scheme in [0, 1] {
            out.push(line(scheme, 8_192, text.as_bytes()));
        }
        changed(out, text.as_bytes());
    }
    heads(out);
    parts(out);
    contents(out);
    names(out);
    for text in ["steps", "steps 0", "steps 0 8192", "steps x 8192 00", "steps 0 -1 00", "steps 0 8192 0"] {
        out.push(text.to_string());
    }
}

/// What items 2, 3 and 5 make of requests.
const WIDER: [&str; 9] = [
    "HEAD /s HTTP/1.1\r\nHost: a\r\nb: c\r\n\r\nGET",
    "OPTIONS * HTTP/1.1\r\nHost: a\r\nContent-Length: 1\r\n\r\nx",
    "GET http://a?q HTTP/1.1\r\nHost: @\r\nb: c\r\n\r\n",
    "OPTIONS HTTPS://www.example.com HTTP/1.1\r\nHost:\r\n\r\n",
    "GET http://a/ HTTP/1.1\r\nHost: a\r\nHost: a\r\n\r\n",
    "GET http://u@a/ HTTP/1.1\r\nHost: a\r\n\r\n",
    "POST / HTTP/1.1\r\nX-Antenna: 1\r\nConnection: close, x-antenna ,\"y\"\r\nHost: a\r\nY: 2\r\nx-Antenna: 3\r\n\r\n",
    "POST / HTTP/1.1\r\nConnection: host,content-length\r\nHost: a\r\nContent-Length: 2\r\nb: c\r\nconnection: B\r\n\r\nabc",
    "POST / HTTP/1.1\r\nConnection: t\r\nHost: a\r\nt: u\r\nTransfer-Encoding: chunked\r\n\r\n1;e\r\nx\r\n0\r\nt: u\r\nConnection: t\r\n\r\n",
];

/// Room and scheme: 19 first, then 4; the room's size is all that counts.
fn beginnings(out: &mut Cases) {
    for scheme in [0, 1, 2, 255, 256, 257, 4_294_967_295] {
        for room in [0, 1, 255, 8_191, 8_192, 8_193, 65_536] {
            for input in [&b""[..], b"G", A, b"\n"] {
                out.push(line(scheme, room, input));
            }
        }
    }
}

/// Each byte changed to those that matter, and left out.
fn changed(out: &mut Cases, input: &[u8]) {
    for place in 0..input.len() {
        let mut other = input.to_vec();
        for octet in [b'\n', b'\r', b' ', b':', b',', b'0', 0, 0x80] {
            other[place] = octet;
            out.push(line(0, 8_192, &other));
        }
        other.remove(place);
        out.push(line(0, 8_192, &other));
    }
}

/// Heads about 8,192 bytes and 64 lines: in one line, in many, with the bad end beyond.
fn heads(out: &mut Cases) {
    for total in [8_191, 8_192, 8_193] {
        let start = "POST /s HTTP/1.1\r\nHost: a\r\nContent-Length: 1\r\n";
        let filler = |end: usize| "v".repeat(total - start.len() - end);
        out.push(line(0, 8_192, format!("{start}b:{}\r\n\r\nX", filler(6)).as_bytes()));
        out.push(line(0, 8_192, format!("{start}b:{}\r\n\r\nX", filler(4)).as_bytes()));
        out.push(line(0, 8_192, format!("{start}b:{}\n\r\n", filler(5)).as_bytes()));
        out.push(line(0, 8_192, format!("{start}{}", filler(0)).as_bytes()));
        out.push(line(0, 8_192, "x".repeat(total).as_bytes()));
        // all of it names and Connection members
        out.push(line(0, 8_192, format!("{start}{}:\r\n\r\nX", "n".repeat(total - start.len() - 5)).as_bytes()));
        out.push(line(0, 8_192, format!("{start}Connection:{}\r\n\r\nX", "m,".repeat((total - start.len() - 15) / 2)).as_bytes()));
    }
    for lines in [62, 63, 64, 65] {
        for last in ["b:\r\n", "zz\r\n", "z:\n", "connection: b\r\n", "content-length: x\r\n"] {
            out.push(line(0, 8_192, format!("GET / HTTP/1.1\r\nHost: a\r\n{}{last}\r\n", "b:\r\n".repeat(lines - 2)).as_bytes()));
        }
    }
}

/// Method, target, authority, chunk line and trailer part at their sizes.
fn parts(out: &mut Cases) {
    let mut request = |text: String| out.push(line(0, 8_192, text.as_bytes()));
    for size in [31, 32, 33] {
        request(format!("{} / HTTP/1.1\r\nHost: a\r\n\r\n", "M".repeat(size)));
    }
    for size in [254, 255, 256] {
        request(format!("GET / HTTP/1.1\r\nHost: {}\r\n\r\n", "h".repeat(size)));
        request(format!("GET http://{} HTTP/1.1\r\nHost: a\r\n\r\n", "h".repeat(size)));
    }
    for size in [4_095, 4_096, 4_097] {
        request(format!("GET /{} HTTP/1.1\r\nHost: a\r\n\r\n", "p".repeat(size - 1)));
        request(format!("GET http://a?{} HTTP/1.1\r\nHost: a\r\n\r\n", "p".repeat(size - 2)));
    }
    let chunked = "POST / HTTP/1.1\r\nHost: a\r\nTransfer-Encoding: chunked\r\n\r\n";
    for size in [255, 256, 257] {
        request(format!("{chunked}1;{}\r\na\r\n0\r\n\r\n", "e".repeat(size - 4)));
        request(format!("{chunked}{}\r\n\r\n", "0".repeat(size - 2)));
        request(format!("{chunked}{}", "0".repeat(size)));
    }
    for size in [2_047, 2_048, 2_049] {
        request(format!("{chunked}0\r\nT:{}\r\n\r\nX", "t".repeat(size - 6)));
        request(format!("{chunked}0\r\nT:{}\r\n\r\nX", "t".repeat(size - 4)));
    }
    for lines in [63, 64, 65] {
        for last in ["b:\r\n", "host:\r\n", "zz\r\n", "te:\r\n"] {
            request(format!("{chunked}0\r\n{}{last}\r\n", "b:\r\n".repeat(lines - 1)));
        }
    }
}

/// Contents at their sizes: few, they are large.
fn contents(out: &mut Cases) {
    let start = "POST / HTTP/1.1\r\nHost: a\r\n";
    for size in [32_768, 32_769] {
        let data = "c".repeat(size);
        out.push(line(0, 8_192, format!("{start}Content-Length: {size}\r\n\r\n{data}X").as_bytes()));
        out.push(line(0, 8_192, format!("{start}Transfer-Encoding: chunked\r\n\r\n{size:x}\r\n{data}\r\n0\r\n\r\n").as_bytes()));
    }
    for chunks in [255, 256, 257] {
        out.push(line(0, 8_192, format!("{start}Transfer-Encoding: chunked\r\n\r\n{}0\r\n\r\n", "1\r\nc\r\n".repeat(chunks)).as_bytes()));
    }
    for value in ["00000000000000000003", "18446744073709551619", "4294967299", "340282366920938463463374607431768211459", "", "+3", "3, 3"] {
        out.push(line(0, 8_192, format!("{start}Content-Length: {value}\r\n\r\nabc").as_bytes()));
    }
    for size in ["3", "003", "10000000000000003", "100000003", "fffffffffffffffff", "3;", "3 ", "g", ""] {
        out.push(line(0, 8_192, format!("{start}Transfer-Encoding: chunked\r\n\r\n{size}\r\nabc\r\n0\r\n\r\n").as_bytes()));
    }
}

/// Kept counts: names that are dropped, named by Connection before and behind, in either case, nearly so.
fn names(out: &mut Cases) {
    for named in ["b", "B", "bb", "", "b,c", "\"b\"", "b c", ",b,", "c\t, B", "host", "connection", "x-b"] {
        for first in [true, false] {
            let connection = format!("Connection: {named}\r\n");
            let (before, behind) = if first { (connection.as_str(), "") } else { ("", connection.as_str()) };
            let fields = "b: 1\r\nB: 2\r\nbb: 3\r\nc: 4\r\nTE: 5\r\nx-b: 6\r\nUpgrade: 7\r\n";
            out.push(line(0, 8_192, format!("GET / HTTP/1.1\r\nHost: a\r\n{before}{fields}{behind}\r\n").as_bytes()));
        }
    }
}
