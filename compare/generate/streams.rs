//! The command `stream`: lists of calls of the HTTP/1.1 writer in one room, and octets behind what they wrote.

use crate::fixed::*;
use crate::messages::{push_form, Maker, Manner};
use crate::reference::figures::*;
use crate::reference::told::Told;
use crate::{hex, needed, scheme, Turn};

pub fn line(scheme: u64, room: usize, tail: &[u8], inputs: &[Vec<u8>]) -> String {
    let mut out = format!("stream {} {} {}", scheme, room, hex(tail));
    for input in inputs {
        out.push(' ');
        out.push_str(&hex(input));
    }
    out
}

/// What the calls write that are not refused in any room, one size for each.
pub fn sizes(told: &Told, scheme: u64, inputs: &[Vec<u8>]) -> Vec<usize> {
    inputs.iter().filter_map(|input| needed(told, Turn::BinaryToHttp1, scheme, input)).collect()
}

// ---------------------------------------------------------------------------------------- random cases

/// One Binary input of a list under a scheme: most are requests that can be written.
fn input(maker: &mut Maker, told: u64) -> Vec<u8> {
    maker.faults = 0;
    maker.sharp_faults = 0;
    if told == 0 && maker.random.chance(500) {
        return maker.big_binary();
    }
    let framing = [0, 2][maker.random.below(2)];
    match maker.random.below(40) {
        0 => maker.binary_of(framing + 1, None),
        1 | 2 => maker.binary_of(framing, Some(1 - told)),
        3 => {
            let mut out = maker.binary_of(framing, Some(told));
            maker.mutate(&mut out);
            out
        }
        4 => {
            let mut out = maker.binary_of(framing, Some(told));
            let keep = maker.random.below(out.len());
            out.truncate(keep);
            out
        }
        5 => {
            maker.faults = 80;
            maker.binary_of(framing, Some(told))
        }
        // statements of a length that are wrong, hosts, refused trailers, padding
        6 => {
            maker.sharp_faults = 300;
            maker.binary_of(framing, Some(told))
        }
        7 => {
            let size = maker.random.below(12);
            (0..size).map(|_| maker.random.octet()).collect()
        }
        _ => maker.binary_of(framing, Some(told)),
    }
}

/// Octets that would be a part of something, were the message before them longer or shorter.
const HOSTILE: [&[u8]; 24] = [
    b"\r\n", b"\n", b"\r", b" ", b"\0", b"0\r\n\r\n", b"\r\n0\r\n\r\n", b"5\r\nabcde\r\n0\r\n\r\n", b"content-length: 5\r\n\r\nabcde",
    b"host: b\r\n\r\n", b"transfer-encoding: chunked\r\n\r\n0\r\n\r\n", b" HTTP/1.1\r\nhost: a\r\n\r\n", b"\r\nGET / HTTP/1.1\r\nhost: a\r\n\r\n",
    b"\r\n\r\nGET / HTTP/1.1\r\nhost: a\r\n\r\n", b"xGET / HTTP/1.1\r\nhost: a\r\n\r\n", b"HTTP/1.1 200 \r\ncontent-length: 0\r\n\r\n",
    b"GET / HTTP/1.0\r\nhost: a\r\n\r\n", b"HEAD / HTTP/1.1\r\nhost: a\r\n\r\n", b"GET / HTTP/1.1\r\n\r\n", b"GET / HTTP/1.1\r\nhost: a\r\nhost: a\r\n\r\n",
    b"POST / HTTP/1.1\r\nhost: a\r\ncontent-length: 1\r\ncontent-length: 1\r\n\r\nx", b"POST / HTTP/1.1\r\nhost: a\r\ncontent-length: 99999\r\n\r\nx",
    b"POST / HTTP/1.1\r\nhost: a\r\ncontent-length: 1\r\ntransfer-encoding: chunked\r\n\r\n0\r\n\r\n", b"\xff\xff\xff\xff\n",
];

fn tail(maker: &mut Maker) -> Vec<u8> {
    maker.faults = 0;
    maker.sharp_faults = 0;
    match maker.random.below(12) {
        0 | 1 => Vec::new(),
        2 | 3 => maker.request(),
        4 | 5 => {
            let mut out = maker.request();
            let keep = maker.random.below(out.len());
            out.truncate(keep);
            out
        }
        6 => {
            let mut out = maker.request();
            maker.mutate(&mut out);
            out
        }
        7 => {
            maker.sharp_faults = 300;
            maker.request()
        }
        8 | 9 => {
            let size = 1 + maker.random.below(30);
            (0..size).map(|_| maker.random.octet()).collect()
        }
        _ => HOSTILE[maker.random.below(HOSTILE.len())].to_vec(),
    }
}

/// The inputs of a list under a scheme, and the octets behind what they write.
fn list(maker: &mut Maker, told: u64) -> (Vec<Vec<u8>>, Vec<u8>) {
    let count = maker.random.below(7);
    let mut inputs: Vec<Vec<u8>> = Vec::new();
    for _ in 0..count {
        if !inputs.is_empty() && maker.random.chance(10) {
            let again = inputs[maker.random.below(inputs.len())].clone();
            inputs.push(again);
        } else {
            inputs.push(input(maker, told));
        }
    }
    let tail = if count == 0 || maker.random.chance(30) { maker.stream_input() } else { tail(maker) };
    (inputs, tail)
}

pub fn case(maker: &mut Maker) -> String {
    let scheme = scheme(&mut maker.random);
    let told = if scheme < 2 { scheme } else { maker.random.below(2) as u64 };
    let (inputs, tail) = maker.with(Manner { small: true, ..Manner::default() }, |maker| list(maker, told));
    let sizes = sizes(&Told::nothing(maker.items), scheme, &inputs);
    let total: usize = sizes.iter().sum();
    let random = &mut maker.random;
    let room = match random.below(16) {
        0 => 0,
        // exact, and one too small for the last
        1..=3 => total,
        4 => total.saturating_sub(1),
        // one too small for the first; for one of them, if all before it are in; exactly up to one of them
        5 => sizes.first().map_or(3, |size| size - 1),
        6 => sizes[..random.below(sizes.len() + 1)].iter().sum::<usize>().saturating_sub(1),
        7 => sizes[..random.below(sizes.len() + 1)].iter().sum(),
        // exactly for some of them
        8 => sizes.iter().filter(|_| random.chance(2)).sum(),
        9 => random.below(total + 1),
        10 | 11 => total + 1 + random.below(300),
        _ => 70_000,
    };
    line(scheme, room, &tail, &inputs)
}

// ---------------------------------------------------------------------------------------- fixed cases

fn post(content: &str) -> Plan {
    Plan { method: b"POST".to_vec(), path: b"/s".to_vec(), chunks: vec![content.as_bytes().to_vec()], ..request_plan() }
}

/// Requests under http that are written.
fn written() -> Vec<Vec<u8>> {
    let request_like = "GET /x HTTP/1.1\r\nHost: evil\r\n\r\n";
    let chunk_like = "3\r\nabc\r\n0\r\n\r\n";
    let trailers = vec![pair("t", "u"), pair("0", "")];
    let host = Plan { authority: Vec::new(), headers: vec![pair("host", "a")], ..request_plan() };
    let stated = Plan {
        headers: vec![pair("content-length", "03"), pair("transfer-encoding", "chunked"), pair("x-content-length", "9")],
        ..post("abc")
    };
    let mut inputs = vec![
        unhex(P5),
        request_plan().known()[..15].to_vec(),
        host.indeterminate(),
        post(request_like).known(),
        Plan { trailers: trailers.clone(), ..post(request_like) }.indeterminate(),
        post(chunk_like).indeterminate(),
        Plan { trailers: trailers.clone(), ..post(chunk_like) }.known(),
        Plan { trailers: trailers.clone(), ..request_plan() }.known(),
        stated.known(),
        Plan { trailers, ..stated }.indeterminate(),
        Plan { headers: vec![pair("content-length", "0"), pair("a", "content-length: 5"), pair("get", "/ HTTP/1.1"), pair("b", "")], ..request_plan() }.known(),
        post("\r\n0\r\n\r\n").known(),
        post("\n").indeterminate(),
    ];
    // zero octets behind a message
    inputs.push([&unhex(P5)[..], &[0, 0, 0]].concat());
    inputs
}

/// Inputs that are refused under http, and two responses, which are written.
fn others() -> Vec<Vec<u8>> {
    let stated = |value: &str| Plan { headers: vec![pair("content-length", value)], ..post("abc") };
    vec![
        Plan { scheme: b"https".to_vec(), ..post("abc") }.known(),
        Vec::new(),
        vec![4],
        unhex(P5)[..16].to_vec(),
        [unhex(P5), vec![1]].concat(),
        stated("2").known(),
        stated("4").indeterminate(),
        Plan { headers: vec![pair("content-length", "3"), pair("content-length", "3")], ..post("abc") }.known(),
        Plan { headers: vec![pair("host", "b")], ..request_plan() }.known(),
        Plan { headers: vec![pair("a", "b\r\ncontent-length: 5")], ..request_plan() }.known(),
        Plan { trailers: vec![pair("content-length", "3")], ..post("abc") }.known(),
        Plan { method: b"HEAD".to_vec(), ..request_plan() }.known(),
        Plan { headers: empty_fields(64), ..request_plan() }.known(),
        Plan { headers: vec![field("b", 8_192)], ..request_plan() }.known(),
        Plan { trailers: vec![field("b", 2_048)], ..request_plan() }.indeterminate(),
        response_plan(&[200]).known(),
        response_plan(&[103, 204]).indeterminate(),
    ]
}

pub fn cases(out: &mut Cases) {
    let written = written();
    let others = others();
    let get = b"GET /t HTTP/1.1\r\nHost: a\r\n\r\n";
    let two = [A, get].concat();

    // each alone, under either scheme, before each tail
    for input in written.iter().chain(&others) {
        let inputs = [input.clone()];
        for scheme in [0, 1] {
            for tail in HOSTILE {
                out.push(line(scheme, 20_000, tail, &inputs));
            }
            out.push(line(scheme, 20_000, b"", &inputs));
            out.push(line(scheme, 20_000, &two, &inputs));
        }
    }
    // each pair, with room for both; exactly; one octet short; for the first alone
    let all: Vec<&Vec<u8>> = written.iter().chain(&others).collect();
    for first in &all {
        for second in &all {
            let inputs = [first.to_vec(), second.to_vec()];
            let sizes = sizes(&out.told(), 0, &inputs);
            let total: usize = sizes.iter().sum();
            let mut rooms = vec![0, total.saturating_sub(1), total, total + 1];
            if let [first, second] = sizes[..] {
                rooms.extend([first - 1, first, second - 1, second]);
            }
            rooms.sort();
            rooms.dedup();
            for room in rooms {
                out.push(line(0, room, b"0\r\n\r\n", &inputs));
            }
        }
    }
    // three and six calls in every room
    let three = [written[0].clone(), written[7].clone(), written[1].clone()];
    let six = [written[1].clone(), others[0].clone(), written[0].clone(), written[1].clone(), others[4].clone(), written[9].clone()];
    let responses = [written[1].clone(), others[15].clone(), others[16].clone(), written[1].clone()];
    for list in [&three[..], &six[..], &responses[..]] {
        let total: usize = sizes(&out.told(), 0, list).iter().sum();
        for room in 0..=total + 2 {
            out.push(line(0, room, b"GET", list));
        }
    }
    // all that is written in lists of six, forwards and backwards, one octet short for each call
    for step in 0..written.len() {
        let forwards: Vec<Vec<u8>> = (0..6).map(|i| written[(step + i) % written.len()].clone()).collect();
        let backwards: Vec<Vec<u8>> = forwards.iter().rev().cloned().collect();
        for list in [forwards, backwards] {
            let sizes = sizes(&out.told(), 0, &list);
            let mut room = 0;
            for size in &sizes {
                room += size;
                out.push(line(0, room - 1, b"", &list));
                out.push(line(0, room, b"\r\n", &list));
            }
            out.push(line(0, 70_000, &two, &list));
            out.push(line(1, 70_000, &two, &list));
        }
    }
    // one meaning in many forms
    let plan = Plan { headers: vec![pair("b", "c")], trailers: vec![pair("t", "u")], ..post("abc") };
    let by_host = Plan { authority: Vec::new(), headers: vec![pair("te", "x"), pair("b", "c"), pair("host", "a")], ..plan.clone() };
    let in_pieces = Plan { chunks: vec![b"a".to_vec(), b"bc".to_vec()], trailers: vec![pair("te", ""), pair("t", "u")], ..plan.clone() };
    let forms = vec![plan.known(), plan.indeterminate(), by_host.known(), by_host.indeterminate(), in_pieces.indeterminate(), [plan.known(), vec![0; 9]].concat()];
    out.push(line(0, 9_999, b"", &forms));
    out.push(line(0, 9_999, b"", &forms[3..]));
    for form in &forms {
        out.push(line(0, 9_999, b"", &vec![form.clone(); 6]));
    }

    // no call at all: streams of octets, and what stands behind them
    for text in REQUESTS {
        for more in [&b""[..], b"\r\n", b"X", get, &[0xff, 0x0a]] {
            out.push(line(0, 0, &[text.as_bytes(), more].concat(), &[]));
            out.push(line(0, 0, &[get, text.as_bytes(), more].concat(), &[]));
            out.push(line(1, 100, &[A, text.as_bytes(), text.as_bytes(), more].concat(), &written[..1]));
        }
    }
    for tail in HOSTILE {
        out.push(line(0, 0, tail, &[]));
        out.push(line(1, 9, &[&two[..], tail].concat(), &[]));
    }
    // every front of two requests, every octet, behind a message without content, with a length, chunked, with a trailer
    for cut in 0..=two.len() {
        out.push(line(0, 60, &two[..cut], &[]));
        for input in [&written[0], &written[1], &written[6]] {
            out.push(line(0, 600, &two[..cut], &[input.clone()]));
        }
    }
    for octet in 0..=255u8 {
        for input in [&written[0], &written[1], &written[6]] {
            out.push(line(0, 600, &[octet], &[input.clone()]));
            out.push(line(0, 600, &[&[octet], &get[..]].concat(), &[input.clone(), input.clone()]));
        }
    }
    // schemes told
    for scheme in [0u64, 1, 2, 3, 255, 256, 257, 65_536, 4_294_967_295] {
        let https = Plan { scheme: b"https".to_vec(), ..post("abc") }.known();
        let list = [unhex(P5), https, response_plan(&[204]).known(), vec![4], Vec::new()];
        for room in [0, 51, 500] {
            for tail in [&b""[..], b"X", &two, b"\n"] {
                out.push(line(scheme, room, tail, &[]));
                out.push(line(scheme, room, tail, &list[..2]));
                out.push(line(scheme, room, tail, &list));
            }
        }
    }
    // the figures
    let figures: Vec<Vec<u8>> = [FIGURE_8, FIGURE_9, FIGURE_11, FIGURE_13].iter().map(|text| unhex(text)).collect();
    let tail = [FIGURE_7.as_bytes(), b"\r\n"].concat();
    for scheme in [0, 1] {
        out.push(line(scheme, 9_999, &tail, &figures));
        out.push(line(scheme, 9_999, &tail, &figures[..2]));
        out.push(line(scheme, 9_999, FIGURE_7.as_bytes(), &figures[..2]));
        out.push(line(scheme, 9_999, FIGURE_10.as_bytes(), &figures[..2]));
    }

    large(out);
    no_commands(out);
}

/// Lists at the sizes of 01.
fn large(out: &mut Cases) {
    let tails: [Vec<u8>; 5] = [Vec::new(), b"GET / HTTP".to_vec(), vec![b'x'; 8_191], vec![b'x'; 8_192], vec![0; 300]];
    // heads of 8,192 octets: "GET / HTTP/1.1", "host: a", "b: ...", ""; trailer parts of 2,048; lines; contents
    let head = |total: usize| Plan { headers: vec![field("b", total - 16 - 9 - 5 - 2)], ..request_plan() };
    let trailer = |total: usize| Plan { trailers: vec![field("b", total - 5 - 2)], chunks: vec![b"c".to_vec()], ..request_plan() };
    let lines = |count: usize| Plan { headers: empty_fields(count), trailers: empty_fields(64), ..post("c") };
    let content = |size: usize| Plan { chunks: vec![vec![b'c'; size]], ..request_plan() };
    let plans = [head(8_192), head(8_193), trailer(2_048), trailer(2_049), lines(62), lines(63)];
    for known in [true, false] {
        let list: Vec<Vec<u8>> = plans.iter().map(|plan| if known { plan.known() } else { plan.indeterminate() }).collect();
        let total: usize = sizes(&out.told(), 0, &list).iter().sum();
        for tail in &tails {
            for room in [0, 8_191, 8_192, total - 1, total, 70_000] {
                out.push(line(0, room, tail, &list));
            }
        }
    }
    // six contents of 32,768 octets; one too large among them; chunked; one octet short for the last
    let full = content(32_768);
    let chunked = Plan { trailers: vec![pair("t", "u")], ..full.clone() };
    let list = vec![full.known(), full.indeterminate(), content(32_769).known(), chunked.known(), content(32_769).indeterminate(), chunked.indeterminate()];
    let total: usize = sizes(&out.told(), 0, &list).iter().sum();
    for room in [0, total - 1, total, total + 1] {
        out.push(line(0, room, b"GET / HTTP/1.1\r\nhost: a\r\n\r\n", &list));
    }
    // many chunks become one; many short calls
    let mut pieces = Vec::new();
    for part in [&b"\x02"[..], b"\x03GET", b"\x04http", b"\x01a", b"\x01/", b"\0"] {
        pieces.extend_from_slice(part);
    }
    for _ in 0..256 {
        push_form(&mut pieces, 128, 1);
        pieces.extend([b'c'; 128]);
    }
    pieces.push(0);
    out.push(line(0, 70_000, b"c", &[pieces.clone(), unhex(P5)]));
    for room in [50, 51, 51 * 99, 51 * 100 - 1, 51 * 100] {
        out.push(line(0, room, b"POST", &vec![unhex(P5); 100]));
    }
    // tails at the sizes of a head and of a trailer part
    for size in [8_190, 8_191, 8_192, 8_193] {
        for input in [&unhex(P5), &request_plan().known()] {
            out.push(line(0, 600, &vec![b'y'; size], &[input.clone()]));
            out.push(line(0, 600, &[&b"GET / HTTP/1.1\r\nhost: a\r\nb:"[..], &vec![b'y'; size - 27 - 4], b"\r\n\r\n"].concat(), &[input.clone()]));
        }
    }
    for size in [2_047, 2_048, 2_049] {
        let tail = format!("PUT / HTTP/1.1\r\nhost: a\r\ntransfer-encoding: chunked\r\n\r\n0\r\nb:{}\r\n\r\nx", "y".repeat(size - 6));
        out.push(line(0, 600, tail.as_bytes(), &[unhex(P5), unhex(P5)]));
    }
}

fn no_commands(out: &mut Cases) {
    for line in [
        "stream ", "stream 0", "stream 0 0", "stream 0 0 ", "stream 0 0 0", "stream 0 0 zz", "stream x 0 -", "stream 0 x -", "stream 0 -1 -",
        "stream 0 0 - 0", "stream 0 0 - - AA", "stream 0 0 - ", "stream 0 0 -  -", "stream  0 0 -", "stream 0 0 - - - g0 -",
    ] {
        out.push(line.to_string());
    }
}
