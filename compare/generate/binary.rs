//! More fixed cases of Binary HTTP and of turning: integers in every place, limits met together, missing parts, padding,
//! statements of a length, rooms, and sizes that only the written form passes.

use crate::fixed::*;
use crate::messages::push_form;
use crate::reference::figures::*;
use crate::{hex, needed, turn_line, Turn};

pub fn cases(out: &mut Cases) {
    integers(out);
    limits(out);
    whole_inputs(out);
    written_above(out);
    missing_parts(out);
    padding(out);
    codings(out);
    lengths(out);
    hosts(out);
    more_truncations(out);
    refused_heads(out);
    rooms(out);
}

fn encode(plan: &Plan, known: bool) -> Vec<u8> {
    if known {
        plan.known()
    } else {
        plan.indeterminate()
    }
}

/// The commands that meet Binary HTTP, without the field question; a turning in exactly the room it needs.
fn read_and_turn(out: &mut Cases, input: &[u8]) {
    out.push(format!("bin {}", hex(input)));
    for turn in [Turn::BinaryToHttp1, Turn::BinaryToBinary] {
        let room = needed(&out.told(), turn, 0, input).unwrap_or(500);
        out.push(turn_line(&[], turn, 0, room, input));
    }
}

// ---------------------------------------------------------------------------------------- integers

/// A request and a response with all parts there are.
fn full_plans() -> Vec<Plan> {
    let request = Plan {
        method: b"POST".to_vec(),
        path: b"/s".to_vec(),
        headers: vec![pair("b", "c"), pair("te", "x"), pair("content-length", "05"), pair("d", "")],
        chunks: vec![b"abc".to_vec(), b"de".to_vec()],
        trailers: vec![pair("t", "u"), pair("te", "v")],
        ..request_plan()
    };
    let by_host = Plan { authority: Vec::new(), headers: vec![pair("host", "a"), pair("b", "c")], ..request.clone() };
    let response = Plan { early: vec![pair("link", "x")], headers: vec![pair("b", "c"), pair("host", "h")], ..response_plan(&[102, 103, 200]) };
    let response = Plan { chunks: request.chunks.clone(), trailers: request.trailers.clone(), ..response };
    vec![request, by_host, response]
}

fn shortest(value: u64) -> usize {
    if value < 1 << 6 { 0 } else if value < 1 << 14 { 1 } else if value < 1 << 30 { 2 } else { 3 }
}

/// The plan's octets, each integer as `integer` gives it. A known-length section's length comes after its lines.
fn with_integers(plan: &Plan, known: bool, integer: &mut dyn FnMut(u64) -> Vec<u8>) -> Vec<u8> {
    fn counted(out: &mut Vec<u8>, bytes: &[u8], integer: &mut dyn FnMut(u64) -> Vec<u8>) {
        out.extend(integer(bytes.len() as u64));
        out.extend_from_slice(bytes);
    }
    fn section(out: &mut Vec<u8>, fields: &[(Vec<u8>, Vec<u8>)], known: bool, integer: &mut dyn FnMut(u64) -> Vec<u8>) {
        let mut lines = Vec::new();
        for (name, value) in fields {
            counted(&mut lines, name, integer);
            counted(&mut lines, value, integer);
        }
        if known {
            counted(out, &lines, integer);
        } else {
            out.extend(lines);
            out.extend(integer(0));
        }
    }
    let mut out = integer(if plan.statuses.is_some() { 1 } else { 0 } + if known { 0 } else { 2 });
    match &plan.statuses {
        None => {
            for part in [&plan.method, &plan.scheme, &plan.authority, &plan.path] {
                counted(&mut out, part, integer);
            }
        }
        Some(statuses) => {
            for (i, status) in statuses.iter().enumerate() {
                out.extend(integer(*status));
                if i + 1 < statuses.len() {
                    section(&mut out, &plan.early, known, integer);
                }
            }
        }
    }
    section(&mut out, &plan.headers, known, integer);
    if known {
        counted(&mut out, &plan.chunks.concat(), integer);
    } else {
        for chunk in &plan.chunks {
            counted(&mut out, chunk, integer);
        }
        out.extend(integer(0));
    }
    section(&mut out, &plan.trailers, known, integer);
    out
}

/// The plan with the integer of one place changed: its value, and its form where that is given.
fn with_place(plan: &Plan, known: bool, place: usize, change: &dyn Fn(u64) -> u64, form: Option<usize>) -> Vec<u8> {
    let mut seen = 0;
    with_integers(plan, known, &mut |value| {
        let mut out = Vec::new();
        if seen == place {
            let value = change(value);
            push_form(&mut out, value, form.unwrap_or(0).max(shortest(value)));
        } else {
            push_form(&mut out, value, shortest(value));
        }
        seen += 1;
        out
    })
}

fn integers(out: &mut Cases) {
    for plan in full_plans() {
        for known in [true, false] {
            let mut places = 0;
            with_integers(&plan, known, &mut |_| {
                places += 1;
                Vec::new()
            });
            for place in 0..places {
                // long forms, in every place (those that end a section or the content are among them)
                for form in 1..4 {
                    read_and_turn(out, &with_place(&plan, known, place, &|value| value, Some(form)));
                }
                // other values, in every place
                let changes: [&dyn Fn(u64) -> u64; 10] = [
                    &|value| value + 1,
                    &|value| value.saturating_sub(1),
                    &|_| 0,
                    &|value| value + 64,
                    &|value| value + (1 << 8),
                    &|value| value + (1 << 16),
                    &|value| value + (1 << 32),
                    &|value| value + (1 << 61),
                    &|_| (1 << 62) - 1,
                    &|value| (1 << 62) - 1 - value,
                ];
                for change in changes {
                    out.push(format!("bin {}", hex(&with_place(&plan, known, place, change, None))));
                }
                out.push(format!("bin {}", hex(&with_place(&plan, known, place, &|_| 0, Some(3)))));
            }
            // all of them at once, and every front of that
            for form in 1..4 {
                let input = with_integers(&plan, known, &mut |value| {
                    let mut out = Vec::new();
                    push_form(&mut out, value, form.max(shortest(value)));
                    out
                });
                out.binary(&input);
                for cut in 0..input.len() {
                    let part = hex(&input[..cut]);
                    out.push(format!("bin {}", part));
                    out.push(format!("bin2h1 0 400 {}", part));
                    out.push(format!("bin2bin 400 {}", part));
                }
            }
        }
    }
}

// ---------------------------------------------------------------------------------------- sizes

/// Several limits met at once, and the limits that `fixed` meets in requests only.
fn limits(out: &mut Cases) {
    // "HTTP/1.1 103 ", 64 lines of "b: "; four times; then 63 lines and the length line; 64 trailers
    let lines = Plan {
        early: empty_fields(64),
        headers: empty_fields(63),
        chunks: vec![b"c".to_vec(); 256],
        trailers: empty_fields(64),
        ..response_plan(&[103, 103, 103, 103, 200])
    };
    both_framings(out, &lines);
    both_framings(out, &Plan { headers: empty_fields(64), ..lines.clone() });
    both_framings(out, &Plan { trailers: empty_fields(65), ..lines.clone() });
    both_framings(out, &Plan { statuses: Some(vec![103, 103, 103, 103, 103, 200]), ..lines.clone() });
    both_framings(out, &Plan { statuses: Some(vec![103, 103, 103, 103, 204]), chunks: Vec::new(), trailers: Vec::new(), headers: empty_fields(64), ..lines });
    // a request: method 32, authority 255, path 4,096, 62 lines besides host and length line, content, 64 trailers
    let request = Plan {
        method: vec![b'M'; 32],
        authority: vec![b'h'; 255],
        path: [vec![b'/'], vec![b'p'; 4_095]].concat(),
        headers: empty_fields(62),
        chunks: vec![vec![b'c'; 128]; 256],
        trailers: empty_fields(64),
        ..request_plan()
    };
    both_framings(out, &request);
    both_framings(out, &Plan { headers: empty_fields(63), ..request.clone() });
    let host = (b"host".to_vec(), request.authority.clone());
    both_framings(out, &Plan { authority: Vec::new(), headers: [vec![host], empty_fields(62)].concat(), ..request.clone() });
    // 256 chunks of 32,768 octets in all; one octet more in the last; a chunk more of one octet
    for plan in [request_plan(), response_plan(&[200])] {
        let chunks = request.chunks.clone();
        let mut larger = chunks.clone();
        larger[255].push(b'c');
        let mut fewer = chunks.clone();
        fewer[0].pop();
        for chunks in [chunks.clone(), larger, [fewer, vec![b"c".to_vec()]].concat(), [chunks[1..].to_vec(), vec![vec![b'c'; 128]]].concat()] {
            out.binary(Plan { chunks, ..plan.clone() }.indeterminate());
        }
    }
    for chunks in [255, 256, 257] {
        let plan = Plan { chunks: vec![b"c".to_vec(); chunks], ..response_plan(&[200]) };
        both_framings(out, &plan);
        both_framings(out, &Plan { trailers: vec![field("t", 1)], ..plan });
    }
    for lines in [64, 65] {
        // in the second and the last of the informational heads; before a status that is bad
        let plan = Plan { early: empty_fields(lines), ..response_plan(&[103, 102, 100, 199, 204]) };
        both_framings(out, &plan);
        both_framings(out, &Plan { statuses: Some(vec![103, 99]), ..plan });
        both_framings(out, &Plan { headers: vec![field("transfer-encoding", 1); lines], ..response_plan(&[200]) });
        both_framings(out, &Plan { headers: empty_fields(lines), ..response_plan(&[204]) });
    }
}

/// A field's value made so long that `size` gives `total`. All lengths on the way stay in the form of 4 octets.
fn of_total(plan: &Plan, total: usize, size: &dyn Fn(&Plan) -> usize) -> Plan {
    let sized = |value: usize| Plan { headers: [plan.headers.clone(), vec![field("b", value)]].concat(), ..plan.clone() };
    let base = size(&sized(20_000));
    sized(20_000 + total - base)
}

/// Inputs of 65,535 octets and one more, without padding.
fn whole_inputs(out: &mut Cases) {
    let content = vec![vec![b'c'; 32_768]];
    for plan in [request_plan(), Plan { early: vec![pair("a", "b")], ..response_plan(&[103, 200]) }] {
        for known in [true, false] {
            for total in [65_535, 65_536] {
                let plan = Plan { chunks: content.clone(), trailers: vec![pair("t", "u")], ..plan.clone() };
                let input = encode(&of_total(&plan, total, &|plan| encode(plan, known).len()), known);
                out.push(format!("bin {}", hex(&input)));
                out.push(format!("bin2h1 0 70000 {}", hex(&input)));
                out.turn(Turn::BinaryToBinary, 0, &input);
            }
        }
    }
}

/// Binary of 65,535 octets and more, written from inputs that are shorter.
fn written_above(out: &mut Cases) {
    for total in [65_534, 65_535, 65_536, 65_537] {
        for plan in [request_plan(), response_plan(&[200])] {
            let plan = of_total(&plan, total, &|plan| plan.known().len());
            // the known length without content and trailers is two octets shorter, the indeterminate one three or five
            let known = plan.known();
            let open = plan.indeterminate();
            for input in [&known[..total - 2], &known[..total - 1], &open[..], &open[..open.len() - 2]] {
                out.push(format!("bin2bin 65535 {}", hex(input)));
            }
            for room in [0, 65_534, 70_000] {
                out.push(format!("bin2bin {} {}", room, hex(&open)));
            }
            out.push(format!("bin {}", hex(&open)));
            out.push(format!("bin2h1 0 70000 {}", hex(&open)));
        }
        // a dropped field and the host count in the input, not in what is written
        let host = Plan { authority: Vec::new(), headers: vec![pair("te", "x"), pair("host", "a")], ..request_plan() };
        let size = |plan: &Plan| Plan { authority: b"a".to_vec(), headers: plan.headers[2..].to_vec(), ..plan.clone() }.known().len();
        let open = of_total(&host, total - 8, &size).indeterminate();
        out.push(format!("bin2bin 65535 {}", hex(&open)));
    }
}

// ---------------------------------------------------------------------------------------- parts, padding

fn missing_parts(out: &mut Cases) {
    let plans = [
        request_plan(),
        Plan { headers: vec![pair("b", "c")], ..request_plan() },
        Plan { headers: vec![pair("content-length", "0")], ..request_plan() },
        response_plan(&[200]),
        response_plan(&[204]),
        Plan { early: vec![pair("b", "c")], headers: vec![pair("b", "c")], ..response_plan(&[103, 304]) },
    ];
    for plan in &plans {
        for known in [true, false] {
            // content and trailers are one zero octet each
            let input = encode(plan, known);
            for missing in [0, 1, 2, 3] {
                out.binary(&input[..input.len() - missing]);
            }
            for zeros in [1, 2, 3, 200] {
                out.binary([&input[..], &vec![0; zeros]].concat());
            }
        }
    }
    for plan in [&plans[0], &plans[1], &plans[3]] {
        let plan = Plan { chunks: vec![b"ab".to_vec(), b"c".to_vec()], ..plan.clone() };
        for known in [true, false] {
            let input = encode(&plan, known);
            // the trailers; then, of the indeterminate one, the content's end too
            for missing in [0, 1, 2] {
                out.binary(&input[..input.len() - missing]);
            }
        }
    }
    // trailers that are there, but begun only
    for tail in ["", "00", "0000", "01", "0174", "017401", "01740175", "0174017500", "40", "4000", "4001", "c000000000000000", "c0000000000000"] {
        for start in ["000347455404687474700161012f0000", "020347455404687474700161012f0000", "0140c80000", "0340c80000"] {
            read_and_turn(out, &[unhex(start), unhex(tail)].concat());
        }
    }
}

fn padding(out: &mut Cases) {
    let trailers = vec![pair("t", "u")];
    for plan in [Plan { trailers: trailers.clone(), ..request_plan() }, Plan { trailers, ..response_plan(&[200]) }] {
        for known in [true, false] {
            let input = encode(&plan, known);
            for octet in 0..=255u8 {
                out.push(format!("bin {}", hex(&[&input[..], &[octet]].concat())));
                out.push(format!("bin {}", hex(&[&input[..], &[0, 0, octet, 0]].concat())));
            }
            for tail in [&[1][..], &[0, 1], &[0, 0, 0, 0x40], &[0, 0, 7, 8], &[0xff; 9]] {
                read_and_turn(out, &[&input[..], tail].concat());
            }
            // a second message behind the first
            read_and_turn(out, &[&input[..], &input[..]].concat());
        }
    }
}

// ---------------------------------------------------------------------------------------- lengths, codings, hosts

fn codings(out: &mut Cases) {
    let values = ["chunked", "gzip, chunked", "", "x", "a\rb"];
    for value in values {
        let coding = pair("transfer-encoding", value);
        let kept = vec![pair("b", "c"), coding.clone()];
        for trailers in [Vec::new(), vec![pair("t", "u")]] {
            for chunks in [Vec::new(), vec![b"0\r\n\r\n".to_vec()]] {
                let plan = Plan { headers: kept.clone(), chunks, trailers: trailers.clone(), ..request_plan() };
                both_framings(out, &plan);
                both_framings(out, &Plan { statuses: Some(vec![200]), ..plan });
            }
        }
        // twice; with a length; in informational heads, in 204 and 304; in trailers it is refused
        both_framings(out, &Plan { headers: vec![coding.clone(), coding.clone()], ..request_plan() });
        for length in ["1", "2"] {
            let headers = vec![pair("content-length", length), coding.clone()];
            both_framings(out, &Plan { headers: headers.clone(), chunks: vec![b"c".to_vec()], ..request_plan() });
            both_framings(out, &Plan { headers, chunks: vec![b"c".to_vec()], ..response_plan(&[200]) });
        }
        both_framings(out, &Plan { early: kept.clone(), headers: kept.clone(), ..response_plan(&[103, 204]) });
        both_framings(out, &Plan { headers: kept.clone(), ..response_plan(&[304]) });
        both_framings(out, &Plan { trailers: kept.clone(), ..request_plan() });
        both_framings(out, &Plan { trailers: kept, ..response_plan(&[200]) });
    }
}

fn lengths(out: &mut Cases) {
    let values = [
        "3", "03", "00000000000000000000000000000000000000003", "2", "4", "0", "", "3,3", "3, 3", "+3", "-3", "3.0", "0x3", "3 3", "4294967299",
        "18446744073709551619", "36893488147419103235", "340282366920938463463374607431768211459", "32768", "32769", "65539", "259",
    ];
    for value in values {
        let headers = vec![pair("b", "c"), pair("content-length", value)];
        for content in ["abc", ""] {
            for trailers in [Vec::new(), vec![pair("t", "u")]] {
                let chunks = if content.is_empty() { Vec::new() } else { vec![b"a".to_vec(), b"bc".to_vec()] };
                for plan in [request_plan(), response_plan(&[200])] {
                    for known in [true, false] {
                        let plan = Plan { headers: headers.clone(), chunks: chunks.clone(), trailers: trailers.clone(), ..plan.clone() };
                        read_and_turn(out, &encode(&plan, known));
                    }
                }
            }
        }
    }
    for (first, second) in [("3", "3"), ("3", "4"), ("4", "3"), ("3", "x"), ("x", "3"), ("3", "03")] {
        let headers = vec![pair("content-length", first), pair("content-length", second)];
        for plan in [request_plan(), response_plan(&[200])] {
            both_framings(out, &Plan { headers: headers.clone(), chunks: vec![b"abc".to_vec()], ..plan });
        }
    }
    // refused trailers, alone, with others, twice
    for name in ["content-length", "transfer-encoding", "host", "te", "connection", "upgrade", "keep-alive", "proxy-connection", "trailer"] {
        for plan in [request_plan(), response_plan(&[200]), response_plan(&[304])] {
            both_framings(out, &Plan { trailers: vec![pair(name, "3")], ..plan.clone() });
            both_framings(out, &Plan { trailers: vec![pair("t", "u"), pair(name, "3"), pair(name, "")], ..plan });
        }
    }
}

fn hosts(out: &mut Cases) {
    let long = "h".repeat(256);
    let lists: [&[&str]; 12] =
        [&[], &["a"], &["b"], &[""], &["a", "a"], &["a", "b"], &["", ""], &["A"], &["a/b"], &["a:80"], &[&long[..255]], &[&long]];
    for authority in ["", "a", "b", "a:80"] {
        for list in lists {
            let mut headers: Vec<(Vec<u8>, Vec<u8>)> = list.iter().map(|value| pair("host", value)).collect();
            headers.insert(headers.len() / 2, pair("b", "c"));
            let plan = Plan { authority: authority.as_bytes().to_vec(), headers: headers.clone(), ..request_plan() };
            both_framings(out, &plan);
            // 6 before 7
            headers.push(pair("content-length", "x"));
            for known in [true, false] {
                read_and_turn(out, &encode(&Plan { headers: headers.clone(), ..plan.clone() }, known));
                read_and_turn(out, &encode(&Plan { headers: headers.clone(), ..response_plan(&[200]) }, known));
            }
        }
    }
}

// ---------------------------------------------------------------------------------------- truncations, rooms

fn more_truncations(out: &mut Cases) {
    for figure in [FIGURE_8, FIGURE_9, FIGURE_11] {
        let input = unhex(figure);
        for cut in 0..=input.len() {
            out.push(format!("bin2h1 1 600 {}", hex(&input[..cut])));
            out.push(format!("bin2bin 600 {}", hex(&input[..cut])));
        }
    }
    for plan in full_plans() {
        for known in [true, false] {
            let input = encode(&plan, known);
            for cut in 0..=input.len() {
                let part = hex(&input[..cut]);
                out.push(format!("bin {}", part));
                out.push(format!("bin2h1 0 400 {}", part));
                out.push(format!("bin2bin 400 {}", part));
            }
        }
    }
    for (turn, scheme, text) in [
        (Turn::RequestToBinary, 1, FIGURE_7),
        (Turn::ResponseToBinary, 0, FIGURE_10),
        (Turn::ResponseToBinary, 0, FIGURE_12),
    ] {
        let input = [text.as_bytes(), b"\r\n"].concat();
        for cut in 0..=input.len() {
            out.push(turn_line(&[], turn, scheme, 400, &input[..cut]));
        }
    }
}

/// HTTP/1.1 that the turnings meet with each refusal of a reader.
fn refused_heads(out: &mut Cases) {
    let host = "Host: a\r\n";
    for (line, lines) in [
        ("GET / HTTP/1.0", host), ("GET /", host), ("GE(T / HTTP/1.1", host), ("HEAD / HTTP/1.1", host), ("CONNECT / HTTP/1.1", host),
        ("GET * HTTP/1.1", host), ("GET  HTTP/1.1", host), ("GET /# HTTP/1.1", host), ("GET / HTTP/1.1", ""), ("GET / HTTP/1.1", "Host: a\r\nhost: a\r\n"),
        ("GET / HTTP/1.1", "Host: a/b\r\n"), ("GET / HTTP/1.1", "Host: a\r\nb\r\n"), ("GET / HTTP/1.1", "Host: a\r\nContent-Length: 5, 5\r\n"),
        ("GET / HTTP/1.1", "Host: a\r\nTransfer-Encoding: gzip\r\n"), ("GET / HTTP/1.1", "Host: a\r\nContent-Length: 32769\r\n"),
    ] {
        out.request(format!("{}\r\n{}\r\nabcde", line, lines));
    }
    for (line, lines) in [
        ("HTTP/1.0 200 OK", "Content-Length: 0\r\n"), ("HTTP/1.1 200", "Content-Length: 0\r\n"), ("HTTP/1.1 20 OK", "Content-Length: 0\r\n"),
        ("HTTP/1.1 099 ", ""), ("HTTP/1.1 600 ", ""), ("HTTP/1.1 101 ", ""), ("HTTP/1.1 100 ", "Content-Length: 0\r\n"), ("HTTP/1.1 200 ", ""),
        ("HTTP/1.1 204 ", "Content-Length: 0\r\n"), ("HTTP/1.1 304 ", "Transfer-Encoding: chunked\r\n"), ("HTTP/1.1 200 ", "Content-Length: 5, 5\r\n"),
        ("HTTP/1.1 200 ", "Content-Length: 32769\r\n"), ("HTTP/1.1 200 ", "b\r\n"), ("HTTP/1.1 200 \x7f", "Content-Length: 0\r\n"),
    ] {
        out.response(format!("{}\r\n{}\r\nabcde", line, lines));
    }
}

fn rooms(out: &mut Cases) {
    // every room, from nothing to two octets more than is needed
    let figure_7 = format!("{}\r\n", FIGURE_7).into_bytes();
    let figure_12 = format!("{}\r\n", FIGURE_12).into_bytes();
    let chunked = b"PUT / HTTP/1.1\r\nhost: a\r\nB: c\r\ntransfer-encoding: chunked\r\n\r\n1\r\na\r\n2\r\nbc\r\n0\r\nT: u\r\n\r\n".to_vec();
    let early = b"HTTP/1.1 103 \r\nb: c\r\n\r\nHTTP/1.1 200 OK\r\nd: e\r\ncontent-length: 2\r\n\r\nxy".to_vec();
    let mut list = vec![
        (Turn::RequestToBinary, 0, A.to_vec()),
        (Turn::RequestToBinary, 0, chunked),
        (Turn::RequestToBinary, 1, figure_7),
        (Turn::ResponseToBinary, 0, figure_12),
        (Turn::ResponseToBinary, 0, early),
        (Turn::ResponseToBinary, 0, b"HTTP/1.1 204 \r\n\r\n".to_vec()),
    ];
    let mut inputs = vec![unhex(P5), unhex(FIGURE_13), response_plan(&[204]).known(), request_plan().indeterminate()];
    for plan in full_plans() {
        inputs.push(plan.known());
        inputs.push(plan.indeterminate());
    }
    for input in inputs {
        list.push((Turn::BinaryToHttp1, 0, input.clone()));
        list.push((Turn::BinaryToBinary, 0, input));
    }
    for (turn, scheme, input) in list {
        let size = needed(&out.told(), turn, scheme, &input).unwrap_or(0);
        for room in 0..=size + 2 {
            out.push(turn_line(&[], turn, scheme, room, &input));
        }
    }
    // the largest of each turning
    let lines = "b:\r\n".repeat(61);
    let chunks = format!("80\r\n{}\r\n", "c".repeat(128)).repeat(256);
    let trailers = format!("{}t:{}\r\n\r\n", "t:\r\n".repeat(63), "u".repeat(2_048 - 63 * 4 - 6));
    let of_size = |start: &str, total: usize| {
        let start = format!("{}{}transfer-encoding: chunked\r\n", start, lines);
        format!("{}b:{}\r\n\r\n{}0\r\n{}", start, "v".repeat(total - start.len() - 6), chunks, trailers).into_bytes()
    };
    let request = of_size("POST /s HTTP/1.1\r\nhost: a\r\n", 8_192);
    let response = of_size("HTTP/1.1 100 \r\nc: d\r\n\r\nHTTP/1.1 200 \r\nd:\r\n", 8_192);
    let content = |plan: Plan| Plan { chunks: vec![vec![b'c'; 32_768]], ..plan };
    let trailed = |plan: Plan| Plan { trailers: vec![field("t", 2_048 - 5 - 2)], ..content(plan) };
    let mut list = vec![(Turn::RequestToBinary, request), (Turn::ResponseToBinary, response)];
    for input in [content(request_plan()).known(), trailed(request_plan()).indeterminate(), trailed(response_plan(&[200])).known()] {
        list.push((Turn::BinaryToHttp1, input.clone()));
        list.push((Turn::BinaryToBinary, input));
    }
    for (turn, input) in list {
        let size = needed(&out.told(), turn, 0, &input).unwrap_or(0);
        for room in [0, 1, 64, size / 2, size.saturating_sub(1), size, size + 1, size + 1_000] {
            out.push(turn_line(&[], turn, 0, room, &input));
        }
    }
}
