//! Random and fixed cases of the field question.

use crate::commands::{field_line, Form};
use crate::fixed::{pairs, request_plan, response_plan, Cases, Plan};
use crate::messages::{Maker, Manner};
use crate::{scheme, Random};

fn line(form: Form, name: &[u8], default: &[u8], input: &[u8]) -> String {
    field_line(&[], form, name, default, input)
}

// ---------------------------------------------------------------------------------------- random

/// What stands in front of a colon behind a LF, or behind a number that is its length: mostly a name of the message, at times a value.
fn name_of(random: &mut Random, input: &[u8]) -> Vec<u8> {
    let mut names = Vec::new();
    for (i, &b) in input.iter().enumerate().take(2_000) {
        let rest = &input[i + 1..];
        let size = if b == b'\n' { rest.iter().take(80).position(|&b| b == b':').unwrap_or(0) } else { b as usize };
        if (1..64).contains(&size) && size <= rest.len() && rest[..size].iter().all(|b| b.is_ascii_graphic()) {
            names.push(&rest[..size]);
        }
    }
    names.get(random.below(names.len())).map_or(Vec::new(), |name| name.to_vec())
}

pub fn case(maker: &mut Maker) -> String {
    let manner = Manner { calm: !maker.random.chance(3), ..Manner::default() };
    let form = [Form::Request(scheme(&mut maker.random)), Form::Response, Form::Binary][maker.random.below(3)];
    let input = maker.with(manner, |maker| match form {
        Form::Request(_) => maker.request_input(),
        Form::Response => maker.response_input(),
        Form::Binary => maker.binary_input(),
    });
    let random = &mut maker.random;
    let name = match random.below(16) {
        0 => Vec::new(),
        1 => b"host".to_vec(),
        2 => random.pick(&["content-length", "te", "connection", "transfer-encoding", "upgrade", "keep-alive"]).as_bytes().to_vec(),
        3 => random.pick(&["Accept", "X-A", "A", "Cookie"]).as_bytes().to_vec(),
        4 => random.pick(&["x-", "accep", "accept ", "x-a:", "\u{0}", "b"]).as_bytes().to_vec(),
        5..=7 => maker.common_name().as_bytes().to_vec(),
        // as it stands in the message, with one octet less or one more, and in lower case
        8 => name_of(random, &input),
        9 => name_of(random, &input).to_ascii_lowercase().split_last().map_or(Vec::new(), |(_, name)| name.to_vec()),
        10 => [&name_of(random, &input).to_ascii_lowercase()[..], b"a"].concat(),
        _ => name_of(random, &input).to_ascii_lowercase(),
    };
    let random = &mut maker.random;
    let size = if random.chance(200) { 5_000 } else { random.below(9) };
    let default: Vec<u8> = (0..size).map(|_| random.octet()).collect();
    line(form, &name, &default, &input)
}

// ---------------------------------------------------------------------------------------- fixed

const NAMES: [&str; 27] = [
    "", "b", "B", "bb", "bc", "c", "C", "x-tag", "X-Tag", "x-ta", "x-tag ", "x-tag:", "x-tagg", "empty", "early", "late", "only-early", "host", "content-length", "connection",
    "keep-alive", "proxy-connection", "te", "transfer-encoding", "upgrade", "\u{0}", "link",
];

/// Each name, with an empty default and with one.
fn each_name(out: &mut Cases, form: Form, input: &[u8]) {
    for name in NAMES {
        out.push(line(form, name.as_bytes(), b"", input));
        out.push(line(form, name.as_bytes(), b"default", input));
    }
}

/// Fields in this order: those that do not travel among those that do, a name twice, empty values, letters of either case.
const FIELDS: [(&str, &str); 14] = [
    ("connection", "b"),
    ("keep-alive", "1"),
    ("bc", "not b"),
    ("b", "first"),
    ("proxy-connection", "c"),
    ("te", "t"),
    ("b", "second"),
    ("empty", ""),
    ("x-tag", "985 112"),
    ("empty", "not empty"),
    ("upgrade", "u"),
    ("c", "last"),
    ("late", ""),
    ("late", ""),
];

fn lines(fields: &[(&str, &str)], change: fn(&str) -> String) -> String {
    fields.iter().map(|(name, value)| format!("{}: \t{} \r\n", change(name), value)).collect()
}

fn capitals(name: &str) -> String {
    name.to_ascii_uppercase()
}

fn first_capital(name: &str) -> String {
    name[..1].to_ascii_uppercase() + &name[1..]
}

/// HTTP/1.1, with all fields: requests and responses, their trailers with a field of their own.
fn http1() -> (Vec<String>, Vec<String>) {
    let (mut requests, mut responses) = (Vec::new(), Vec::new());
    for change in [str::to_string, capitals, first_capital] {
        let fields = lines(&FIELDS, change);
        let bodies = ["content-length: 3\r\n\r\nabc", "transfer-encoding: chunked\r\n\r\n3\r\nabc\r\n0\r\nonly-early: t\r\nx-tagg: t\r\n\r\n"];
        let early = lines(&[("early", "e"), ("b", "early"), ("only-early", "o")], change);
        for body in bodies {
            requests.push(format!("POST /s HTTP/1.1\r\n{fields}Host: a\r\n{body}"));
            requests.push(format!("POST /s HTTP/1.1\r\nhost: a\r\n{body}GET / HTTP/1.1\r\n{fields}\r\n"));
            for heads in [String::new(), format!("HTTP/1.1 103 \r\n{early}\r\n"), format!("HTTP/1.1 102 \r\n{fields}\r\nHTTP/1.1 103 \r\n{early}\r\n")] {
                responses.push(format!("{heads}HTTP/1.1 200 OK\r\nHost: h\r\n{fields}{body}"));
                responses.push(format!("{heads}HTTP/1.1 200 OK\r\nlink: l\r\n{body}{fields}"));
            }
        }
        requests.push(format!("GET / HTTP/1.1\r\nHost: a\r\n{fields}\r\n"));
        responses.push(format!("HTTP/1.1 204 \r\n{fields}\r\n"));
    }
    (requests, responses)
}

/// Binary in all framings: with the fields and without.
fn binary() -> Vec<Vec<u8>> {
    let fields = pairs(&FIELDS);
    let early = pairs(&[("early", "e"), ("b", "early"), ("only-early", "o")]);
    let trailers = pairs(&[("only-early", "t"), ("x-tagg", "t")]);
    let mut with_length = fields.clone();
    with_length.extend(pairs(&[("transfer-encoding", "x"), ("content-length", "3"), ("host", "a")]));
    let mut plans = Vec::new();
    for headers in [fields, with_length, pairs(&[("host", "a")]), Vec::new()] {
        let plan = Plan { headers, early: early.clone(), chunks: vec![b"abc".to_vec()], trailers: trailers.clone(), ..request_plan() };
        for statuses in [None, Some(vec![200]), Some(vec![103, 200]), Some(vec![102, 103, 404])] {
            plans.push(Plan { statuses, ..plan.clone() });
        }
    }
    plans.push(Plan { headers: pairs(&FIELDS), ..response_plan(&[204]) });
    plans.iter().flat_map(|plan| [plan.known(), plan.indeterminate()]).collect()
}

pub fn cases(out: &mut Cases) {
    let (requests, responses) = http1();
    for input in &requests {
        each_name(out, Form::Request(0), input.as_bytes());
    }
    for input in &responses {
        each_name(out, Form::Response, input.as_bytes());
    }
    for input in binary() {
        each_name(out, Form::Binary, &input);
        // one octet too many, and one that is no message of its form
        each_name(out, Form::Binary, &[&input[..], &[1]].concat());
        each_name(out, Form::Request(0), &input);
    }
    // told another scheme, on each form of request line, also where nothing is right
    for scheme in [1, 2, 256, 4_294_967_295] {
        for input in [requests[0].as_bytes(), b"", b"\n", responses[0].as_bytes()] {
            each_name(out, Form::Request(scheme), input);
        }
    }
    // cut anywhere, and one octet changed
    let samples: [(Form, &[u8]); 3] = [(Form::Request(0), requests[0].as_bytes()), (Form::Response, responses[4].as_bytes()), (Form::Binary, &binary()[12])];
    for (form, input) in samples {
        for end in 0..=input.len() {
            out.push(line(form, b"b", b"de", &input[..end]));
        }
        for place in 0..input.len() {
            let mut other = input.to_vec();
            for octet in [b'\n', b':', b'b', b'B', 0] {
                other[place] = octet;
                out.push(line(form, b"b", b"de", &other));
            }
        }
    }
}
