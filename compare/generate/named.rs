//! Cases of item 3: fields named by Connection.

use crate::bundles;
use crate::commands::{self, Form, Options};
use crate::fixed::*;
use crate::hex;
use crate::messages::{Maker, Manner, Pair};
use crate::reference::told::Told;
use crate::streams;

// ---------------------------------------------------------------------------------------- in each form

type Fields<'a> = &'a [(&'a str, &'a str)];

fn http1_form(plan: &Plan) -> Form {
    if plan.statuses.is_none() { Form::Request(0) } else { Form::Response }
}

/// HTTP/1.1 with its names changed so.
fn http1(plan: &Plan, change: fn(&[u8]) -> Vec<u8>) -> Vec<u8> {
    plan.http1(|out, fields| {
        for (name, value) in fields {
            out.extend([&change(name)[..], b": ", value, b"\r\n"].concat());
        }
        out.extend(b"\r\n");
    })
}

/// The message in each form: HTTP/1.1, with names in capitals too, and Binary of both lengths.
fn forms(plan: &Plan) -> [(Form, Vec<u8>); 4] {
    let form = http1_form(plan);
    [
        (form, http1(plan, <[u8]>::to_vec)),
        (form, http1(plan, <[u8]>::to_ascii_uppercase)),
        (Form::Binary, plan.known()),
        (Form::Binary, plan.indeterminate()),
    ]
}

// ---------------------------------------------------------------------------------------- random

/// Few names, so that they meet: one the beginning of another, members that often stand alone, names that never travel.
const NAMES: [&str; 10] = ["b", "bb", "x", "y", "x-antenna", "x-antenn", "close", "keep-alive", "te", "proxy-connection"];

/// A section of few names, in which Connection lines name some of them.
fn section(maker: &mut Maker, most: usize) -> Vec<Pair> {
    let count = maker.random.below(most + 1);
    (0..count)
        .map(|i| match maker.random.below(12) {
            0..=3 => (b"connection".to_vec(), maker.member_list(&NAMES)),
            4 => (b"proxy-connection".to_vec(), maker.member_list(&NAMES)),
            _ => pair(maker.random.pick(&NAMES), &i.to_string()),
        })
        .collect()
}

/// A message of such sections: a request, or a response where `statuses` are told.
fn plan(maker: &mut Maker, statuses: Option<&[u64]>) -> Plan {
    let bodiless = matches!(statuses, Some([.., 204 | 304]));
    let mut headers = section(maker, 8);
    // an ordinary field in a response
    if statuses.is_some() && maker.random.chance(4) {
        headers.insert(maker.random.below(headers.len() + 1), pair("host", "h"));
    }
    Plan {
        method: b"POST".to_vec(),
        statuses: statuses.map(<[u64]>::to_vec),
        heads: (1..statuses.map_or(1, <[u64]>::len)).map(|_| section(maker, 4)).collect(),
        headers,
        chunks: if bodiless || maker.random.chance(2) { Vec::new() } else { vec![b"c".to_vec()] },
        trailers: if bodiless || maker.random.chance(2) { Vec::new() } else { section(maker, 3) },
        ..request_plan()
    }
}

/// In HTTP/1.1, with letters and blanks as they come.
fn text(maker: &mut Maker, plan: &Plan) -> Vec<u8> {
    plan.http1(|out, fields| maker.push_section(out, fields))
}

fn binary(maker: &mut Maker, plan: &Plan) -> Vec<u8> {
    if maker.random.chance(2) { plan.known() } else { plan.indeterminate() }
}

fn small_message(maker: &mut Maker) -> (Form, Vec<u8>) {
    const STATUSES: [&[u64]; 5] = [&[200], &[103, 200], &[102, 103, 404], &[103, 204], &[304]];
    let statuses = if maker.random.chance(2) { None } else { Some(STATUSES[maker.random.below(5)]) };
    let plan = plan(maker, statuses);
    let (form, mut input) = match maker.random.chance(2) {
        true => (Form::Binary, binary(maker, &plan)),
        false => (http1_form(&plan), text(maker, &plan)),
    };
    maker.damage(&mut input);
    (form, input)
}

/// Messages of all kinds, among whose lines are those of Connection.
fn any_message(maker: &mut Maker) -> (Form, Vec<u8>) {
    match maker.random.below(3) {
        0 => {
            let input = maker.request_input();
            (Form::Request(commands::request_scheme(maker, &input)), input)
        }
        1 => (Form::Response, maker.response_input()),
        _ => {
            let framing = maker.random.below(4) as u64;
            (Form::Binary, maker.binary_input_of(framing))
        }
    }
}

/// A head of about 64 lines or 8,192 octets in HTTP/1.1, of which most are named or name.
fn at_limit(maker: &mut Maker) -> (Form, Vec<u8>) {
    let named = maker.random.pick(&["b", "B", "x", "bb", "\"b\""]);
    let fill = [pair("b", ""), pair("connection", named), pair("bb", "1")][maker.random.below(3)].clone();
    let statuses = if maker.random.chance(2) { None } else { Some(vec![200]) };
    let headers = vec![pair("connection", named), pair("x", "2"), fill.clone()];
    let mut plan = Plan { statuses, headers, ..request_plan() };
    if maker.random.chance(2) {
        // with Host or the length line
        plan.headers.extend(vec![fill; maker.near(64) - 4]);
    } else {
        let more = maker.near(8_192) - http1(&plan, <[u8]>::to_vec).len();
        plan.headers[2].1.extend(vec![b'v'; more]);
    }
    forms(&plan)[maker.random.below(4)].clone()
}

/// Several requests behind each other: listed, or written by a list of calls and taken off.
fn several(maker: &mut Maker) -> String {
    let mut tail = Vec::new();
    for _ in 0..maker.random.below(4) {
        let plan = plan(maker, None);
        tail.extend(text(maker, &plan));
    }
    if maker.random.chance(2) {
        maker.damage(&mut tail);
        return format!("listing {}", hex(&tail));
    }
    let inputs: Vec<Vec<u8>> = (0..1 + maker.random.below(4))
        .map(|_| {
            let plan = plan(maker, None);
            binary(maker, &plan)
        })
        .collect();
    let total: usize = streams::sizes(&Told::nothing(maker.items), 0, &inputs).iter().sum();
    let room = commands::room(maker, Some(total));
    streams::line(0, room, &tail, &inputs)
}

pub fn case(maker: &mut Maker) -> String {
    let manner = Manner { calm: !maker.random.chance(5), answers_head: maker.random.chance(10), ..Manner::default() };
    maker.with(manner, |maker| {
        maker.faults = 0;
        maker.sharp_faults = 0;
        let (form, input) = match maker.random.below(40) {
            0 => at_limit(maker),
            1..=4 => return several(maker),
            5..=14 => any_message(maker),
            _ => small_message(maker),
        };
        let options: Options = if manner.answers_head { &[("head", 1)] } else { &[] };
        if maker.random.chance(5) {
            return commands::field_line(options, form, maker.random.pick(&NAMES).as_bytes(), b"de", &input);
        }
        if let (Form::Request(_), true) = (form, maker.random.chance(8)) {
            return format!("listing {}", hex(&input));
        }
        commands::case(maker, options, form, &input)
    })
}

// ---------------------------------------------------------------------------------------- fixed

pub fn cases(out: &mut Cases) {
    values(out);
    places(out);
    heads(out);
    trailers(out);
    judged_first(out);
    questions(out);
    octets(out);
    counts(out);
    sizes(out);
    long_lists(out);
    truncations(out);
    requests_in_row(out);
    in_bundles(out);
    editions(out);
}

/// Every command that meets it, in each form.
fn each_form(out: &mut Cases, plan: &Plan) {
    for (form, input) in forms(plan) {
        out.message(&[], form, &input);
        if let Form::Request(_) = form {
            out.push(format!("listing {}", hex(&input)));
        }
    }
}

/// The same header section in each place: a request's, a response's, that of an informational head, that of a final head behind
/// one. The other head's fields are its own.
fn sections(out: &mut Cases, fields: Fields) {
    let own = pairs(fields);
    let other = pairs(&[("b", "c"), ("x", "y")]);
    for plan in [
        Plan { headers: own.clone(), ..request_plan() },
        Plan { headers: own.clone(), ..response_plan(&[200]) },
        Plan { early: own.clone(), headers: other.clone(), ..response_plan(&[103, 204]) },
        Plan { early: other, headers: own, ..response_plan(&[103, 200]) },
    ] {
        each_form(out, &plan);
    }
}

/// Values of Connection beside the fields `b`, `x` and `x-antenna`.
fn values(out: &mut Cases) {
    for value in [
        "", "b", "close", "B", "x-antenna", "X-Antenna", "x", "x-antenn", "x-antennas", "b,x", "b, x", "b ,\tx", ",b", "b,", ",,b,,", ",", " ", "\"b\"", "\"b,x\"", "\"a,b,c\"",
        "b x", "b;x", "b=x", "(b)", "b\u{e9}", "b\tx", "close, x-antenna, keep-alive", "bb", "bx", "x-antenna,x-antenna", "b,B,b", "b\t, \tX-ANTENNA\t,x\t",
    ] {
        sections(out, &[("connection", value.trim()), ("b", "1"), ("x", "2"), ("x-antenna", "3"), ("y", "4")]);
        let text = format!("GET / HTTP/1.1\r\nB: 1\r\nX: 2\r\nX-Antenna: 3\r\nHost: a\r\nConnection:{value}\r\n\r\n");
        out.message(&[], Form::Request(0), text);
    }
}

/// Before and behind what they name, more than one line, more than one field of a name; names that name themselves, that never
/// travel, that are options and fields at once; lines that are no Connection.
fn places(out: &mut Cases) {
    let fields: [Fields; 14] = [
        &[("b", "1"), ("connection", "b")],
        &[("b", "1"), ("connection", "b"), ("b", "2")],
        &[("connection", "b"), ("b", "1"), ("connection", "x"), ("x", "2"), ("y", "3")],
        &[("x", "1"), ("connection", "close"), ("b", "2"), ("connection", "x,b")],
        &[("b", "1"), ("x", "2"), ("y", "3"), ("connection", ""), ("connection", "Y"), ("connection", "B")],
        &[("connection", "b"), ("connection", "b"), ("b", "1"), ("bb", "2")],
        &[("proxy-connection", "b"), ("b", "1")],
        &[("connection", "proxy-connection"), ("proxy-connection", "b"), ("b", "1")],
        &[("keep-alive", "b"), ("te", "b"), ("upgrade", "b"), ("trailer", "b"), ("b", "1")],
        &[("connections", "b"), ("x-connection", "b"), ("connectio", "b"), ("b", "1")],
        &[("connection", "connection"), ("connection", "b"), ("b", "1"), ("x", "2")],
        &[("connection", "connection, keep-alive"), ("keep-alive", "1"), ("b", "1")],
        &[("connection", "close, keep-alive"), ("close", "1"), ("keep-alive", "2"), ("b", "3")],
        &[("close", "1"), ("connection", "Closed"), ("closed", "2"), ("b", "3")],
    ];
    for fields in fields {
        sections(out, fields);
    }
}

/// Each informational head obeys its own Connection lines alone.
fn heads(out: &mut Cases) {
    // every choice of heads that have such a line, each naming a field that all have
    for choice in 0..8 {
        let fields = |head: usize| {
            let named = if choice >> head & 1 == 1 { "B" } else { "close" };
            pairs(&[("b", "1"), ("connection", named), ("x", "2")])
        };
        each_form(out, &Plan { heads: vec![fields(0), fields(1)], headers: fields(2), ..response_plan(&[102, 103, 200]) });
    }
    // four heads, the final one and the trailers: each of the five names another field
    for turn in 0..5 {
        let fields = |head: usize| {
            let named = ["b", "x", "y", "z", "u"][(head + turn) % 5];
            pairs(&[("b", "1"), ("x", "2"), ("connection", named), ("y", "3"), ("z", "4"), ("u", "5")])
        };
        let plan = Plan { heads: (0..4).map(fields).collect(), headers: fields(4), trailers: fields(0), ..response_plan(&[100, 102, 103, 199, 404]) };
        each_form(out, &plan);
    }
}

/// Trailers are untouched: their own Connection lines name nothing, and a head's name no trailer. What is refused there is so
/// though it is named.
fn trailers(out: &mut Cases) {
    for (header, trailer) in [("b", "t"), ("t", "b"), ("b, t", "b, t"), ("close", "b,t"), ("T", "close")] {
        let plan = Plan {
            early: pairs(&[("connection", header), ("b", "0"), ("t", "0")]),
            headers: pairs(&[("connection", header), ("b", "c"), ("t", "d")]),
            chunks: vec![b"c".to_vec()],
            ..request_plan()
        };
        for trailers in [&[("connection", trailer), ("t", "u"), ("b", "v")][..], &[("t", "u"), ("b", "v"), ("connection", trailer)], &[("t", "u")]] {
            for statuses in [None, Some(vec![200]), Some(vec![103, 200])] {
                each_form(out, &Plan { statuses, trailers: pairs(trailers), ..plan.clone() });
            }
        }
    }
    for name in ["host", "content-length", "transfer-encoding", "te", "connection"] {
        let connection = pairs(&[("connection", name)]);
        let trailers = [connection.clone(), pairs(&[(name, "0"), ("b", "1")])].concat();
        let plan = Plan { headers: connection, trailers, ..request_plan() };
        each_form(out, &plan);
        each_form(out, &Plan { statuses: Some(vec![204]), ..plan });
    }
}

/// Host and length rules are judged on the whole section, whatever Connection names.
fn judged_first(out: &mut Cases) {
    for named in ["host", "content-length", "transfer-encoding", "host, content-length, transfer-encoding"] {
        let connection = format!("Connection: {named}\r\n");
        for rest in [
            "\r\n", "Content-Length: 3\r\n\r\nabc", "Content-Length: 3\r\nContent-Length: 3\r\n\r\nabc", "Transfer-Encoding: chunked\r\n\r\n3\r\nabc\r\n0\r\n\r\n",
            "Content-Length: 3\r\nTransfer-Encoding: chunked\r\n\r\nabc", "Content-Length: x\r\n\r\n", "Content-Length: 99999\r\n\r\n", "Transfer-Encoding: gzip\r\n\r\n",
        ] {
            for hosts in ["", "Host: a\r\n", "Host: a\r\nHost: a\r\n", "Host: @\r\n"] {
                out.message(&[], Form::Request(0), format!("POST / HTTP/1.1\r\n{hosts}{connection}{rest}"));
                out.message(&[], Form::Response, format!("HTTP/1.1 200 \r\n{hosts}{connection}{rest}"));
            }
            out.message(&[], Form::Request(0), format!("POST http://b HTTP/1.1\r\nHost: a\r\n{connection}{rest}"));
            for status in [304, 204, 103] {
                out.message(&[], Form::Response, format!("HTTP/1.1 {status} \r\n{connection}{rest}"));
            }
            for told in [("head", 1), ("closed", 1)] {
                out.message(&[told], Form::Response, format!("HTTP/1.1 200 \r\n{connection}{rest}"));
            }
        }
        for fields in [&[("host", "a")][..], &[("host", "b")], &[("host", "a"), ("host", "a")], &[("content-length", "1")], &[("content-length", "2")], &[("transfer-encoding", "x")]] {
            let headers = [pairs(&[("connection", named)]), pairs(fields)].concat();
            for authority in ["", "a"] {
                let plan = Plan { authority: authority.as_bytes().to_vec(), headers: headers.clone(), chunks: vec![b"c".to_vec()], ..request_plan() };
                out.message(&[], Form::Binary, plan.known());
                out.message(&[], Form::Binary, plan.indeterminate());
            }
            for status in [200, 304, 204] {
                out.message(&[("head", 1)], Form::Binary, Plan { headers: headers.clone(), ..response_plan(&[status]) }.known());
                out.message(&[], Form::Binary, Plan { headers: headers.clone(), ..response_plan(&[status]) }.known());
            }
            out.message(&[], Form::Binary, Plan { early: headers, ..response_plan(&[103, 200]) }.known());
        }
    }
    // an ordinary field in a response, dropped where it is named
    response_sections(out, &[("host", "a"), ("connection", "b, Host"), ("b", "1"), ("x", "2")]);
    response_sections(out, &[("host", "a"), ("connection", "b"), ("host", "b"), ("b", "1")]);
}

fn response_sections(out: &mut Cases, fields: Fields) {
    each_form(out, &Plan { headers: pairs(fields), ..response_plan(&[200]) });
    each_form(out, &Plan { early: pairs(fields), ..response_plan(&[103, 204]) });
}

/// The question for each name: what is dropped is not found, nor is a later field of that name.
fn questions(out: &mut Cases) {
    let fields = pairs(&[("b", "1"), ("connection", "X, b"), ("x", "2"), ("b", "3"), ("y", "4"), ("host", "5"), ("close", "6"), ("connection", "close, host"), ("te", "7"), ("y", "8")]);
    let of_request = fields.iter().filter(|(name, _)| name != b"host").cloned().collect();
    let early = pairs(&[("b", "0"), ("connection", "y"), ("x", "0"), ("y", "0")]);
    let trailers = pairs(&[("b", "9"), ("x", "9"), ("close", "9")]);
    for plan in [
        Plan { headers: of_request, trailers: trailers.clone(), ..request_plan() },
        Plan { headers: fields.clone(), trailers: trailers.clone(), ..response_plan(&[200]) },
        Plan { early, headers: fields, ..response_plan(&[103, 304]) },
    ] {
        for (form, input) in forms(&plan) {
            for name in ["b", "x", "y", "B", "close", "connection", "te", "host", "z", ""] {
                for default in [&b""[..], b"default"] {
                    out.push(commands::field_line(&[], form, name.as_bytes(), default, &input));
                }
            }
        }
    }
}

/// Each octet in a member, before it, behind it, and alone; and as the name itself.
fn octets(out: &mut Cases) {
    for octet in 0..=255u8 {
        for value in [vec![octet], vec![b'b', octet], vec![octet, b'b'], vec![b'x', octet, b'b'], vec![b'b', octet, b',', b'x']] {
            let input = [b"GET / HTTP/1.1\r\nHost: a\r\nb: 1\r\nx: 2\r\nConnection: ", &value[..], b"\r\n\r\n"].concat();
            out.push(commands::read_line(&[], Form::Request(0), &input));
            let headers = vec![(b"connection".to_vec(), value), pair("b", "1"), pair("x", "2")];
            out.push(commands::read_line(&[], Form::Binary, &Plan { headers, ..response_plan(&[200]) }.known()));
        }
        let input = [b"GET / HTTP/1.1\r\nHost: a\r\nconnection: ", &[octet][..], b"\r\n", &[octet], b": 1\r\n\r\n"].concat();
        out.push(commands::read_line(&[], Form::Request(0), &input));
    }
}

/// Sections of 62 to 65 lines, most of them named or naming (HTTP/1.1 has Host or a length line besides, save in 204 and 103).
fn counts(out: &mut Cases) {
    for lines in [62, 63, 64, 65] {
        for fill in [("b", ""), ("connection", "b"), ("connection", "")] {
            for last in [fill, ("x", "y")] {
                let fields = [pairs(&[("connection", "b")]), vec![pair(fill.0, fill.1); lines - 2], pairs(&[last])].concat();
                for plan in [
                    Plan { headers: fields.clone(), ..request_plan() },
                    Plan { headers: fields.clone(), ..response_plan(&[204]) },
                    Plan { early: fields, headers: pairs(&[("b", "c")]), ..response_plan(&[103, 200]) },
                ] {
                    each_form(out, &plan);
                }
            }
        }
    }
    // 31 lines that name 31 others
    let name = |i: usize| format!("n{i}");
    let fields: Vec<Pair> = (0..31).flat_map(|i| [pair("connection", &name((i + 7) % 31)), pair(&name(i), "v")]).collect();
    each_form(out, &Plan { headers: [fields, pairs(&[("b", "c")])].concat(), ..request_plan() });
}

/// Named fields and Connection lines count toward the 8,192 octets that are read and toward Binary's 65,535; what is written
/// counts what is kept.
fn sizes(out: &mut Cases) {
    for total in [8_191, 8_192, 8_193] {
        for (start, lines) in [("GET / HTTP/1.1\r\nHost: a\r\n", "Connection: b"), ("HTTP/1.1 204 \r\n", "Connection: b"), ("HTTP/1.1 103 \r\n", "connection:x, B")] {
            let form = if start.starts_with("GET") { Form::Request(0) } else { Form::Response };
            // in the named field, in a Connection line, in a field beside them; many named lines before them
            for middle in ["b:", "Connection: b,", "x:"] {
                for many in [0, 50] {
                    let start = format!("{start}{lines}\r\n{}{middle}", "b:\r\n".repeat(many));
                    let input = format!("{start}{}\r\n\r\n", "v".repeat(total - start.len() - 4));
                    out.message(&[], form, &input);
                    out.message(&[], form, input + "HTTP/1.1 204 \r\n\r\n");
                }
            }
        }
        // written: "GET / HTTP/1.1", "host: a", "b: ...", ""; "HTTP/1.1 200 ", "content-length: 0", "b: ...", ""
        let fields = |written: usize, named: usize| vec![pair("connection", "x"), field("x", named), field("b", total - written - 5 - 2)];
        for named in [0, 9_000] {
            for plan in [
                Plan { headers: fields(16 + 9, named), ..request_plan() },
                Plan { headers: fields(15 + 19, named), ..response_plan(&[200]) },
                Plan { early: fields(17 + 15, named), ..response_plan(&[103, 204]) },
            ] {
                out.message(&[], Form::Binary, plan.known());
            }
        }
    }
    // a trailer that a head names counts, and is written: "b: ...", ""
    for total in [2_048, 2_049] {
        let plan = Plan { headers: pairs(&[("connection", "b"), ("b", "c")]), trailers: vec![field("b", total - 5 - 2)], ..request_plan() };
        each_form(out, &plan);
    }
    for total in [65_534, 65_535, 65_536] {
        // framing, status, section, Connection's line, the named field's, content, trailers
        let headers = vec![pair("connection", "b"), field("b", total - 1 - 2 - 4 - 13 - 6 - 2)];
        out.message(&[], Form::Binary, Plan { headers, ..response_plan(&[200]) }.known());
    }
}

/// A long list, a long name.
fn long_lists(out: &mut Cases) {
    let list: String = (0..900).map(|i| format!("n{i},")).collect();
    let long = "l".repeat(2_000);
    for (value, name) in [(list.as_str(), "n899"), (&list, "n900"), (&long, &long), (&long, &long[1..]), (&format!("a,{long}"), &long)] {
        sections(out, &[("connection", value), (name, "1"), ("b", "2")]);
    }
}

fn truncations(out: &mut Cases) {
    out.cuts(&[], Form::Request(0), "GET / HTTP/1.1\r\nb: 1\r\nConnection: b, x\r\nHost: a\r\nX: 2\r\ny: 3\r\n\r\n");
    let fields = pairs(&[("b", "1"), ("connection", "b, X"), ("x", "2"), ("y", "3")]);
    let plan = Plan { early: fields.clone(), headers: fields, chunks: vec![b"c".to_vec()], trailers: pairs(&[("connection", "y"), ("b", "4")]), ..request_plan() };
    for statuses in [None, Some(vec![103, 200])] {
        for (form, input) in forms(&Plan { statuses, ..plan.clone() }) {
            out.cuts(&[], form, &input);
        }
    }
}

/// Requests each with Connection lines of its own: without content, with a length that is named, chunked with trailers.
fn own_requests() -> [Plan; 3] {
    let post = Plan { method: b"POST".to_vec(), chunks: vec![b"abc".to_vec()], ..request_plan() };
    [
        Plan { headers: pairs(&[("connection", "b"), ("b", "1"), ("x", "2")]), ..request_plan() },
        Plan { headers: pairs(&[("x", "1"), ("connection", "content-length, X"), ("b", "2")]), ..post.clone() },
        Plan { headers: pairs(&[("b", "1"), ("connection", "t")]), trailers: pairs(&[("t", "2"), ("connection", "b")]), ..post },
    ]
}

/// Lists of calls and streams of such requests, in every order; every front of a stream.
fn requests_in_row(out: &mut Cases) {
    let plans = own_requests();
    let texts = plans.each_ref().map(|plan| http1(plan, <[u8]>::to_ascii_uppercase));
    for order in [[0, 1, 2], [0, 2, 1], [1, 0, 2], [1, 2, 0], [2, 0, 1], [2, 1, 0]] {
        let stream = order.map(|i| texts[i].clone()).concat();
        out.push(format!("listing {}", hex(&stream)));
        for inputs in [order.map(|i| plans[i].known()), order.map(|i| plans[i].indeterminate())] {
            let total: usize = streams::sizes(&out.told(), 0, &inputs).iter().sum();
            for room in [total - 1, total, total + 9] {
                out.push(streams::line(0, room, &stream, &inputs));
            }
            out.push(streams::line(1, total, &stream, &inputs));
        }
    }
    let stream = texts.concat();
    for end in 0..stream.len() {
        out.push(format!("listing {}", hex(&stream[..end])));
    }
}

/// What is appended is written without what is named; as an entry such a message is not as it is written.
fn in_bundles(out: &mut Cases) {
    let reply = Plan { heads: vec![pairs(&[("connection", "b"), ("b", "1")])], headers: pairs(&[("b", "2"), ("connection", "host"), ("host", "h")]), ..response_plan(&[103, 200]) };
    for plan in own_requests().iter().chain([&reply]) {
        for message in [plan.known(), plan.indeterminate()] {
            for bundle in [Vec::new(), bundles::entry(3, true, &unhex(P5))] {
                bundles::append_rooms(out, 5, &bundle, &message);
                let bundle = [bundle, bundles::entry(5, false, &message)].concat();
                bundles::reading(out, &bundle);
                out.push(format!("salvage 99 {}", hex(&bundle)));
            }
        }
    }
}

/// The draft's messages: an empty value of Connection is refused, all else is the same.
fn editions(out: &mut Cases) {
    for value in ["", "b", "B ,x", ",", "\"b\""] {
        let fields = pairs(&[("b", "1"), ("connection", value), ("x", "2"), ("y", "3")]);
        for plan in [Plan { headers: fields.clone(), ..request_plan() }, Plan { early: fields.clone(), headers: fields, ..response_plan(&[103, 200]) }] {
            for edition in [0, 1, 2] {
                out.message(&[("edition", edition)], Form::Binary, plan.known());
                out.message(&[("edition", edition)], Form::Binary, plan.indeterminate());
            }
        }
    }
}
