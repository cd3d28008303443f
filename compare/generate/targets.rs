//! Cases of item 2: targets with a scheme in them.

use crate::commands::{self, Form};
use crate::fixed::*;
use crate::hex;
use crate::messages::{Maker, Manner};

// ---------------------------------------------------------------------------------------- random

/// An authority or a path about as long as it may be.
fn at_limit(maker: &mut Maker) -> String {
    let method = maker.random.pick(&["GET", "OPTIONS"]);
    let scheme = maker.random.pick(&["http", "http", "HTTPS"]);
    let behind = maker.random.pick(&["", "/", "?"]);
    let (authority, rest) = if maker.random.chance(2) { (maker.near(255), 5) } else { (1, maker.near(4_096) - 1) };
    let rest = if behind.is_empty() { 0 } else { rest };
    let input = format!("{method} {scheme}://{}{behind}{} HTTP/1.1\r\nHost: b\r\n\r\n", "h".repeat(authority), "p".repeat(rest));
    let told = commands::request_scheme(maker, input.as_bytes());
    commands::case(maker, &[], Form::Request(told), input.as_bytes())
}

pub fn case(maker: &mut Maker) -> String {
    if maker.random.chance(100) {
        return at_limit(maker);
    }
    let manner = Manner { calm: !maker.random.chance(4), ..Manner::default() };
    maker.with(manner, |maker| match maker.random.below(12) {
        0..=7 => {
            let input = maker.request_input();
            let scheme = commands::request_scheme(maker, &input);
            commands::case(maker, &[], Form::Request(scheme), &input)
        }
        8 => format!("listing {}", hex(&maker.stream_input())),
        _ => {
            let framing = [0, 2][maker.random.below(2)];
            let input = maker.binary_input_of(framing);
            commands::case(maker, &[], Form::Binary, &input)
        }
    })
}

// ---------------------------------------------------------------------------------------- fixed

const METHODS: [&str; 5] = ["GET", "OPTIONS", "options", "CONNECT", "HEAD"];

pub fn cases(out: &mut Cases) {
    forms(out);
    spellings(out);
    hosts(out);
    sizes(out);
    octets(out);
    truncations(out);
    binary(out);
    streams(out);
}

fn both_schemes(out: &mut Cases, input: &str) {
    for scheme in [0, 1] {
        out.message(&[], Form::Request(scheme), input);
    }
}

/// Each form of a target, right and nearly right, under either scheme.
fn forms(out: &mut Cases) {
    let mut targets: Vec<String> = Vec::new();
    for start in ["http://", "https://", "HTTP://", "hTTpS://", "http:/", "http:", "http", "httpx://", "https:///", "ttp://", "ftp://", "://", "//", "h", "http//", "http:\\\\"] {
        for rest in ["", "a", "a/", "a/s", "a?", "a?q", "a?q/r", "a/?q", "a//", "/s", "?q", "u@a/s", "a:80/s", "[::1]/s", "a*", "a/#", "a#", "#", "a,b/\"", "a\"/"] {
            targets.push(format!("{start}{rest}"));
        }
    }
    targets.extend(["", "/", "/s", "*", "**", "*/", "*?q", "*#", "/*", "a", "?q", "#", "/http://a/", "*http://a"].map(str::to_string));
    for target in targets {
        for method in ["GET", "OPTIONS"] {
            let line = format!("{method} {target} HTTP/1.1\r\n");
            out.push(commands::read_line(&[], Form::Request(0), line.as_bytes()));
            let input = format!("{line}Host: b\r\n\r\n");
            out.push(commands::read_line(&[], Form::Request(1), input.as_bytes()));
            out.message(&[], Form::Request(0), &input);
            in_streams(out, &input);
        }
    }
    for method in METHODS {
        for target in ["*", "http://a", "http://a?", "http://a?q", "http://a/", "https://a", "/", "*x", "http:a", "http://", "http://a#"] {
            both_schemes(out, &format!("{method} {target} HTTP/1.1\r\nHost: b\r\nContent-Length: 1\r\n\r\nx"));
            both_schemes(out, &format!("{method} {target} HTTP/1.0\r\nHost: b\r\n\r\n"));
        }
    }
}

/// Both schemes in every case of letters.
fn spellings(out: &mut Cases) {
    for name in ["http", "https"] {
        for letters in 0..1u32 << name.len() {
            let scheme: String = name.chars().enumerate().map(|(i, c)| if letters >> i & 1 == 1 { c.to_ascii_uppercase() } else { c }).collect();
            let input = format!("GET {scheme}://a HTTP/1.1\r\nHost: b\r\n\r\n");
            both_schemes(out, &input);
            in_streams(out, &input);
        }
    }
}

/// Behind what a list of calls writes, under either scheme, and between two requests of a stream.
fn in_streams(out: &mut Cases, input: &str) {
    let call = hex(&request_plan().known());
    for scheme in [0, 1] {
        out.push(format!("stream {scheme} 500 {} {call}", hex(input.as_bytes())));
    }
    let other = "GET / HTTP/1.1\r\nHost: b\r\n\r\n";
    out.push(format!("listing {}", hex(format!("{other}{input}{other}").as_bytes())));
}

/// Host stands once; in absolute-form it is otherwise ignored.
fn hosts(out: &mut Cases) {
    let long = format!("Host: {}\r\n", "h".repeat(300));
    for hosts in ["", "Host: a\r\n", "Host: other\r\n", "Host:\r\n", "Host: @\r\n", "Host: a b\r\n", "host: u@a\r\n", "Host: a\r\nHost: a\r\n", "Host: \u{7f}\r\n", "Host : a\r\n", &long] {
        for target in ["http://a/s", "https://a", "/s", "*", "HTTP://A?q"] {
            for lines in ["", "Content-Length: 0\r\nContent-Length: 0\r\n", "Content-Length: 99999\r\n"] {
                out.message(&[], Form::Request(0), format!("OPTIONS {target} HTTP/1.1\r\n{hosts}{lines}\r\n"));
            }
        }
    }
}

/// Authority and path at their sizes, what is put before the path counted; both at once, with the other scheme.
fn sizes(out: &mut Cases) {
    let mut request = |target: String| {
        for method in ["GET", "OPTIONS"] {
            both_schemes(out, &format!("{method} {target} HTTP/1.1\r\nHost: b\r\n\r\n"));
        }
    };
    for size in [1, 254, 255, 256] {
        for rest in ["", "/", "?q"] {
            request(format!("http://{}{rest}", "h".repeat(size)));
        }
    }
    for size in [4_094, 4_095, 4_096, 4_097] {
        for start in ["http://a/", "http://a?", "https://a/", "http://u@a/", "http://a/#", "/"] {
            request(format!("{start}{}", "p".repeat(size - 1)));
        }
    }
    request(format!("http://{}/{}", "h".repeat(255), "p".repeat(4_095)));
    request(format!("http://{}/{}", "h".repeat(256), "p".repeat(4_096)));
    // the head's 8,192 count the target as it stands
    for total in [8_191, 8_192, 8_193] {
        let start = "GET http://a/s HTTP/1.1\r\nHost: b\r\nb:";
        out.message(&[], Form::Request(0), format!("{start}{}\r\n\r\n", "v".repeat(total - start.len() - 4)));
    }
}

/// Each octet in the scheme, behind it, in the authority, at its end and in the path.
fn octets(out: &mut Cases) {
    for octet in 0..=255u8 {
        for (before, after) in [("", "ttp://a/s"), ("http", "//a/s"), ("http:/", "a/s"), ("http://", "/s"), ("http://a", "b/s"), ("http://a", ""), ("http://a/s", ""), ("http://a?", "q"), ("*", ""), ("", "")] {
            let input = [b"OPTIONS ", before.as_bytes(), &[octet], after.as_bytes(), b" HTTP/1.1\r\nHost: b\r\n\r\n"].concat();
            out.push(commands::read_line(&[], Form::Request(0), &input));
        }
        for path in [vec![octet], vec![b'*', octet], vec![octet, b'*']] {
            let plan = Plan { method: b"OPTIONS".to_vec(), path, ..request_plan() };
            out.push(commands::read_line(&[], Form::Binary, &plan.known()));
        }
    }
}

fn truncations(out: &mut Cases) {
    for input in [
        "POST http://a/s HTTP/1.1\r\nHost: b\r\nContent-Length: 3\r\n\r\nabc",
        "OPTIONS * HTTP/1.1\r\nHost: b\r\n\r\n",
        "OPTIONS hTTp://www.example.com:80 HTTP/1.1\r\nHost:\r\n\r\n",
        "GET https://a?b=c HTTP/1.1\r\nHost: b\r\nHost: b\r\n\r\n",
    ] {
        for scheme in [0, 1] {
            out.cuts(&[], Form::Request(scheme), input);
        }
    }
}

/// In Binary only `*` is new.
fn binary(out: &mut Cases) {
    for method in METHODS {
        for path in ["*", "*x", "**", "/", "/*", "http://a/", "http://a", "", "*#", "?"] {
            for scheme in ["http", "https"] {
                let plan = Plan { method: method.as_bytes().to_vec(), scheme: scheme.as_bytes().to_vec(), path: path.as_bytes().to_vec(), ..request_plan() };
                out.message(&[], Form::Binary, plan.known());
                out.message(&[], Form::Binary, plan.indeterminate());
            }
        }
    }
    for path in [vec![b'*'; 4_096], vec![b'*'; 4_097]] {
        out.message(&[], Form::Binary, Plan { method: b"OPTIONS".to_vec(), path, ..request_plan() }.known());
    }
    let whole = Plan { method: b"OPTIONS".to_vec(), path: b"*".to_vec(), ..request_plan() }.known();
    out.cuts(&[], Form::Binary, &whole);
}

/// Lists of calls and streams with each form.
fn streams(out: &mut Cases) {
    let options = hex(&Plan { method: b"OPTIONS".to_vec(), path: b"*".to_vec(), ..request_plan() }.known());
    let get = hex(&request_plan().known());
    for tail in ["GET http://a HTTP/1.1\r\nHost: b\r\n\r\n", "GET https://a HTTP/1.1\r\nHost: b\r\n\r\n", "OPTIONS * HTTP/1.1\r\nHost: b\r\n\r\n", "GET * HTTP/1.1\r\n"] {
        for scheme in [0, 1] {
            out.push(format!("stream {scheme} 500 {} {options} {get} {options}", hex(tail.as_bytes())));
        }
        out.push(format!("listing {}", hex(tail.repeat(3).as_bytes())));
    }
}
