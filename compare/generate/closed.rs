//! Cases of item 10: replies that end when the line closes.

use crate::commands::{self, Form, Options};
use crate::fixed::*;
use crate::messages::{Maker, Manner};

// ---------------------------------------------------------------------------------------- random

/// About 32,768 bytes behind the head.
fn at_limit(maker: &mut Maker) -> String {
    let input = format!("HTTP/1.1 200 \r\nb: c\r\n\r\n{}", "x".repeat(maker.near(32_768)));
    let options = [("closed", maker.random.below(2) as u64)];
    commands::case(maker, &options, Form::Response, input.as_bytes())
}

pub fn case(maker: &mut Maker) -> String {
    if maker.random.chance(400) {
        return at_limit(maker);
    }
    let manner = Manner {
        calm: !maker.random.chance(5),
        answers_head: maker.random.chance(8),
        without_length: !maker.random.chance(4),
        ..Manner::default()
    };
    let input = maker.with(manner, Maker::response_input);
    let closed = [0, 1, 1, 1, 1, 256][maker.random.below(6)];
    let told = [("closed", closed), ("head", 1)];
    let options = if manner.answers_head { &told[..] } else { &told[..1] };
    commands::case(maker, options, Form::Response, &input)
}

// ---------------------------------------------------------------------------------------- fixed

const CLOSED: Options = &[("closed", 1)];
const TOLD: [Options; 4] = [&[], CLOSED, &[("head", 1)], &[("closed", 1), ("head", 1)]];

pub fn cases(out: &mut Cases) {
    for status in [100, 103, 200, 204, 205, 304, 404, 599] {
        for lines in [
            "", "b: c\r\n", "Content-Length: 3\r\n", "Transfer-Encoding: chunked\r\n", "Transfer-Encoding: gzip\r\n", "Content-Length: x\r\n",
            "Content-Length: 3\r\nTransfer-Encoding: chunked\r\n", "Connection: close\r\n",
        ] {
            for behind in ["", "ab", "abc", "abcd", "3\r\nabc\r\n0\r\n\r\n", "HTTP/1.1 204 \r\n\r\n", "HTTP/1.1 200 \r\n\r\n"] {
                let input = format!("HTTP/1.1 {status} \r\n{lines}\r\n{behind}");
                for told in TOLD {
                    out.message(told, Form::Response, &input);
                }
            }
        }
    }
    for number in [0, 1, 2, 256, 65_536, 4_294_967_295] {
        out.message(&[("closed", number)], Form::Response, "HTTP/1.1 200 \r\nb: c\r\n\r\nabc");
    }
    sizes(out);
    truncations(out);
    for line in ["h1resp closed= 00", "h1resp closed=4294967296 00", "bin closed=1 00", "h1req closed=1 0 00", "bin2h1 closed=1 0 0 00"] {
        out.push(line.to_string());
    }
}

fn sizes(out: &mut Cases) {
    for size in [0, 1, 63, 64, 16_383, 16_384, 32_767, 32_768, 32_769, 40_000] {
        for early in ["", "HTTP/1.1 103 \r\n\r\n"] {
            let input = format!("{early}HTTP/1.1 200 \r\n\r\n{}", "x".repeat(size));
            for told in [TOLD[0], CLOSED] {
                out.push(commands::read_line(told, Form::Response, input.as_bytes()));
            }
            if size < 32_770 && early.is_empty() {
                out.message(CLOSED, Form::Response, &input);
            }
        }
    }
    // the heads' allowance ends before the content
    for total in [8_191, 8_192, 8_193] {
        let head = format!("HTTP/1.1 200 \r\nb:{}\r\n\r\n", "v".repeat(total - 15 - 6));
        for told in [TOLD[0], CLOSED] {
            for behind in ["", "abc"] {
                out.message(told, Form::Response, format!("{head}{behind}"));
            }
        }
    }
    // written Binary above 65,535 can't come of it: the largest there is
    let head = format!("HTTP/1.1 200 \r\nb:{}\r\n\r\n", "v".repeat(8_192 - 15 - 6));
    out.message(CLOSED, Form::Response, format!("{head}{}", "x".repeat(32_768)));
}

fn truncations(out: &mut Cases) {
    for input in [
        "HTTP/1.1 103 \r\na: b\r\n\r\nHTTP/1.1 200 OK\r\nb: c\r\n\r\nabc\r\n0\r\n\r\n",
        "HTTP/1.1 200 OK\r\nContent-Length: 3\r\n\r\nabcd",
        "HTTP/1.1 200 OK\r\nTransfer-Encoding: chunked\r\n\r\n3\r\nabc\r\n0\r\nt: u\r\n\r\nx",
        "HTTP/1.1 304 \r\nContent-Length: 3\r\n\r\nabcd",
    ] {
        for told in TOLD {
            out.cuts(told, Form::Response, input);
        }
    }
}
