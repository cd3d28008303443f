//! Cases of item 5: replies to HEAD and 304.

use crate::commands::{self, Form, Options};
use crate::fixed::*;
use crate::messages::{Maker, Manner};
use crate::reference::message::Scheme;
use crate::reference::told::Told;
use crate::reference::writing;

/// Numbers that say yes; those that would be 0 in a narrower type are among them.
const YES: [u64; 5] = [1, 2, 256, 65_536, 4_294_967_295];

// ---------------------------------------------------------------------------------------- random

pub fn case(maker: &mut Maker) -> String {
    let manner = Manner { calm: !maker.random.chance(4), answers_head: !maker.random.chance(3), ..Manner::default() };
    // Mostly told what the message is.
    let yes = manner.answers_head != maker.random.chance(8);
    let number = if yes { YES[maker.random.below(YES.len())] } else { 0 };
    let options = [("head", number)];
    let options: Options = if yes || maker.random.chance(2) { &options } else { &[] };
    let (form, input) = maker.with(manner, |maker| match maker.random.below(10) {
        0 => (Form::Request(0), maker.request_input()),
        1..=4 => (Form::Response, maker.response_input()),
        _ => {
            let framing = [1, 1, 3, 3, 0, 2][maker.random.below(6)];
            (Form::Binary, maker.binary_input_of(framing))
        }
    });
    commands::case(maker, options, form, &input)
}

// ---------------------------------------------------------------------------------------- fixed

const TOLD: [Options; 3] = [&[], &[("head", 0)], &[("head", 1)]];

pub fn cases(out: &mut Cases) {
    requests(out);
    replies(out);
    digits(out);
    binary(out);
    written(out);
    sizes(out);
    truncations(out);
    for number in YES {
        out.message(&[("head", number)], Form::Response, "HTTP/1.1 200 \r\nContent-Length: 5\r\n\r\n");
        out.message(&[("head", number)], Form::Binary, unhex("0140c8000000"));
    }
    for line in ["bin head= 00", "bin head=x 00", "bin head=4294967296 00", "bin 00 head=1", "h1req head=1 0 00", "listing head=1 00", "bin heads=1 00"] {
        out.push(line.to_string());
    }
}

fn requests(out: &mut Cases) {
    for method in ["HEAD", "head", "HEADS", "HEA", "CONNECT", "GET"] {
        for rest in ["\r\n", "Content-Length: 1\r\n\r\nx", "Transfer-Encoding: chunked\r\n\r\n1\r\na\r\n0\r\nt: u\r\n\r\n"] {
            out.request(format!("{method} /s HTTP/1.1\r\nHost: a\r\n{rest}"));
        }
        for chunks in [vec![], vec![b"c".to_vec()]] {
            let plan = Plan { method: method.as_bytes().to_vec(), chunks, ..request_plan() };
            for told in TOLD {
                out.message(told, Form::Binary, plan.known());
            }
        }
    }
}

/// Every class of status with either, both or neither length line, with bytes behind it that may look like its content.
fn replies(out: &mut Cases) {
    const LINES: [&str; 12] = [
        "", "Content-Length: 0\r\n", "Content-Length: 5\r\n", "Transfer-Encoding: chunked\r\n", "Transfer-Encoding: gzip\r\n",
        "Content-Length: 5\r\nTransfer-Encoding: chunked\r\n", "content-length: 5\r\ncontent-length: 5\r\n",
        "transfer-encoding: chunked\r\nTransfer-Encoding: chunked\r\n", "Content-Length: 5, 5\r\n", "Content-Length:\r\n",
        "Content-Length: 99999\r\n", "b: c\r\nConnection: content-length\r\nContent-Length: 7\r\n",
    ];
    for status in [100, 103, 200, 204, 205, 304, 404, 599] {
        for lines in LINES {
            for behind in ["", "abcde", "5\r\nabcde\r\n0\r\n\r\n", "HTTP/1.1 204 \r\n\r\n"] {
                let input = format!("HTTP/1.1 {status} \r\n{lines}\r\n{behind}");
                for told in [TOLD[0], TOLD[2]] {
                    out.message(told, Form::Response, &input);
                }
            }
        }
    }
}

/// 14 to 17 digits, behind zeros or not, in each place that states a length or does not.
fn digits(out: &mut Cases) {
    for count in [1, 14, 15, 16, 17, 40] {
        for zeros in [0, 1, 20] {
            for end in ["", "x"] {
                let value = format!("{}{}{end}", "0".repeat(zeros), "9".repeat(count));
                for status in [200, 304, 204, 103] {
                    let text = format!("HTTP/1.1 {status} \r\nb: c\r\nContent-Length: {value}\r\n\r\n");
                    let plan = Plan { headers: vec![pair("b", "c"), pair("content-length", &value)], ..response_plan(&[status]) };
                    for told in [TOLD[0], TOLD[2]] {
                        out.message(told, Form::Response, &text);
                        out.message(told, Form::Binary, plan.known());
                    }
                }
            }
        }
    }
    out.message(TOLD[2], Form::Response, format!("HTTP/1.1 200 \r\nContent-Length: {}\r\n\r\n", "0".repeat(50)));
}

fn binary(out: &mut Cases) {
    for status in [200, 204, 304, 404] {
        for lengths in [&[][..], &["0"], &["1"], &["x"], &["1", "1"], &["1000000000000000"]] {
            for content in [0, 1] {
                for trailer in ["", "b", "te", "host"] {
                    let mut plan = response_plan(&[status]);
                    plan.headers = lengths.iter().map(|length| pair("content-length", length)).collect();
                    plan.headers.push(pair("transfer-encoding", "gzip"));
                    plan.chunks = vec![b"c".to_vec(); content];
                    if !trailer.is_empty() {
                        plan.trailers.push(pair(trailer, "0"));
                    }
                    out.message(TOLD[0], Form::Binary, plan.known());
                    out.message(TOLD[2], Form::Binary, plan.known());
                    out.message(TOLD[2], Form::Binary, plan.indeterminate());
                }
            }
        }
        // the remark is of the final reply: an informational head with a length, and one without
        for early in [vec![], vec![pair("content-length", "5")]] {
            let plan = Plan { early, headers: vec![pair("content-length", "5")], ..response_plan(&[103, status]) };
            out.message(TOLD[0], Form::Binary, plan.known());
            out.message(TOLD[2], Form::Binary, plan.known());
        }
    }
}

/// What is written is read back: told the same, told the other, with bytes behind it.
fn written(out: &mut Cases) {
    for status in [200, 204, 304, 404] {
        for headers in [vec![], vec![pair("b", "c"), pair("content-length", "0042"), pair("d", "e")]] {
            let input = Plan { headers, ..response_plan(&[103, status]) }.known();
            for head in [0, 1] {
                let told = Told::by(out.items, &[("head", head)]);
                let Ok(http1) = writing::binary_to_http1(&input, Some(Scheme::Http), u128::MAX, &told) else { continue };
                let Ok(anew) = writing::binary_to_binary(&input, u128::MAX, &told) else { continue };
                for read in TOLD {
                    out.message(read, Form::Response, &http1);
                    out.message(read, Form::Response, [&http1[..], b"HTTP/1.1 204 \r\n\r\n"].concat());
                    out.message(read, Form::Binary, &anew);
                }
            }
        }
    }
}

/// The line that is put back counts toward 64, 8,192 and 65,535.
fn sizes(out: &mut Cases) {
    for lines in [62, 63, 64] {
        for length in [0, 1] {
            let mut headers = empty_fields(lines - length);
            headers.extend((0..length).map(|_| pair("content-length", "5")));
            for status in [200, 304] {
                out.message(TOLD[2], Form::Binary, Plan { headers: headers.clone(), ..response_plan(&[status]) }.known());
            }
        }
    }
    for total in [8_191, 8_192, 8_193] {
        // "HTTP/1.1 304 ", "content-length: 5", "b: ...", "" (the value's blank is ours)
        let headers = vec![field("b", total - 15 - 19 - 5 - 2), pair("content-length", "0005")];
        out.message(TOLD[2], Form::Binary, Plan { headers, ..response_plan(&[304]) }.known());
        let start = "HTTP/1.1 304 \r\nContent-Length: 5\r\nb:";
        out.message(TOLD[0], Form::Response, format!("{start}{}\r\n\r\n", "v".repeat(total - start.len() - 4)));
    }
    // written are 1 + 2 + 4 + 17 + (1 + 1 + 4 + v) + 1 + 1
    for total in [65_534, 65_535, 65_536] {
        let headers = vec![field("b", total - 15 - 17), pair("content-length", "5")];
        out.message(TOLD[2], Form::Binary, Plan { headers, ..response_plan(&[200]) }.indeterminate());
    }
}

fn truncations(out: &mut Cases) {
    for told in TOLD {
        for input in [
            "HTTP/1.1 103 \r\na: b\r\n\r\nHTTP/1.1 200 OK\r\nContent-Length: 3\r\nb: c\r\n\r\nabc",
            "HTTP/1.1 304 \r\ncontent-length: 0012\r\n\r\nHTTP/1.1",
            "HTTP/1.1 200 \r\nTransfer-Encoding: chunked\r\n\r\n1\r\na\r\n0\r\nt: u\r\n\r\n",
        ] {
            out.cuts(told, Form::Response, input);
        }
        let headers = vec![pair("b", "c"), pair("content-length", "0012")];
        for status in [200, 304] {
            let plan = Plan { headers: headers.clone(), trailers: vec![pair("te", "x")], ..response_plan(&[103, status]) };
            out.cuts(told, Form::Binary, plan.known());
            out.cuts(told, Form::Binary, plan.indeterminate());
        }
    }
}
