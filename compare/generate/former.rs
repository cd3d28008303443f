//! Cases of item 9: empty posts say so.

use crate::commands::{self, Turn};
use crate::fixed::*;
use crate::messages::{Maker, Manner};
use crate::reference::told::Told;
use crate::streams;
use crate::{hex, needed, turn_line};

// ---------------------------------------------------------------------------------------- random

/// Requests, most of them with empty content; now and then a list of calls.
pub fn case(maker: &mut Maker) -> String {
    if maker.random.chance(6) {
        return streams::case(maker);
    }
    let manner = Manner { calm: true, empty: !maker.random.chance(5), ..Manner::default() };
    let framing = [0, 0, 2, 2, 1][maker.random.below(5)];
    let input = maker.with(manner, |maker| maker.binary_input_of(framing));
    let options = [("former", [0, 1, 1, 2, 256][maker.random.below(5)])];
    let options = if maker.random.chance(3) { &[] } else { &options[..] };
    let told = Told::by(maker.items, options);
    let scheme = if needed(&told, Turn::BinaryToHttp1, 0, &input).is_some() { 0 } else { 1 };
    let room = commands::room(maker, needed(&told, Turn::BinaryToHttp1, scheme, &input));
    turn_line(options, Turn::BinaryToHttp1, scheme, room, &input)
}

// ---------------------------------------------------------------------------------------- fixed

/// Under each rule, in exactly the room needed, one less, and what the other rule needs.
fn each(out: &mut Cases, plan: &Plan) {
    for input in [plan.known(), plan.indeterminate()] {
        for number in [0, 1, 2, 256, 65_536, 4_294_967_295] {
            let options = [("former", number)];
            let size = needed(&Told::by(out.items, &options), Turn::BinaryToHttp1, 0, &input).unwrap_or(300);
            let rooms = if number < 2 { vec![size - 1, size, size + 19] } else { vec![size] };
            for room in rooms {
                out.push(turn_line(&options, Turn::BinaryToHttp1, 0, room, &input));
            }
        }
        out.push(turn_line(&[], Turn::BinaryToHttp1, 0, 9_000, &input));
    }
}

pub fn cases(out: &mut Cases) {
    for method in ["GET", "HEAD", "POST", "PUT", "DELETE", "OPTIONS", "get", "Get", "GETS", "GE", "head", "HEADS", "A", "PATCH"] {
        for chunks in [vec![], vec![b"c".to_vec()]] {
            for trailers in [vec![], vec![pair("te", "x")], vec![pair("t", "u")]] {
                for headers in [vec![], vec![pair("content-length", if chunks.is_empty() { "0" } else { "1" }), pair("b", "c")]] {
                    let plan = Plan { method: method.as_bytes().to_vec(), headers, chunks: chunks.clone(), trailers: trailers.clone(), ..request_plan() };
                    each(out, &plan);
                }
            }
        }
    }
    let post = Plan { method: b"POST".to_vec(), ..request_plan() };
    // the extra line counts toward 64 and 8,192: "POST / HTTP/1.1", "host: a", "content-length: 0", "b: ...", ""
    for lines in [61, 62, 63, 64] {
        for method in ["POST", "GET"] {
            each(out, &Plan { method: method.as_bytes().to_vec(), headers: empty_fields(lines), ..request_plan() });
        }
    }
    for total in [8_191, 8_192, 8_193] {
        for length in [0, 19] {
            each(out, &Plan { headers: vec![field("b", total - 17 - 9 - length - 5 - 2)], ..post.clone() });
        }
    }
    for status in [200, 204, 304] {
        each(out, &response_plan(&[status]));
    }
    // lists of calls, under the rule that now stands
    let (get, post) = (hex(&request_plan().known()), hex(&post.known()));
    for tail in ["-", "474554"] {
        for room in [0, 26, 27, 46, 47, 73, 74, 94, 120, 121, 500] {
            out.push(format!("stream 0 {room} {tail} {post} {get} {post}"));
        }
    }
    for line in ["bin2h1 former= 0 0 00", "bin2h1 former=4294967296 0 0 00", "bin former=1 00", "bin2bin former=1 0 00", "stream former=1 0 0 -"] {
        out.push(line.to_string());
    }
}
