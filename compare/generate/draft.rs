//! Cases of item 7: readers that speak the 2021 draft.

use crate::commands::{self, Form, Options};
use crate::fixed::*;
use crate::messages::{Maker, Manner};
use crate::reference::figures::*;

// ---------------------------------------------------------------------------------------- random

pub fn case(maker: &mut Maker) -> String {
    let manner = Manner {
        calm: !maker.random.chance(4),
        draft: !maker.random.chance(5),
        answers_head: maker.random.chance(8),
        ..Manner::default()
    };
    let framing = maker.random.below(4) as u64;
    let input = maker.with(manner, |maker| maker.binary_input_of(framing));
    // Mostly told what the message is.
    let edition = match maker.random.below(30) {
        0 => [2, 3, 255, 256, 257, 65_536, 4_294_967_295][maker.random.below(7)],
        1..=3 => !manner.draft as u64,
        _ => manner.draft as u64,
    };
    let mut options = vec![("edition", edition)];
    if manner.answers_head {
        options.push(("head", 1));
    }
    if maker.random.chance(8) {
        options.insert(0, ("former", 1));
    }
    commands::case(maker, &options, Form::Binary, &input)
}

// ---------------------------------------------------------------------------------------- fixed

const EDITIONS: [Options; 3] = [&[], &[("edition", 0)], &[("edition", 1)]];
const DRAFT: Options = EDITIONS[2];

pub fn cases(out: &mut Cases) {
    numbers(out);
    figures(out);
    empty_values(out);
    behind(out);
    missing(out);
    sizes(out);
    for line in ["bin edition= 00", "bin edition=-1 00", "bin edition=4294967296 00", "h1resp edition=1 00", "h1req2bin edition=1 0 0 00", "bundle edition=1 -"] {
        out.push(line.to_string());
    }
}

/// Another number is 17 at 0 before all else.
fn numbers(out: &mut Cases) {
    for edition in [0, 1, 2, 3, 17, 255, 256, 257, 65_536, 65_537, 4_294_967_295] {
        let options = [("edition", edition)];
        for input in [&unhex(P5)[..], &unhex(FIGURE_13), b"", b"\x04", &unhex("0140c8")] {
            out.message(&options, Form::Binary, input);
            for scheme in [1, 2, 4_294_967_295] {
                out.push(commands::turn_line(&options, commands::Turn::BinaryToHttp1, scheme, 0, input));
            }
        }
        out.push(commands::read_line(&options, Form::Binary, &vec![0; 65_536]));
    }
}

/// The draft's figures and the RFC's, cut anywhere.
fn figures(out: &mut Cases) {
    for figure in [FIGURE_8, FIGURE_9, FIGURE_13] {
        let input = unhex(figure);
        for edition in EDITIONS {
            out.message(edition, Form::Binary, &input);
        }
        out.cuts(DRAFT, Form::Binary, &input);
        out.cuts(EDITIONS[0], Form::Binary, &input);
    }
    out.message(DRAFT, Form::Binary, unhex(FIGURE_11));
}

/// An empty value in each section, alone, first and last, of a kept field and of one that is dropped or judged.
fn empty_values(out: &mut Cases) {
    for name in ["b", "te", "connection", "host", "content-length", "transfer-encoding"] {
        for fields in [vec![pair(name, "")], vec![pair("a", "b"), pair(name, "")], vec![pair(name, ""), pair("a", "b")], vec![pair(name, ""), pair(name, "")]] {
            for base in [request_plan(), response_plan(&[103, 200]), response_plan(&[304])] {
                let plans = [
                    Plan { headers: fields.clone(), ..base.clone() },
                    Plan { trailers: fields.clone(), ..base.clone() },
                    Plan { early: fields.clone(), ..base.clone() },
                ];
                for plan in plans {
                    for edition in [EDITIONS[0], DRAFT] {
                        out.push(commands::read_line(edition, Form::Binary, &plan.known()));
                        out.push(commands::read_line(edition, Form::Binary, &plan.indeterminate()));
                    }
                }
            }
        }
    }
    // it is judged once both halves are in, with the line's other bytes, and behind the count
    for text in ["0140c8020161", "0140c80101", "0140c803014100", "0140c80401610120", "0340c80161", "0340c8014100", "0340c80161400000"] {
        for edition in [EDITIONS[0], DRAFT] {
            out.push(commands::read_line(edition, Form::Binary, &unhex(text)));
        }
    }
    let sixty_four = Plan { headers: [vec![pair("b", "c"); 64], vec![pair("b", "")]].concat(), ..response_plan(&[200]) };
    out.message(DRAFT, Form::Binary, sixty_four.known());
    out.message(DRAFT, Form::Binary, sixty_four.indeterminate());
}

/// Bytes behind the trailers, zero or not, and zeros where content and trailers may stand.
fn behind(out: &mut Cases) {
    let full = Plan { headers: vec![pair("b", "c")], chunks: vec![b"d".to_vec()], trailers: vec![pair("t", "u")], ..request_plan() };
    for plan in [full, request_plan(), response_plan(&[200]), response_plan(&[103, 204])] {
        for whole in [plan.known(), plan.indeterminate()] {
            for cut in 0..3 {
                for tail in ["", "00", "0000", "000000", "00000000", "01", "0001", "000001", "40", "4000", "400000"] {
                    let input = [&whole[..whole.len() - cut], &unhex(tail)].concat();
                    for edition in [EDITIONS[0], DRAFT] {
                        out.message(edition, Form::Binary, &input);
                    }
                }
            }
        }
    }
}

/// Messages that end before a section, and inside of control data: every cut, with and without an authority.
fn missing(out: &mut Cases) {
    let mut plans = vec![request_plan(), Plan { authority: Vec::new(), ..request_plan() }, Plan { method: b"HEAD".to_vec(), ..request_plan() }];
    plans.extend([&[200][..], &[204], &[304], &[103, 200], &[100, 103, 404], &[102; 5]].map(response_plan));
    plans.push(Plan { early: vec![pair("a", "b")], headers: vec![pair("content-length", "1")], chunks: vec![b"c".to_vec()], ..response_plan(&[103, 200]) });
    for plan in plans {
        for whole in [plan.known(), plan.indeterminate()] {
            for end in 0..=whole.len() {
                for edition in [EDITIONS[0], DRAFT] {
                    out.message(edition, Form::Binary, &whole[..end]);
                }
                out.push(commands::read_line(&[("edition", 1), ("head", 1)], Form::Binary, &whole[..end]));
            }
        }
    }
}

/// The limits stand as in RFC 9292.
fn sizes(out: &mut Cases) {
    for total in [65_534, 65_535, 65_536] {
        let plan = Plan { headers: vec![field("b", total - 15)], ..response_plan(&[200]) };
        out.message(DRAFT, Form::Binary, plan.known());
        out.push(commands::read_line(DRAFT, Form::Binary, &plan.indeterminate()));
    }
    for lines in [63, 64, 65] {
        out.message(DRAFT, Form::Binary, Plan { headers: vec![pair("b", "c"); lines], ..request_plan() }.known());
    }
    for size in [32_768, 32_769] {
        out.push(commands::read_line(DRAFT, Form::Binary, &Plan { chunks: vec![vec![b'c'; size]], ..request_plan() }.known()));
    }
}
