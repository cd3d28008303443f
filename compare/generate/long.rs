//! Cases of item 8: who writes long integers?

use crate::bundles;
use crate::commands::{self, Form, Options};
use crate::fixed::*;
use crate::hex;
use crate::messages::{push_form, Maker, Manner};

// ---------------------------------------------------------------------------------------- random

pub fn case(maker: &mut Maker) -> String {
    let manner = Manner {
        calm: !maker.random.chance(6),
        draft: maker.random.chance(6),
        long_forms: !maker.random.chance(4),
        ..Manner::default()
    };
    let framing = maker.random.below(4) as u64;
    let input = maker.with(manner, |maker| maker.binary_input_of(framing));
    let options: Options = if manner.draft { &[("edition", 1)] } else { &[] };
    if maker.random.chance(4) {
        let bundle = bundles::bundle(maker, 20);
        let buffer = [&bundle[..], &vec![0; input.len() + 40]].concat();
        return format!("append {} {} {} {}", bundles::asked_flock(maker), bundle.len(), hex(&buffer), hex(&input));
    }
    commands::read_line(options, Form::Binary, &input)
}

// ---------------------------------------------------------------------------------------- fixed

/// Reading as either edition, and appending.
fn each(out: &mut Cases, input: &[u8]) {
    out.push(commands::read_line(&[], Form::Binary, input));
    out.push(commands::read_line(&[("edition", 1)], Form::Binary, input));
    out.push(format!("append 5 0 {} {}", "00".repeat(input.len() + 40), hex(input)));
}

/// The integers and the strings of a message, in order.
enum Piece {
    Number(u64),
    Text(&'static [u8]),
}
use self::Piece::*;

/// Messages with all parts there are, of indeterminate length.
fn pieces() -> Vec<Vec<Piece>> {
    let request = || vec![Number(3), Text(b"PUT"), Number(4), Text(b"http"), Number(1), Text(b"a"), Number(1), Text(b"/")];
    let fields = || vec![Number(1), Text(b"b"), Number(1), Text(b"c"), Number(2), Text(b"te"), Number(1), Text(b"x")];
    let open = |start: u64, control: Vec<Piece>| {
        let mut all = vec![Number(start)];
        all.extend(control);
        for part in [fields(), vec![Number(2), Text(b"de")], fields()] {
            all.extend(part);
            all.push(Number(0));
        }
        all
    };
    let early = || vec![Number(103), Number(1), Text(b"l"), Number(1), Text(b"m"), Number(0), Number(200)];
    vec![open(2, request()), open(3, early()), open(3, vec![Number(404)])]
}

/// Each integer in the form that `form` picks of its place and shortest form.
fn encode(pieces: &[Piece], form: impl Fn(usize, usize) -> usize) -> Vec<u8> {
    let mut out = Vec::new();
    let mut place = 0;
    for piece in pieces {
        match piece {
            Text(bytes) => out.extend_from_slice(bytes),
            Number(value) => {
                push_form(&mut out, *value, form(place, if *value < 64 { 0 } else { 1 }));
                place += 1;
            }
        }
    }
    out
}

pub fn cases(out: &mut Cases) {
    for pieces in pieces() {
        let count = pieces.iter().filter(|piece| matches!(piece, Number(_))).count();
        for form in 0..4 {
            // one of them long, all of them, all up to one
            for chosen in 0..count {
                each(out, &encode(&pieces, |place, short| if place == chosen { form.max(short) } else { short }));
                each(out, &encode(&pieces, |place, short| if place <= chosen { form.max(short) } else { short }));
            }
            let all = encode(&pieces, |_, short| form.max(short));
            for tail in [&[][..], &[0], &[0x40, 0], &[0; 9]] {
                each(out, &[&all[..], tail].concat());
            }
            out.cuts(&[], Form::Binary, &all);
        }
    }
    for input in bundles::long_ways() {
        each(out, &input);
    }
    edges(out);
    many(out);
}

/// Values at the ends of each form, as lengths of a value, in each form that holds them.
fn edges(out: &mut Cases) {
    for size in [0, 1, 62, 63, 64, 65, 16_383, 16_384] {
        for form in 0..4 {
            if (form == 0 && size > 63) || (form == 1 && size > 16_383) {
                continue;
            }
            let mut input = unhex("0340c80162");
            push_form(&mut input, size as u64, form);
            input.extend(vec![b'v'; size]);
            input.extend([0, 0, 0]);
            each(out, &input);
        }
    }
}

/// As many as a message can have: 64 lines in each section and 256 chunks.
fn many(out: &mut Cases) {
    let line = unhex("400162400163");
    let chunk = unhex("400164");
    for informational in [0, 4] {
        let mut input = unhex("4003");
        for _ in 0..informational {
            input.extend([unhex("80000064"), line.repeat(64), unhex("4000")].concat());
        }
        input.extend([unhex("800000c8"), line.repeat(64), unhex("4000"), chunk.repeat(256), unhex("4000"), line.repeat(64), unhex("4000")].concat());
        each(out, &input);
    }
}
