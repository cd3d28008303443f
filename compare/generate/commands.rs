//! Command lines on one message: reading, turning, the field question; with the options that each of them takes.

use crate::fixed::Cases;
use crate::messages::Maker;
use crate::reference::message::Scheme;
use crate::reference::told::Told;
use crate::reference::writing;
use crate::{hex, scheme};

/// Options to be told, by name.
pub type Options<'a> = &'a [(&'static str, u64)];

/// The options that a command takes.
fn taken(command: &str) -> &'static [&'static str] {
    match command {
        "h1resp" | "h1resp2bin" | "field_h1resp" => &["head", "closed"],
        "bin" | "bin2bin" | "field_bin" => &["head", "edition"],
        "bin2h1" => &["head", "edition", "former"],
        _ => &[],
    }
}

/// A command line with those of the options that the command takes.
fn line(command: &str, options: Options, rest: &str) -> String {
    let words: String = options
        .iter()
        .filter(|(key, _)| taken(command).contains(key))
        .map(|(key, number)| format!("{key}={number} "))
        .collect();
    format!("{command} {words}{rest}")
}

/// The four forms of turning.
#[derive(Clone, Copy)]
pub enum Turn {
    RequestToBinary,
    ResponseToBinary,
    BinaryToHttp1,
    BinaryToBinary,
}

fn scheme_told(number: u64) -> Option<Scheme> {
    match number {
        0 => Some(Scheme::Http),
        1 => Some(Scheme::Https),
        _ => None,
    }
}

/// The size a turning would write, if it is not refused.
pub fn needed(told: &Told, turn: Turn, scheme: u64, input: &[u8]) -> Option<usize> {
    let most = u128::MAX;
    let scheme = scheme_told(scheme);
    let outcome = match turn {
        Turn::RequestToBinary => writing::http1_request_to_binary(input, scheme, most, told),
        Turn::ResponseToBinary => writing::http1_response_to_binary(input, most, told),
        Turn::BinaryToHttp1 => writing::binary_to_http1(input, scheme, most, told),
        Turn::BinaryToBinary => writing::binary_to_binary(input, most, told),
    };
    outcome.ok().map(|out| out.len())
}

pub fn turn_line(options: Options, turn: Turn, scheme: u64, room: usize, input: &[u8]) -> String {
    let (command, words) = match turn {
        Turn::RequestToBinary => ("h1req2bin", format!("{scheme} {room} ")),
        Turn::ResponseToBinary => ("h1resp2bin", format!("{room} ")),
        Turn::BinaryToHttp1 => ("bin2h1", format!("{scheme} {room} ")),
        Turn::BinaryToBinary => ("bin2bin", format!("{room} ")),
    };
    line(command, options, &(words + &hex(input)))
}

/// A room for what a call needs, mostly exact or next to it.
pub fn room(maker: &mut Maker, needed: Option<usize>) -> usize {
    let random = &mut maker.random;
    match needed {
        Some(size) => match random.below(10) {
            0 => 0,
            1 | 2 => size.saturating_sub(1),
            3 | 4 => size + 1,
            5 => size + random.below(300),
            6 => random.below(size),
            _ => size,
        },
        None => match random.below(3) {
            0 => 0,
            1 => random.below(200),
            _ => 1_000 + random.below(2_000),
        },
    }
}

/// The forms of a message; a request with the scheme number told.
#[derive(Clone, Copy)]
pub enum Form {
    Request(u64),
    Response,
    Binary,
}

pub fn read_line(options: Options, form: Form, input: &[u8]) -> String {
    match form {
        Form::Request(scheme) => line("h1req", options, &format!("{} {}", scheme, hex(input))),
        Form::Response => line("h1resp", options, &hex(input)),
        Form::Binary => line("bin", options, &hex(input)),
    }
}

pub fn field_line(options: Options, form: Form, name: &[u8], default: &[u8], input: &[u8]) -> String {
    let words = format!("{} {} {}", hex(name), hex(default), hex(input));
    match form {
        Form::Request(scheme) => line("field_h1req", options, &format!("{} {}", scheme, words)),
        Form::Response => line("field_h1resp", options, &words),
        Form::Binary => line("field_bin", options, &words),
    }
}

/// The turnings of a form, each with the scheme number told.
fn turns(form: Form, binary_scheme: u64) -> Vec<(Turn, u64)> {
    match form {
        Form::Request(scheme) => vec![(Turn::RequestToBinary, scheme)],
        Form::Response => vec![(Turn::ResponseToBinary, 0)],
        Form::Binary => vec![(Turn::BinaryToHttp1, binary_scheme), (Turn::BinaryToBinary, 0)],
    }
}

/// A scheme number to be told with a request: mostly its target's.
pub fn request_scheme(maker: &mut Maker, input: &[u8]) -> u64 {
    if maker.random.chance(8) {
        return scheme(&mut maker.random);
    }
    input.windows(8).take(48).any(|part| part.eq_ignore_ascii_case(b"https://")) as u64
}

/// A random command on a message of this form.
pub fn case(maker: &mut Maker, options: Options, form: Form, input: &[u8]) -> String {
    match maker.random.below(8) {
        0..=3 => read_line(options, form, input),
        4 => {
            let name = maker.common_name().as_bytes();
            field_line(options, form, name, b"de", input)
        }
        _ => {
            let told = Told::by(maker.items, options);
            let scheme = scheme(&mut maker.random);
            // 14 tells little: mostly tell the scheme that fits.
            let fits = |scheme| needed(&told, Turn::BinaryToHttp1, scheme, input).is_some();
            let scheme = if matches!(form, Form::Binary) && scheme < 2 && !fits(scheme) { 1 - scheme } else { scheme };
            let turns = turns(form, scheme);
            let (turn, scheme) = turns[maker.random.below(turns.len())];
            let room = room(maker, needed(&told, turn, scheme, input));
            turn_line(options, turn, scheme, room, input)
        }
    }
}

impl Cases {
    /// Reading, turning in exactly the room needed and one less, the question for the field `b`.
    pub fn message(&mut self, options: Options, form: Form, input: impl AsRef<[u8]>) {
        let input = input.as_ref();
        let told = Told::by(self.items, options);
        self.push(read_line(options, form, input));
        for (turn, scheme) in turns(form, 0) {
            let rooms = needed(&told, turn, scheme, input).map_or(vec![300], |size| vec![size.saturating_sub(1), size]);
            for room in rooms {
                self.push(turn_line(options, turn, scheme, room, input));
            }
        }
        self.push(field_line(options, form, b"b", b"de", input));
    }

    /// Reading every front of it.
    pub fn cuts(&mut self, options: Options, form: Form, input: impl AsRef<[u8]>) {
        let input = input.as_ref();
        for end in 0..=input.len() {
            self.push(read_line(options, form, &input[..end]));
        }
    }
}
