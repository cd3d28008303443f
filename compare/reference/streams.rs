//! "Streams under one scheme": a list of calls of the HTTP/1.1 writer in one room, and taking messages off a stream.

use super::http1;
use super::message::*;
use super::octets::*;
use super::told::Told;
use super::writing;

/// The calls' answers (the length written, or the refusal) and all that they wrote.
pub struct Written {
    pub calls: Vec<Result<usize, Refusal>>,
    pub octets: Vec<u8>,
}

/// "Demand 3's list of its calls starts with nothing written; each call gets the lent space behind what the calls
/// before it wrote"; "a refused call adds nothing".
pub fn write(inputs: &[Vec<u8>], connection: Option<Scheme>, room: u128, told: &Told) -> Written {
    let mut calls = Vec::new();
    let mut octets = Vec::new();
    for input in inputs {
        let left = room - octets.len() as u128;
        calls.push(match writing::binary_to_http1(input, connection, left, told) {
            Ok(out) => {
                octets.extend_from_slice(&out);
                Ok(out.len())
            }
            Err(refusal) => Err(refusal),
        });
    }
    Written { calls, octets }
}

/// The messages taken off, each with its place in the stream; the first answer that is not 0, its place counted from
/// the octets left; and how many are left there.
pub struct Taken {
    pub messages: Vec<(usize, Message)>,
    pub end: Refusal,
    pub rest: usize,
}

/// "To take off means: the request reader is called on the stream, then again behind each accepted message, up to the
/// first answer that is not 0." (No octet left is asked too: it is 1 at 0.)
pub fn take_off(stream: &[u8], scheme: Option<Scheme>, told: &Told) -> Taken {
    let mut messages = Vec::new();
    let mut start = 0;
    loop {
        match http1::read_request(&stream[start..], scheme, told) {
            Ok(message) => {
                let length = message.length;
                messages.push((start, message));
                start += length;
            }
            Err(end) => return Taken { messages, end, rest: stream.len() - start },
        }
    }
}
