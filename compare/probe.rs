//! `probe`: speaks the comparing protocol over the proved static library, through the C interface of include/ospirnar.h.
//!
//! Build: rustc -O -L native=target/staticlib -o target/compare/probe compare/probe.rs      (compare/build does it)
//! Run:   target/compare/probe < commands > answers       (--each: each answer is written out before the next command is read;
//!                                                         --trips: turnings are read back instead, see `trip`;
//!                                                         --nights CALLS: calls on one buffer and table, see `table::nights`)
//!
//! What it answers is built from the numbers the library left and from the input, and from nothing else. Beside the protocol's answers:
//!
//!   {"error":"altered"}    a refusal altered lent space, or an acceptance altered some behind what it used, or
//!                          with one element too few the call was not 13 at 0 that leaves all as it was
//!   {"error":"room"}       with exactly enough space, or a refusal with none, the call answered something else
//!   {"error":"range"}      a number that the header rules out: a part outside the input, a count above its size
//!   {"error":"closes"}     whether the sender of an HTTP/1.1 message means to close, which the protocol can't show, is not what its lines say

#[path = "probe/bundle.rs"]
mod bundle;
#[path = "probe/table.rs"]
mod table;

use std::io::{self, BufRead, BufReader, BufWriter, Write};

// ---------------------------------------------------------------------------------------- the library

mod entries {
    //! As in include/ospirnar.h, line for line.
    #[link(name = "capi", kind = "static")]
    extern "C" {
        pub fn ospirnar_read_request(input: *const u8, input_len: usize, scheme: u32, ranges: *mut u32, ranges_len: usize, place: *mut usize) -> u32;
        pub fn ospirnar_read_response(
            input: *const u8, input_len: usize, head: u32, closed: u32, ranges: *mut u32, ranges_len: usize, place: *mut usize,
        ) -> u32;
        pub fn ospirnar_read_binary(
            input: *const u8, input_len: usize, head: u32, edition: u32, ranges: *mut u32, ranges_len: usize, place: *mut usize,
        ) -> u32;
        pub fn ospirnar_request_to_binary(
            input: *const u8, input_len: usize, scheme: u32, out: *mut u8, out_len: usize, place: *mut usize, taken: *mut usize,
        ) -> u32;
        pub fn ospirnar_response_to_binary(
            input: *const u8, input_len: usize, head: u32, closed: u32, out: *mut u8, out_len: usize, place: *mut usize, taken: *mut usize,
        ) -> u32;
        pub fn ospirnar_binary_to_binary(
            input: *const u8, input_len: usize, head: u32, edition: u32, out: *mut u8, out_len: usize, place: *mut usize,
        ) -> u32;
        pub fn ospirnar_binary_to_http1(
            input: *const u8, input_len: usize, scheme: u32, head: u32, former: u32, edition: u32, out: *mut u8, out_len: usize, place: *mut usize,
        ) -> u32;
        pub fn ospirnar_request_field(
            input: *const u8, input_len: usize, scheme: u32, name: *const u8, name_len: usize, number: *mut u32, place: *mut usize, start: *mut usize, length: *mut usize,
        ) -> u32;
        pub fn ospirnar_response_field(
            input: *const u8, input_len: usize, head: u32, closed: u32, name: *const u8, name_len: usize, number: *mut u32, place: *mut usize, start: *mut usize, length: *mut usize,
        ) -> u32;
        pub fn ospirnar_binary_field(
            input: *const u8, input_len: usize, head: u32, edition: u32, name: *const u8, name_len: usize, number: *mut u32, place: *mut usize, start: *mut usize,
            length: *mut usize,
        ) -> u32;
        pub fn ospirnar_listing(input: *const u8, input_len: usize, output: *mut u8, output_len: usize, place: *mut usize) -> u32;
    }
}

const RANGES_MOST: usize = 2076;
const TOO_SMALL: Answer = Answer { number: 13, place: 0 };

/// The number a call returned, and what it left in *place.
#[derive(Clone, Copy, PartialEq, Debug)]
struct Answer {
    number: u32,
    place: usize,
}

/// A call with a place to write to, which shows as a number of no input if the call leaves it alone.
fn ask(call: impl FnOnce(*mut usize) -> u32) -> Answer {
    let mut place = 0xAAAA_AAAA_AAAA_AAAA;
    let number = call(&mut place);
    Answer { number, place }
}

/// What a field entry returned, and what it left in the four lent numbers.
struct Asked {
    found: u32,
    message: Answer,
    start: usize,
    len: usize,
}

/// A call with four numbers to write to, each between two that are not lent and stay as they were.
fn inquire(call: impl FnOnce(*mut u32, *mut usize, *mut usize, *mut usize) -> u32) -> Result<Asked, &'static str> {
    const FILL: usize = 0xAAAA_AAAA_AAAA_AAAA;
    let mut number = [FILL as u32; 3];
    let (mut place, mut start, mut len) = ([FILL; 3], [FILL; 3], [FILL; 3]);
    let found = call(&mut number[1], &mut place[1], &mut start[1], &mut len[1]);
    let kept = [place, start, len].iter().all(|lent| lent[0] == FILL && lent[2] == FILL);
    if !kept || number[0] != FILL as u32 || number[2] != FILL as u32 {
        return Err("altered");
    }
    Ok(Asked { found, message: Answer { number: number[1], place: place[1] }, start: start[1], len: len[1] })
}

fn read_request(input: &[u8], scheme: u32, ranges: &mut Lent<u32>) -> Answer {
    let (pointer, room) = ranges.lend();
    ask(|place| unsafe { entries::ospirnar_read_request(input.as_ptr(), input.len(), scheme, pointer, room, place) })
}

fn read_response(input: &[u8], told: Told, ranges: &mut Lent<u32>) -> Answer {
    let (pointer, room) = ranges.lend();
    ask(|place| unsafe { entries::ospirnar_read_response(input.as_ptr(), input.len(), told.head, told.closed, pointer, room, place) })
}

fn read_binary(input: &[u8], told: Told, ranges: &mut Lent<u32>) -> Answer {
    let (pointer, room) = ranges.lend();
    ask(|place| unsafe { entries::ospirnar_read_binary(input.as_ptr(), input.len(), told.head, told.edition, pointer, room, place) })
}

/// The answer of a turning off a stream, which says how many octets it took: those of the message that the reader takes off there, or none
/// where it is refused. Anything else shows as an answer of no call.
fn turn_off(read: impl FnOnce(&mut Lent<u32>) -> Answer, call: impl FnOnce(*mut usize, *mut usize) -> u32) -> Answer {
    let mut taken = 0xAAAA_AAAA_AAAA_AAAA;
    let answer = ask(|place| call(place, &mut taken));
    let length = if answer.number == 0 { read(&mut ranges(RANGES_MOST)).place } else { 0 };
    if taken == length { answer } else { Answer { number: u32::MAX, place: taken } }
}

fn request_to_binary(input: &[u8], scheme: u32, out: &mut Lent<u8>) -> Answer {
    let (pointer, room) = out.lend();
    turn_off(|ranges| read_request(input, scheme, ranges), |place, taken| unsafe {
        entries::ospirnar_request_to_binary(input.as_ptr(), input.len(), scheme, pointer, room, place, taken)
    })
}

fn response_to_binary(input: &[u8], told: Told, out: &mut Lent<u8>) -> Answer {
    let (pointer, room) = out.lend();
    turn_off(|ranges| read_response(input, told, ranges), |place, taken| unsafe {
        entries::ospirnar_response_to_binary(input.as_ptr(), input.len(), told.head, told.closed, pointer, room, place, taken)
    })
}

fn binary_to_binary(input: &[u8], told: Told, out: &mut Lent<u8>) -> Answer {
    let (pointer, room) = out.lend();
    ask(|place| unsafe { entries::ospirnar_binary_to_binary(input.as_ptr(), input.len(), told.head, told.edition, pointer, room, place) })
}

fn binary_to_http1(input: &[u8], scheme: u32, told: Told, out: &mut Lent<u8>) -> Answer {
    let (pointer, room) = out.lend();
    ask(|place| unsafe { entries::ospirnar_binary_to_http1(input.as_ptr(), input.len(), scheme, told.head, told.former, told.edition, pointer, room, place) })
}

fn request_field(input: &[u8], scheme: u32, name: &[u8]) -> Result<Asked, &'static str> {
    inquire(|n, p, s, l| unsafe { entries::ospirnar_request_field(input.as_ptr(), input.len(), scheme, name.as_ptr(), name.len(), n, p, s, l) })
}

fn response_field(input: &[u8], told: Told, name: &[u8]) -> Result<Asked, &'static str> {
    inquire(|n, p, s, l| unsafe {
        entries::ospirnar_response_field(input.as_ptr(), input.len(), told.head, told.closed, name.as_ptr(), name.len(), n, p, s, l)
    })
}

fn binary_field(input: &[u8], told: Told, name: &[u8]) -> Result<Asked, &'static str> {
    inquire(|n, p, s, l| unsafe { entries::ospirnar_binary_field(input.as_ptr(), input.len(), told.head, told.edition, name.as_ptr(), name.len(), n, p, s, l) })
}

fn listing(input: &[u8], output: &mut Lent<u8>) -> Answer {
    let (pointer, room) = output.lend();
    ask(|place| unsafe { entries::ospirnar_listing(input.as_ptr(), input.len(), pointer, room, place) })
}

// ---------------------------------------------------------------------------------------- lent space

/// Space for a call to write to: `room` elements that are lent and some behind them that are not, all filled before the call.
struct Lent<T> {
    all: Vec<T>,
    room: usize,
    fill: T,
}

impl<T: Copy + PartialEq> Lent<T> {
    fn new(room: usize, fill: T) -> Lent<T> {
        Lent { all: vec![fill; room + 32], room, fill }
    }
    fn lend(&mut self) -> (*mut T, usize) {
        (self.all.as_mut_ptr(), self.room)
    }
    fn kept_from(&self, used: usize) -> bool {
        self.all[used..].iter().all(|&element| element == self.fill)
    }
}

fn ranges(room: usize) -> Lent<u32> {
    Lent::new(room, 0xAAAA_AAAA)
}

fn output(room: usize) -> Lent<u8> {
    Lent::new(room, 0xAA)
}

/// An accepted call used the first `used` elements of `lent`: nothing behind them has changed, exactly so many are enough and do the
/// same, and one less is 13 at 0 and changes nothing.
fn judge_room<T: Copy + PartialEq>(lent: &Lent<T>, used: usize, answer: Answer, call: impl Fn(&mut Lent<T>) -> Answer) -> Result<(), &'static str> {
    if !lent.kept_from(used) {
        return Err("altered");
    }
    let mut exact = Lent::new(used, lent.fill);
    if call(&mut exact) != answer || exact.all[..used] != lent.all[..used] {
        return Err("room");
    }
    if !exact.kept_from(used) {
        return Err("altered");
    }
    if used > 0 {
        let mut small = Lent::new(used - 1, lent.fill);
        if call(&mut small) != TOO_SMALL || !small.kept_from(0) {
            return Err("altered");
        }
    }
    Ok(())
}

// ---------------------------------------------------------------------------------------- the ranges

/// A part of the input, inside it.
#[derive(Clone, Copy)]
struct Part {
    start: usize,
    len: usize,
}

impl Part {
    fn of<'a>(&self, input: &'a [u8]) -> &'a [u8] {
        &input[self.start..self.start + self.len]
    }
}

#[derive(Clone, Copy)]
struct Field {
    name: Part,
    value: Part,
}

struct Message {
    request: bool,
    scheme: u32,
    method: Part,
    authority: Part,
    path: Part,
    /// What is put before the octets of `path`.
    before: &'static [u8],
    status: u32,
    stated: Option<u64>,
    long: u32,
    closes: bool,
    info: Vec<(u32, Vec<Field>)>,
    headers: Vec<Field>,
    chunks: Vec<Part>,
    trailers: Vec<Field>,
}

/// Takes the numbers off one after the other.
struct Taker<'a> {
    ranges: &'a [u32],
    next: usize,
    input_len: usize,
}

impl<'a> Taker<'a> {
    fn number(&mut self) -> Result<u32, &'static str> {
        let number = *self.ranges.get(self.next).ok_or("range")?;
        self.next += 1;
        Ok(number)
    }
    fn number_up_to(&mut self, most: u32) -> Result<u32, &'static str> {
        self.number().and_then(|n| if n <= most { Ok(n) } else { Err("range") })
    }
    fn part(&mut self) -> Result<Part, &'static str> {
        let (start, len) = (self.number()? as u64, self.number()? as u64);
        if start + len > self.input_len as u64 {
            return Err("range");
        }
        Ok(Part { start: start as usize, len: len as usize })
    }
    fn parts(&mut self, count: u32) -> Result<Vec<Part>, &'static str> {
        (0..count).map(|_| self.part()).collect()
    }
    fn fields(&mut self, count: u32) -> Result<Vec<Field>, &'static str> {
        (0..count).map(|_| Ok(Field { name: self.part()?, value: self.part()? })).collect()
    }
}

/// The message that the ranges describe, and how many of them it took.
fn message(ranges: &[u32], input_len: usize) -> Result<(Message, usize), &'static str> {
    let mut taker = Taker { ranges, next: 0, input_len };
    let request = taker.number_up_to(1)? == 0;
    let scheme = taker.number_up_to(if request { 1 } else { 0 })?;
    let (method, authority, path) = (taker.part()?, taker.part()?, taker.part()?);
    if !request && ranges[2..8].iter().any(|&n| n != 0) {
        return Err("range");
    }
    let status = taker.number_up_to(if request { 0 } else { 599 })?;
    let info_count = taker.number_up_to(if request { 0 } else { 4 })?;
    let header_count = taker.number_up_to(64)?;
    let chunk_count = taker.number_up_to(256)?;
    let content = taker.number()? as usize;
    let trailer_count = taker.number_up_to(64)?;
    let before: &[u8] = [&b""[..], b"/", b"*"][taker.number_up_to(if request { 2 } else { 0 })? as usize];
    let is_stated = taker.number_up_to(if request { 0 } else { 1 })?;
    let length = taker.number()? as u64 | (taker.number()? as u64) << 32;
    if length > if is_stated == 1 { 999_999_999_999_999 } else { 0 } {
        return Err("range");
    }
    let stated = (is_stated == 1).then_some(length);
    let long = taker.number()?;
    let closes = taker.number_up_to(1)? == 1;
    let mut info_heads = Vec::new();
    for i in 0..4 {
        // those that are not there: 0 and 0
        let there = i < info_count;
        info_heads.push((taker.number_up_to(if there { 199 } else { 0 })?, taker.number_up_to(if there { 64 } else { 0 })?));
    }
    info_heads.truncate(info_count as usize);
    let mut info = Vec::new();
    for (status, count) in info_heads {
        info.push((status, taker.fields(count)?));
    }
    let headers = taker.fields(header_count)?;
    let chunks = taker.parts(chunk_count)?;
    let trailers = taker.fields(trailer_count)?;
    if chunks.iter().map(|chunk| chunk.len).sum::<usize>() != content {
        return Err("range");
    }
    Ok((Message { request, scheme, method, authority, path, before, status, stated, long, closes, info, headers, chunks, trailers }, taker.next))
}

// ---------------------------------------------------------------------------------------- the answers

fn hex(out: &mut String, octets: impl IntoIterator<Item = u8>) {
    out.push('"');
    for octet in octets {
        for digit in [octet >> 4, octet & 15] {
            out.push(b"0123456789abcdef"[digit as usize] as char);
        }
    }
    out.push('"');
}

fn list<T>(out: &mut String, items: &[T], mut push: impl FnMut(&mut String, &T)) {
    out.push('[');
    for (i, item) in items.iter().enumerate() {
        if i > 0 {
            out.push(',');
        }
        push(out, item);
    }
    out.push(']');
}

fn fields_hex(out: &mut String, input: &[u8], fields: &[Field]) {
    list(out, fields, |out, field| {
        out.push('[');
        hex(out, field.name.of(input).to_ascii_lowercase());
        out.push(',');
        hex(out, field.value.of(input).iter().copied());
        out.push(']');
    });
}

fn part_hex(out: &mut String, input: &[u8], part: Part) {
    hex(out, part.of(input).iter().copied());
}

fn meaning(out: &mut String, input: &[u8], m: &Message) {
    out.push('{');
    if m.request {
        out.push_str("\"authority\":");
        part_hex(out, input, m.authority);
        out.push(',');
    }
    out.push_str("\"content\":");
    hex(out, m.chunks.iter().flat_map(|chunk| chunk.of(input).iter().copied()));
    out.push_str(",\"headers\":");
    fields_hex(out, input, &m.headers);
    if m.request {
        out.push_str(",\"k\":\"req\",\"method\":");
        part_hex(out, input, m.method);
        out.push_str(",\"path\":");
        hex(out, m.before.iter().chain(m.path.of(input)).copied());
        out.push_str(",\"scheme\":\"");
        out.push_str(if m.scheme == 0 { "http" } else { "https" });
        out.push('"');
    } else {
        out.push_str(",\"info\":");
        list(out, &m.info, |out, (status, fields)| {
            out.push_str(&format!("[{status},"));
            fields_hex(out, input, fields);
            out.push(']');
        });
        out.push_str(",\"k\":\"resp\"");
        if let Some(length) = m.stated {
            out.push_str(&format!(",\"stated\":{length}"));
        }
        out.push_str(&format!(",\"status\":{}", m.status));
    }
    out.push_str(",\"trailers\":");
    fields_hex(out, input, &m.trailers);
    out.push('}');
}

fn part_numbers(out: &mut String, part: &Part) {
    out.push_str(&format!("[{},{}]", part.start, part.len));
}

fn field_numbers(out: &mut String, fields: &[Field]) {
    list(out, fields, |out, f| out.push_str(&format!("[{},{},{},{}]", f.name.start, f.name.len, f.value.start, f.value.len)));
}

fn numbers(out: &mut String, m: &Message) {
    out.push('{');
    if m.request {
        out.push_str("\"authority\":");
        part_numbers(out, &m.authority);
        if !m.before.is_empty() {
            out.push_str(",\"before\":");
            hex(out, m.before.iter().copied());
        }
        out.push(',');
    }
    out.push_str("\"chunks\":");
    list(out, &m.chunks, part_numbers);
    out.push_str(",\"headers\":");
    field_numbers(out, &m.headers);
    if m.request {
        out.push_str(",\"method\":");
        part_numbers(out, &m.method);
        out.push_str(",\"path\":");
        part_numbers(out, &m.path);
    } else {
        out.push_str(",\"info\":");
        list(out, &m.info, |out, (_, fields)| field_numbers(out, fields));
    }
    out.push_str(",\"trailers\":");
    field_numbers(out, &m.trailers);
    out.push('}');
}

fn refused(answer: Answer) -> String {
    format!("{{\"at\":{},\"n\":{}}}", answer.place, answer.number)
}

/// Whether an accepted message is HTTP/1.1: Binary begins with its framing, in any width, which is no octet of a method or version.
fn is_http1(input: &[u8]) -> bool {
    input.first().is_some_and(|&octet| octet.is_ascii_graphic() && octet != b'@')
}

/// Whether the final head of an accepted HTTP/1.1 message, behind so many others, has a Connection line with the member `close`.
fn says_close(input: &[u8], heads: usize) -> bool {
    let text: String = input.iter().map(|&octet| octet as char).collect();
    let head = text.splitn(heads + 2, "\r\n\r\n").nth(heads).unwrap_or("");
    head.split("\r\n").skip(1).filter_map(|line| line.split_once(':')).any(|(name, value)| {
        name.eq_ignore_ascii_case("connection") && value.split(',').any(|member| member.trim_matches([' ', '\t']).eq_ignore_ascii_case("close"))
    })
}

/// A reader's answer to `input`.
fn read(input: &[u8], call: impl Fn(&mut Lent<u32>) -> Answer) -> Result<String, &'static str> {
    let mut lent = ranges(RANGES_MOST);
    let answer = call(&mut lent);
    if answer.number != 0 {
        if !lent.kept_from(0) {
            return Err("altered");
        }
        // the reader's refusal goes before 13
        let mut none = ranges(0);
        if call(&mut none) != answer {
            return Err("room");
        }
        return if none.kept_from(0) { Ok(refused(answer)) } else { Err("altered") };
    }
    let (m, used) = message(&lent.all[..RANGES_MOST], input.len())?;
    if answer.place > input.len() {
        return Err("range");
    }
    if is_http1(input) && m.closes != says_close(input, m.info.len()) {
        return Err("closes");
    }
    judge_room(&lent, used, answer, call)?;
    let mut out = format!("{{\"len\":{},", answer.place);
    if m.long > 0 {
        out.push_str(&format!("\"long\":{},", m.long));
    }
    out.push_str("\"m\":");
    meaning(&mut out, input, &m);
    out.push_str(",\"n\":0,\"r\":");
    numbers(&mut out, &m);
    out.push('}');
    Ok(out)
}

/// What a call writes into `room` octets, or its refusal.
fn write(room: usize, call: impl Fn(&mut Lent<u8>) -> Answer) -> Result<Result<Vec<u8>, Answer>, &'static str> {
    let mut lent = output(room);
    let answer = call(&mut lent);
    if answer.number != 0 {
        return if lent.kept_from(0) { Ok(Err(answer)) } else { Err("altered") };
    }
    if answer.place > room {
        return Err("range");
    }
    judge_room(&lent, answer.place, answer, call)?;
    Ok(Ok(lent.all[..answer.place].to_vec()))
}

fn write_text(room: usize, call: impl Fn(&mut Lent<u8>) -> Answer) -> Result<String, &'static str> {
    let octets = match write(room, call)? {
        Ok(octets) => octets,
        Err(answer) => return Ok(refused(answer)),
    };
    let mut out = String::from("{\"text\":\"");
    for octet in octets {
        match octet {
            b'\n' => out.push_str("\\n"),
            b'"' | b'\\' => out.extend(['\\', octet as char]),
            0x20..=0x7e => out.push(octet as char),
            _ => out.push_str(&format!("\\u{octet:04x}")),
        }
    }
    out.push_str("\"}");
    Ok(out)
}

/// For the turnings.
fn write_hex(room: usize, call: impl Fn(&mut Lent<u8>) -> Answer) -> Result<String, &'static str> {
    let octets = match write(room, call)? {
        Ok(octets) => octets,
        Err(answer) => return Ok(refused(answer)),
    };
    let mut out = String::from("{\"n\":0,\"out\":");
    hex(&mut out, octets);
    out.push('}');
    Ok(out)
}

/// The field question's answer, on an input and a default of these lengths.
fn field(input: usize, default: usize, asked: Asked) -> Result<String, &'static str> {
    let Asked { found, message, start, len } = asked;
    let (from, len) = match found {
        1 if message == (Answer { number: 0, place: 0 }) && start <= input && len <= input - start => ("message", len),
        0 if start == 0 && len == 0 => ("default", default),
        _ => return Err("range"),
    };
    Ok(format!("{{\"at\":{},\"from\":\"{}\",\"len\":{},\"n\":{},\"start\":{}}}", message.place, from, len, message.number, start))
}

/// Calls of bin2h1 one behind the other in one space, and what the request reader takes off then, with `tail` behind.
fn stream(told: u32, room: usize, tail: &[u8], inputs: &[Vec<u8>]) -> Result<String, &'static str> {
    let mut space = output(room);
    let mut written = 0;
    let mut out = String::from("{\"calls\":");
    let mut calls = Vec::new();
    for input in inputs {
        let before = space.all.clone();
        let (pointer, left) = (space.all[written..].as_mut_ptr(), room - written);
        let answer = ask(|place| unsafe { entries::ospirnar_binary_to_http1(input.as_ptr(), input.len(), told, 0, 0, 0, pointer, left, place) });
        let used = if answer.number == 0 { answer.place } else { 0 };
        if used > left {
            return Err("range");
        }
        if space.all[..written] != before[..written] || space.all[written + used..] != before[written + used..] {
            return Err("altered");
        }
        written += used;
        calls.push(answer);
    }
    list(&mut out, &calls, |out, answer| match answer.number {
        0 => out.push_str(&format!("{{\"len\":{},\"n\":0}}", answer.place)),
        _ => out.push_str(&refused(*answer)),
    });
    let mut octets = space.all[..written].to_vec();
    octets.extend_from_slice(tail);
    let (mut at, mut taken) = (0, Vec::new());
    let end = loop {
        let mut lent = ranges(RANGES_MOST);
        let answer = read_request(&octets[at..], told, &mut lent);
        if answer.number != 0 {
            break answer;
        }
        if answer.place == 0 || answer.place > octets.len() - at {
            return Err("range");
        }
        let (m, _) = message(&lent.all[..RANGES_MOST], octets.len() - at)?;
        let mut text = format!("[{},", answer.place);
        meaning(&mut text, &octets[at..], &m);
        text.push(']');
        taken.push(text);
        at += answer.place;
    };
    out.push_str(&format!(",\"end\":{},\"out\":", refused(end)));
    hex(&mut out, octets[..written].iter().copied());
    out.push_str(&format!(",\"rest\":{},\"taken\":", octets.len() - at));
    list(&mut out, &taken, |out, text| out.push_str(text));
    out.push('}');
    Ok(out)
}

// ---------------------------------------------------------------------------------------- round trips

/// The meaning that a reader's answer has in it.
fn meaning_of(answer: &str) -> Option<&str> {
    let from = answer.find("\"m\":")? + 4;
    let to = answer.find(",\"n\":0,\"r\":")?;
    answer.get(from..to)
}

/// `--trips`: each turning that is accepted is read again by the reader of its form; the meaning is that of the input, and in HTTP/1.1
/// the length is what was written, with octets behind it too. Other commands are passed over.
fn trip(line: &[u8]) -> Option<Result<(), &'static str>> {
    let words: Vec<&[u8]> = line.split(|&b| b == b' ').collect();
    let (name, told, rest) = options(&words)?;
    let (connection, space, input) = match (name, rest) {
        (b"h1req2bin" | b"bin2h1", [told, space, input]) => (scheme(told)?, room(space)?, octets(input)?),
        (b"h1resp2bin" | b"bin2bin", [space, input]) => (0, room(space)?, octets(input)?),
        _ => return None,
    };
    let turn = |out: &mut Lent<u8>| match name {
        b"h1req2bin" => request_to_binary(&input, connection, out),
        b"h1resp2bin" => response_to_binary(&input, told, out),
        b"bin2h1" => binary_to_http1(&input, connection, told, out),
        _ => binary_to_binary(&input, told, out),
    };
    let source = |ranges: &mut Lent<u32>| match name {
        b"h1req2bin" => read_request(&input, connection, ranges),
        b"h1resp2bin" => read_response(&input, told, ranges),
        _ => read_binary(&input, told, ranges),
    };
    let written = match write(space, turn) {
        Ok(Ok(written)) => written,
        Ok(Err(_)) => return None,
        Err(error) => return Some(Err(error)),
    };
    // RFC 9292 is written, whatever edition was read
    let again = Told { edition: 0, ..told };
    Some((|| {
        let before = read(&input, source)?;
        let before = meaning_of(&before).ok_or("the input is not accepted")?;
        let mut behind = written.clone();
        if name == b"bin2h1" {
            behind.extend_from_slice(b"POST / HTTP/1.1\r\n\x00");
        }
        let request = before.contains("\"k\":\"req\"");
        for octets in [&written, &behind] {
            let back = match (name, request) {
                (b"bin2h1", true) => read(octets, |ranges| read_request(octets, connection, ranges))?,
                (b"bin2h1", false) => read(octets, |ranges| read_response(octets, told, ranges))?,
                _ => read(octets, |ranges| read_binary(octets, again, ranges))?,
            };
            if !back.starts_with(&format!("{{\"len\":{},", written.len())) {
                return Err("the length is another");
            }
            if back.contains("\"long\":") {
                return Err("an integer that was written is long");
            }
            if meaning_of(&back) != Some(before) {
                return Err("the meaning is another");
            }
        }
        // written anew, Binary stays as it is
        if name != b"bin2h1" && write(written.len(), |out| binary_to_binary(&written, again, out))? != Ok(written.clone()) {
            return Err("written anew it is another");
        }
        Ok(())
    })())
}

/// The trips of all command lines: how many kept the meaning, and the last line as the gate wants it.
fn trips() -> io::Result<bool> {
    let (mut passed, mut failed) = (0u64, 0u64);
    for line in io::stdin().lock().split(b'\n') {
        let line = line?;
        match trip(&line) {
            Some(Ok(())) => passed += 1,
            Some(Err(error)) => {
                failed += 1;
                if failed <= 10 {
                    println!("FAILED: {error}: {}", String::from_utf8_lossy(&line[..line.len().min(400)]));
                }
            }
            None => {}
        }
    }
    println!("{passed} passed, {failed} failed");
    Ok(failed == 0 && passed > 0)
}

// ---------------------------------------------------------------------------------------- the commands

fn octets(word: &[u8]) -> Option<Vec<u8>> {
    if word == b"-" {
        return Some(Vec::new());
    }
    if word.is_empty() || word.len() % 2 != 0 || !word.iter().all(|b| matches!(b, b'0'..=b'9' | b'a'..=b'f')) {
        return None;
    }
    let digit = |b: u8| if b <= b'9' { b - b'0' } else { b - b'a' + 10 };
    Some(word.chunks(2).map(|pair| digit(pair[0]) * 16 + digit(pair[1])).collect())
}

/// One or more digits; what passes `most` becomes `most`.
fn number(word: &[u8], most: u64) -> Option<u64> {
    if word.is_empty() || !word.iter().all(|b| b.is_ascii_digit()) {
        return None;
    }
    Some(word.iter().fold(0, |n: u64, &b| n.saturating_mul(10).saturating_add((b - b'0') as u64)).min(most))
}

/// The scheme told, any integer: one that does not fit 32 bits is told as one that is neither 0 nor 1.
fn scheme(word: &[u8]) -> Option<u32> {
    match word.strip_prefix(b"-") {
        None => number(word, u32::MAX as u64).map(|n| n as u32),
        Some(digits) => number(digits, 1).map(|n| if n == 0 { 0 } else { u32::MAX }),
    }
}

/// What a call is told beside a scheme.
#[derive(Clone, Copy, Default)]
struct Told {
    head: u32,
    closed: u32,
    former: u32,
    edition: u32,
}

/// A command, its options as told, and its other words: options stand directly behind the command, and only where it takes them.
fn options<'a, 'b>(words: &'b [&'a [u8]]) -> Option<(&'a [u8], Told, &'b [&'a [u8]])> {
    let name = words[0];
    let count = words[1..].iter().take_while(|word| word.contains(&b'=')).count();
    let (given, rest) = words[1..].split_at(count);
    let mut told = Told::default();
    for option in given {
        let at = option.iter().position(|&b| b == b'=')?;
        if &option[..at] == b"table" && table::takes_table(name) {
            continue; // it is no number: table.rs reads it
        }
        let value = number(&option[at + 1..], u64::MAX).filter(|&n| n <= u32::MAX as u64)? as u32;
        match (&option[..at], name) {
            (b"head", b"h1resp" | b"bin" | b"h1resp2bin" | b"bin2h1" | b"bin2bin" | b"field_h1resp" | b"field_bin") => told.head = value,
            (b"former", b"bin2h1") => told.former = value,
            (b"edition", b"bin" | b"bin2h1" | b"bin2bin" | b"field_bin") => told.edition = value,
            (b"closed", b"h1resp" | b"h1resp2bin" | b"field_h1resp") => told.closed = value,
            _ => return None,
        }
    }
    Some((name, told, rest))
}

/// The lent room; no message that is written comes near a mega-octet.
fn room(word: &[u8]) -> Option<usize> {
    number(word, 1 << 20).map(|n| n as usize)
}

/// More than any listing of such an input takes: the shortest message has 24 octets, the longest line 31.
fn listing_room(input: &[u8]) -> usize {
    256 + 2 * input.len()
}

/// The answer to one command line; None if it is no command.
///
/// To build one: declare its entry in `entries`, give it a safe function beside the others, and let its arm here return `read`,
/// `write_hex` or `field` of it. Then name it and its set in compare/run.
fn command(line: &[u8]) -> Option<Result<String, &'static str>> {
    let words: Vec<&[u8]> = line.split(|&b| b == b' ').collect();
    let (name, told, rest) = options(&words)?;
    Some(match (name, rest) {
        (b"h1req", [connection, input]) => {
            let (connection, input) = (scheme(connection)?, octets(input)?);
            read(&input, |ranges| read_request(&input, connection, ranges))
        }
        (b"h1resp", [input]) => {
            let input = octets(input)?;
            read(&input, |ranges| read_response(&input, told, ranges))
        }
        (b"listing", [input]) => {
            let input = octets(input)?;
            write_text(listing_room(&input), |output| listing(&input, output))
        }
        (b"bin", [input]) => {
            let input = octets(input)?;
            read(&input, |ranges| read_binary(&input, told, ranges))
        }
        (b"h1req2bin", [connection, space, input]) => {
            let (connection, space, input) = (scheme(connection)?, room(space)?, octets(input)?);
            write_hex(space, |out| request_to_binary(&input, connection, out))
        }
        (b"h1resp2bin", [space, input]) => {
            let (space, input) = (room(space)?, octets(input)?);
            write_hex(space, |out| response_to_binary(&input, told, out))
        }
        (b"bin2h1", [connection, space, input]) => {
            let (connection, space, input) = (scheme(connection)?, room(space)?, octets(input)?);
            write_hex(space, |out| binary_to_http1(&input, connection, told, out))
        }
        (b"bin2bin", [space, input]) => {
            let (space, input) = (room(space)?, octets(input)?);
            write_hex(space, |out| binary_to_binary(&input, told, out))
        }
        (b"stream", [connection, space, tail, inputs @ ..]) => {
            let (connection, space, tail) = (scheme(connection)?, room(space)?, octets(tail)?);
            let inputs = inputs.iter().map(|input| octets(input)).collect::<Option<Vec<_>>>()?;
            stream(connection, space, &tail, &inputs)
        }
        (b"field_h1req", [connection, name, default, input]) => {
            let (connection, name, default, input) = (scheme(connection)?, octets(name)?, octets(default)?, octets(input)?);
            request_field(&input, connection, &name).and_then(|asked| field(input.len(), default.len(), asked))
        }
        (b"field_h1resp", [name, default, input]) => {
            let (name, default, input) = (octets(name)?, octets(default)?, octets(input)?);
            response_field(&input, told, &name).and_then(|asked| field(input.len(), default.len(), asked))
        }
        (b"field_bin", [name, default, input]) => {
            let (name, default, input) = (octets(name)?, octets(default)?, octets(input)?);
            binary_field(&input, told, &name).and_then(|asked| field(input.len(), default.len(), asked))
        }
        (name, rest) if table::takes_table(name) => return table::command(name, &words[1..words.len() - rest.len()], rest),
        (name, rest) => return bundle::command(name, rest),
    })
}

/// One answer line, whatever comes. A fault of this program shows as an answer and ends nothing.
fn answer(line: &[u8]) -> String {
    let error = match std::panic::catch_unwind(|| command(line)) {
        Ok(Some(Ok(answer))) => return answer,
        Ok(Some(Err(error))) => error,
        Ok(None) => "bad command",
        Err(_) => "panic",
    };
    format!("{{\"error\":\"{error}\"}}")
}

/// `each`: every answer is written out at once, so that what was answered is known where the library ends the program.
fn serve(each: bool) -> io::Result<()> {
    let mut input = BufReader::with_capacity(1 << 18, io::stdin());
    let mut output = BufWriter::with_capacity(1 << 18, io::stdout());
    let mut line = Vec::new();
    loop {
        // No whole line at hand: let a waiting peer have what was answered before reading on.
        if each || !input.buffer().contains(&b'\n') {
            output.flush()?;
        }
        line.clear();
        if input.read_until(b'\n', &mut line)? == 0 {
            break;
        }
        if line.last() == Some(&b'\n') {
            line.pop();
        }
        output.write_all(answer(&line).as_bytes())?;
        output.write_all(b"\n")?;
    }
    output.flush()
}

fn main() {
    let arguments: Vec<String> = std::env::args().skip(1).collect();
    let each = arguments == ["--each"];
    if arguments == ["--trips"] {
        std::process::exit(if trips().unwrap_or(false) { 0 } else { 1 });
    }
    if let ["--nights", calls] = arguments.iter().map(String::as_str).collect::<Vec<_>>()[..] {
        std::process::exit(if table::nights(calls.parse().unwrap_or(0)) { 0 } else { 1 });
    }
    if !each && !arguments.is_empty() {
        eprintln!("usage: probe [--each | --trips] < commands > answers; probe --nights CALLS");
        std::process::exit(2);
    }
    if serve(each).is_err() {
        std::process::exit(1);
    }
}
