//! The reader of Binary HTTP, whose whole input is one message.

use super::message::*;
use super::octets::*;
use super::told::{Edition, Told};

#[derive(Clone, Copy, PartialEq, Eq, Debug)]
pub struct Integer {
    pub value: u64,
    /// The place behind it.
    pub next: usize,
    /// Item 8: "The integer reader must also say whether the form was the shortest".
    pub shortest: bool,
}

/// "the top two bits of the first byte give 1, 2, 4 or 8 bytes, the rest is the value, most significant first.
/// Long forms are taken." None if cut off by the end of `input`.
pub fn integer(input: &[u8], at: usize) -> Option<Integer> {
    if at >= input.len() {
        return None;
    }
    let size = 1usize << (input[at] >> 6);
    if input.len() - at < size {
        return None;
    }
    let mut value = (input[at] & 0x3f) as u64;
    for i in 1..size {
        value = value * 256 + input[at + i] as u64;
    }
    let shortest = match size {
        1 => true,
        2 => value >= 1 << 6,
        4 => value >= 1 << 14,
        _ => value >= 1 << 30,
    };
    Some(Integer { value, next: at + size, shortest })
}

/// "content-length stands at most once, one or more digits, ... and not in 204, 304 or informational heads":
/// 7 after the header section. Gives its line.
fn length_field(input: &[u8], fields: &[Field], none_may_stand: bool, after: usize) -> Result<Option<Field>, Refusal> {
    let lengths = all_named(fields, "content-length");
    if lengths.is_empty() {
        return Ok(None);
    }
    if lengths.len() > 1 || none_may_stand || decimal(lengths[0].value.of(input)).is_none() {
        return refuse(LENGTH, after);
    }
    Ok(Some(lengths[0].clone()))
}

/// The authority: of the control data where it is not empty, else of the one `host` field. 6 after the head.
fn authority_of(input: &[u8], control: Span, fields: &[Field], after: usize) -> Result<Span, Refusal> {
    let hosts = all_named(fields, "host");
    // "Host missing (in Binary, authority empty too), repeated, bad, over 255 or unequal"
    if hosts.len() > 1 {
        return refuse(HOST, after);
    }
    if let Some(host) = hosts.first() {
        if !good_host(host.value.of(input)) {
            return refuse(HOST, after);
        }
        if control.len != 0 && control.of(input) != host.value.of(input) {
            return refuse(HOST, after);
        }
        return Ok(if control.len != 0 { control } else { host.value });
    }
    if control.len == 0 {
        return refuse(HOST, after);
    }
    Ok(control)
}

/// A message being read, told all that its call is told.
struct Reader<'a> {
    input: &'a [u8],
    told: &'a Told,
    /// Item 8: how many integers of the message so far were not in their shortest form, "framing and terminators
    /// included, padding left out".
    long: usize,
}

/// Control data and the (final) header section, judged up to there.
struct Head {
    control: Control,
    fields: Vec<Field>,
    /// The place behind the section.
    after: usize,
}

impl<'a> Reader<'a> {
    /// An integer that ends before place `end`.
    fn integer(&mut self, at: usize, end: usize) -> Option<(u64, usize)> {
        let integer = integer(&self.input[..end], at)?;
        self.long += !integer.shortest as usize;
        Some((integer.value, integer.next))
    }

    /// `length` bytes at `at`; None if `end` stands before theirs.
    fn counted(&self, at: usize, length: u64, end: usize) -> Option<Span> {
        if length > (end - at) as u64 {
            return None;
        }
        Some(Span { start: at, len: length as usize })
    }

    /// A string behind its length, both before place `end`: the string and the place behind it.
    fn string(&mut self, part: usize, end: usize) -> Option<(Span, usize)> {
        let (length, at) = self.integer(part, end)?;
        let span = self.counted(at, length, end)?;
        Some((span, at + span.len))
    }

    /// A part of the message: "a length with what it counts is one part". "a length over a size is 8 before 9, 2 and 4".
    fn part(&mut self, part: usize, most: usize) -> Result<(Span, usize), Refusal> {
        let end = self.input.len();
        let Some((length, at)) = self.integer(part, end) else {
            return refuse(CUT, part);
        };
        if length > most as u64 {
            return refuse(SIZE, part);
        }
        match self.counted(at, length, end) {
            Some(span) => Ok((span, at + span.len)),
            None => refuse(CUT, part),
        }
    }

    /// The same where no size is set: only 9.
    fn unbounded_part(&mut self, part: usize) -> Result<(Span, usize), Refusal> {
        match self.string(part, self.input.len()) {
            Some(read) => Ok(read),
            None => refuse(CUT, part),
        }
    }

    /// A line's bytes, "once both halves are in": 2 at the line.
    fn judge_line(&self, line: usize, name: Span, value: Span) -> Result<Field, Refusal> {
        // "Names are lower-case tokens and never begin with a colon (H)": a colon is in no token.
        let bytes = name.of(self.input);
        if !all_of(bytes, is_lower_token) || !self.good_value(value.of(self.input)) {
            return refuse(SYNTAX, line);
        }
        Ok(Field { line, name, value, lower: bytes.to_vec() })
    }

    /// "Values are as above, with no space or tab at an end."
    fn good_value(&self, bytes: &[u8]) -> bool {
        match (bytes.first(), bytes.last()) {
            (Some(&first), Some(&last)) => !is_blank(first) && !is_blank(last) && bytes.iter().all(|&b| is_value(b)),
            _ => self.told.edition.takes_empty_values(),
        }
    }

    /// "A known-length section's body is handed on by itself: its lines fill it exactly." `part` is the section's length.
    fn known_section(&mut self, part: usize) -> Result<(Vec<Field>, usize), Refusal> {
        let (body, end) = self.unbounded_part(part)?;
        let mut fields = Vec::new();
        let mut line = body.start;
        while line < end {
            // "a 65th line is 8 before it is read"
            if fields.len() == LINES_MOST {
                return refuse(SIZE, line);
            }
            // "known-length line crosses its section, or name length 0": 11 at the line
            let Some((name, at_value)) = self.string(line, end).filter(|(name, _)| name.len > 0) else {
                return refuse(CROSSES, line);
            };
            let Some((value, next)) = self.string(at_value, end) else {
                return refuse(CROSSES, line);
            };
            fields.push(self.judge_line(line, name, value)?);
            line = next;
        }
        Ok((fields, end))
    }

    /// "An indeterminate section ends at a zero name length".
    fn indeterminate_section(&mut self, start: usize) -> Result<(Vec<Field>, usize), Refusal> {
        let end = self.input.len();
        let mut fields = Vec::new();
        let mut line = start;
        loop {
            // "but an indeterminate section's name length is read first (9 if cut, zero ends it)"
            let Some((name_length, at_name)) = self.integer(line, end) else {
                return refuse(CUT, line);
            };
            if name_length == 0 {
                return Ok((fields, at_name));
            }
            if fields.len() == LINES_MOST {
                return refuse(SIZE, line);
            }
            let Some(name) = self.counted(at_name, name_length, end) else {
                return refuse(CUT, line);
            };
            // The value's length with the value is a part of its own (R14).
            let (value, next) = self.unbounded_part(at_name + name.len)?;
            fields.push(self.judge_line(line, name, value)?);
            line = next;
        }
    }

    fn section(&mut self, at: usize, known: bool) -> Result<(Vec<Field>, usize), Refusal> {
        if known {
            self.known_section(at)
        } else {
            self.indeterminate_section(at)
        }
    }

    /// The final header section. Item 7: in the draft "a message may also end before the final header section": it is
    /// empty then, and its rules are judged (S37).
    fn final_section(&mut self, at: usize, known: bool) -> Result<(Vec<Field>, usize), Refusal> {
        if at == self.input.len() && self.told.edition.may_end_before_header() {
            return Ok((Vec::new(), at));
        }
        self.section(at, known)
    }

    /// The non-empty chunks and the place behind the content.
    fn content(&mut self, start: usize, known: bool) -> Result<(Vec<Span>, usize), Refusal> {
        if known {
            let (span, after) = self.part(start, CONTENT_MOST)?;
            return Ok((one_chunk(span.start, span.len), after));
        }
        let mut chunks: Vec<Span> = Vec::new();
        let mut total: usize = 0;
        let mut at = start;
        loop {
            // "a chunk length likewise [read first, 9 if cut, zero ends], then 257th or total 8, then 9"
            let part = at;
            let Some((length, at_data)) = self.integer(part, self.input.len()) else {
                return refuse(CUT, part);
            };
            if length == 0 {
                return Ok((chunks, at_data));
            }
            if chunks.len() == CHUNKS_MOST || length > (CONTENT_MOST - total) as u64 {
                return refuse(SIZE, part);
            }
            let Some(span) = self.counted(at_data, length, self.input.len()) else {
                return refuse(CUT, part);
            };
            total += span.len;
            at = at_data + span.len;
            chunks.push(span);
        }
    }

    /// "each control part judged as in a start line before the next is read"
    fn request_head(&mut self, start: usize, known: bool) -> Result<Head, Refusal> {
        let input = self.input;
        let mut at = start;
        let (method, next) = self.part(at, METHOD_MOST)?;
        if let Some(number) = judge_method(method.of(input), self.told.items) {
            return refuse(number, at);
        }
        at = next;

        let (scheme, next) = self.unbounded_part(at)?;
        let scheme = match scheme.of(input) {
            b"http" => Scheme::Http,
            b"https" => Scheme::Https,
            _ => return refuse(UNSUPPORTED, at),
        };
        at = next;

        let (stated, next) = self.part(at, AUTHORITY_MOST)?;
        if !stated.of(input).iter().all(|&b| is_authority(b)) {
            return refuse(SYNTAX, at);
        }
        at = next;

        let (path, next) = self.part(at, PATH_MOST)?;
        if let Some(number) = judge_path(method.of(input), path.of(input), self.told.items) {
            return refuse(number, at);
        }

        let (fields, after) = self.final_section(next, known)?;
        // "after the header 6 then 7"
        let authority = authority_of(input, stated, &fields, after)?;
        Ok(Head { control: Control::Request { method, scheme, authority, path, before: "" }, fields, after })
    }

    fn response_head(&mut self, start: usize, known: bool) -> Result<Head, Refusal> {
        let mut informational: Vec<Informational> = Vec::new();
        let mut at = start;
        loop {
            let Some((status, next)) = self.integer(at, self.input.len()) else {
                return refuse(CUT, at);
            };
            if let Some(number) = judge_status(status, informational.len()) {
                return refuse(number, at);
            }
            if status >= 200 {
                let (fields, after) = self.final_section(next, known)?;
                return Ok(Head { control: Control::Response { informational, status }, fields, after });
            }
            let (fields, after) = self.section(next, known)?;
            length_field(self.input, &fields, true, after)?;
            informational.push(Informational { status, fields: keep_headers(self.input, fields, false, self.told.items) });
            at = after;
        }
    }

    /// What follows the header section.
    fn rest(&mut self, head: Head, known: bool) -> Result<Message, Refusal> {
        let Head { control, fields, after } = head;
        let input = self.input;
        let mut at = after;
        let (request, states, bodiless) = match &control {
            Control::Request { .. } => (true, false, false),
            Control::Response { status, .. } => {
                let states = states_length(*status, self.told);
                (false, states, states || *status == 204 || *status == 304)
            }
        };
        // The number that the content is held against, and item 5's stated length: never both.
        let (mut length, mut stated) = (None, None);
        if let Some(field) = length_field(input, &fields, bodiless && !states, at)? {
            if states {
                stated = Some(stated_by(input, &field)?);
            } else {
                length = decimal(field.value.of(input));
            }
        }

        // "The message may end after the header section or after the content; missing parts are empty."
        let mut chunks = Vec::new();
        if at < input.len() {
            (chunks, at) = self.content(at, known)?;
        }
        let total: usize = chunks.iter().map(|c| c.len).sum();
        // "content-length against content, and 204/304 content, after the content"
        if length.is_some_and(|number| number != total as u128) || (bodiless && total > 0) {
            return refuse(LENGTH, at);
        }

        let mut trailers = Vec::new();
        if at < input.len() {
            (trailers, at) = self.section(at, known)?;
        }
        // "trailers after theirs"
        if has_refused_trailer(&trailers) {
            return refuse(LENGTH, at);
        }
        let trailers = keep_trailers(trailers);
        // "A 204 or 304 has neither content nor kept trailers."; item 5: "7 where 204's are"
        if bodiless && !trailers.is_empty() {
            return refuse(LENGTH, at);
        }

        // "padding last": "that byte"
        if let Some(offset) = input[at..].iter().position(|&b| b != 0 || !self.told.edition.takes_padding()) {
            return refuse(PADDING, at + offset);
        }
        Ok(Message {
            length: input.len(),
            control,
            headers: keep_headers(input, fields, request, self.told.items),
            chunks,
            trailers,
            stated,
            long: self.long,
        })
    }
}

/// Item 7: "another edition number is 17 at 0, before all else".
pub fn judge_edition(told: &Told) -> Result<(), Refusal> {
    if told.edition == Edition::Another {
        return refuse(EDITION, 0);
    }
    Ok(())
}

pub fn read(input: &[u8], told: &Told) -> Result<Message, Refusal> {
    judge_edition(told)?;
    // "input size 8 at 0 first"
    if input.len() > BINARY_MOST {
        return refuse(SIZE, 0);
    }
    let mut reader = Reader { input, told, long: 0 };
    let Some((framing, at)) = reader.integer(0, input.len()) else {
        return refuse(CUT, 0);
    };
    if framing > 3 {
        return refuse(FRAMING, 0);
    }
    let known = framing == 0 || framing == 1;
    let head = if framing == 0 || framing == 2 { reader.request_head(at, known)? } else { reader.response_head(at, known)? };
    reader.rest(head, known)
}
