//! The reader of HTTP/1.1 requests and responses: the first message of a stream.

use super::items::Item;
use super::message::*;
use super::octets::*;
use super::target::{judge_target, Target};
use super::told::Told;

/// A line without its CRLF: input[start..end]; the next one begins at `next`.
struct Line {
    start: usize,
    end: usize,
    next: usize,
}

/// The line at `at`, whose allowance reaches up to (not including) place `allowed`.
fn take_line(input: &[u8], at: usize, allowed: usize) -> Result<Line, Refusal> {
    // "a line is judged once its LF is in. If what is left of its allowance is in and holds no LF, it is 8 at
    // the line; with fewer bytes, 1." With an allowance used up exactly that is 8 at once (R1).
    let left = allowed.saturating_sub(at);
    let rest = &input[at..];
    let seen = if rest.len() < left { rest } else { &rest[..left] };
    let lf = match seen.iter().position(|&b| b == LF) {
        Some(offset) => at + offset,
        None if rest.len() >= left => return refuse(SIZE, at),
        None => return refuse(MORE, input.len()),
    };
    // "Then its ending (2)": "The byte before must be CR; no other CR stands in it."
    if lf == at || input[lf - 1] != CR {
        return refuse(SYNTAX, at);
    }
    let end = lf - 1;
    if input[at..end].contains(&CR) {
        return refuse(SYNTAX, at);
    }
    Ok(Line { start: at, end, next: lf + 1 })
}

/// "Field line: name, `:`, value, nothing between name and colon."
fn field_line(input: &[u8], line: &Line) -> Result<Field, Refusal> {
    let colon = match input[line.start..line.end].iter().position(|&b| b == b':') {
        Some(offset) => line.start + offset,
        None => return refuse(SYNTAX, line.start),
    };
    let name = Span::new(line.start, colon);
    if !all_of(name.of(input), is_token) {
        return refuse(SYNTAX, line.start);
    }
    // "Space and tab are trimmed from the value's ends": leading blanks first (R6).
    let mut start = colon + 1;
    let mut end = line.end;
    while start < end && is_blank(input[start]) {
        start += 1;
    }
    while end > start && is_blank(input[end - 1]) {
        end -= 1;
    }
    let value = Span::new(start, end);
    // "A value may be empty, a name not."
    if !value.of(input).iter().all(|&b| is_value(b)) {
        return refuse(SYNTAX, line.start);
    }
    Ok(Field { line: line.start, name, value, lower: name.of(input).to_ascii_lowercase() })
}

/// Field lines up to and including the empty line; gives them and the place behind the empty line.
fn field_section(input: &[u8], start: usize, allowed: usize) -> Result<(Vec<Field>, usize), Refusal> {
    let mut fields = Vec::new();
    let mut at = start;
    loop {
        let line = take_line(input, at, allowed)?;
        if line.start == line.end {
            return Ok((fields, line.next));
        }
        // "the count (8), its syntax"
        if fields.len() == LINES_MOST {
            return refuse(SIZE, line.start);
        }
        fields.push(field_line(input, &line)?);
        at = line.next;
    }
}

/// How the content is framed.
enum Framing {
    Absent,
    Length(Field),
    Chunked,
    UntilClosed { closed: bool },
}

/// "At most one Content-Length line, ... At most one Transfer-Encoding line, its value `chunked` in any case of
/// letters. Never both (H)." Broken: 7 after the head.
fn framing(input: &[u8], fields: &[Field], after: usize) -> Result<Framing, Refusal> {
    let lengths = all_named(fields, "content-length");
    let codings = all_named(fields, "transfer-encoding");
    if lengths.len() > 1 || codings.len() > 1 || (!lengths.is_empty() && !codings.is_empty()) {
        return refuse(LENGTH, after);
    }
    if let Some(field) = lengths.first() {
        return match decimal(field.value.of(input)) {
            Some(_) => Ok(Framing::Length((*field).clone())),
            None => refuse(LENGTH, after),
        };
    }
    if let Some(field) = codings.first() {
        if !field.value.of(input).eq_ignore_ascii_case(b"chunked") {
            return refuse(LENGTH, after);
        }
        return Ok(Framing::Chunked);
    }
    Ok(Framing::Absent)
}

fn has_framing(fields: &[Field]) -> bool {
    fields.iter().any(|f| f.is("content-length") || f.is("transfer-encoding"))
}

/// Content and trailers behind a head that ends at `at`; gives chunks, kept trailers, the message's end.
fn body(input: &[u8], at: usize, framing: Framing) -> Result<(Vec<Span>, Vec<Field>, usize), Refusal> {
    match framing {
        Framing::Absent => Ok((Vec::new(), Vec::new(), at)),
        Framing::Length(field) => {
            // "then content size 8 at its line"
            let size = match decimal(field.value.of(input)) {
                Some(number) if number <= CONTENT_MOST as u128 => number as usize,
                _ => return refuse(SIZE, field.line),
            };
            if input.len() - at < size {
                return refuse(MORE, input.len());
            }
            Ok((one_chunk(at, size), Vec::new(), at + size))
        }
        Framing::Chunked => chunked(input, at),
        Framing::UntilClosed { closed } => until_closed(input, at, closed),
    }
}

/// Item 10: "takes all remaining bytes as content ...; the message is as long as the input"; "open it is 1, or 8 once more
/// than 32,768 content bytes are in; closed with more is 8; both 8s at the content's first byte".
fn until_closed(input: &[u8], at: usize, closed: bool) -> Result<(Vec<Span>, Vec<Field>, usize), Refusal> {
    let size = input.len() - at;
    if size > CONTENT_MOST {
        return refuse(SIZE, at);
    }
    if !closed {
        return refuse(MORE, input.len());
    }
    Ok((one_chunk(at, size), Vec::new(), input.len()))
}

fn chunked(input: &[u8], start: usize) -> Result<(Vec<Span>, Vec<Field>, usize), Refusal> {
    let mut chunks: Vec<Span> = Vec::new();
    let mut total: usize = 0;
    let mut at = start;
    loop {
        let line = take_line(input, at, at + CHUNK_LINE_MOST)?;
        let size = chunk_size(&input[line.start..line.end]);
        let size = match size {
            Some(size) => size,
            None => return refuse(SYNTAX, line.start),
        };
        at = line.next;
        // "Size zero ends the content; trailer lines and an empty line follow."
        if size == 0 {
            break;
        }
        // "then 257th or total too large 8"
        if chunks.len() == CHUNKS_MOST || size > (CONTENT_MOST - total) as u128 {
            return refuse(SIZE, line.start);
        }
        let size = size as usize;
        // "Data is judged when all of it, and a chunk's CRLF, is in." (R10)
        if input.len() - at < size + 2 {
            return refuse(MORE, input.len());
        }
        let end = at + size;
        if input[end] != CR || input[end + 1] != LF {
            return refuse(SYNTAX, end);
        }
        chunks.push(Span { start: at, len: size });
        total += size;
        at = end + 2;
    }
    let (fields, after) = field_section(input, at, at + TRAILER_PART_MOST)?;
    // "Trailer names are judged after the section."
    if has_refused_trailer(&fields) {
        return refuse(LENGTH, after);
    }
    Ok((chunks, keep_trailers(fields), after))
}

/// "A chunk line is hex digits (at least one), then nothing or `;` and value bytes, dropped (H)."
fn chunk_size(line: &[u8]) -> Option<u128> {
    let digits = line.iter().take_while(|b| b.is_ascii_hexdigit()).count();
    let rest = &line[digits..];
    if !rest.is_empty() && (rest[0] != b';' || !rest[1..].iter().all(|&b| is_value(b))) {
        return None;
    }
    hexadecimal(&line[..digits])
}

/// The first request of the stream. `scheme` None: another number was told.
pub fn read_request(input: &[u8], scheme: Option<Scheme>, told: &Told) -> Result<Message, Refusal> {
    // "any call told another number is 4 at 0, first"
    let scheme = match scheme {
        Some(scheme) => scheme,
        None => return refuse(UNSUPPORTED, 0),
    };

    let line = take_line(input, 0, HEADS_MOST)?;
    let (method, target) = request_line(input, &line, scheme, told)?;

    let (fields, after) = field_section(input, line.next, HEADS_MOST)?;

    // "After a head: 6, 7, then content size 8 at its line."
    let authority = authority_of(input, &target, &fields, after)?;
    let framing = framing(input, &fields, after)?;
    let (chunks, trailers, length) = body(input, after, framing)?;

    Ok(Message {
        length,
        control: Control::Request { method, scheme, authority, path: target.path, before: target.before },
        headers: keep_headers(input, fields, true, told.items),
        chunks,
        trailers,
        stated: None,
        long: 0,
    })
}

/// "Request line: shape 2 (exactly two spaces), version 3, method 2, 8, 4, path 4, 2, 8." All at the line.
fn request_line(input: &[u8], line: &Line, connection: Scheme, told: &Told) -> Result<(Span, Target), Refusal> {
    let spaces: Vec<usize> = (line.start..line.end).filter(|&i| input[i] == SP).collect();
    if spaces.len() != 2 {
        return refuse(SYNTAX, line.start);
    }
    let method = Span::new(line.start, spaces[0]);
    let target = Span::new(spaces[0] + 1, spaces[1]);
    let version = Span::new(spaces[1] + 1, line.end);
    if version.of(input) != b"HTTP/1.1" {
        return refuse(VERSION, line.start);
    }
    if let Some(number) = judge_method(method.of(input), told.items) {
        return refuse(number, line.start);
    }
    match judge_target(input, method.of(input), target, connection, told.items) {
        Ok(target) => Ok((method, target)),
        Err(number) => refuse(number, line.start),
    }
}

/// "Host stands exactly once in a request; it is the authority". Item 2, in absolute-form: "authority is the target's, Host
/// must stand once and is otherwise ignored".
fn authority_of(input: &[u8], target: &Target, fields: &[Field], after: usize) -> Result<Span, Refusal> {
    let hosts = all_named(fields, "host");
    if hosts.len() != 1 {
        return refuse(HOST, after);
    }
    match target.authority {
        Some(authority) => Ok(authority),
        None if good_host(hosts[0].value.of(input)) => Ok(hosts[0].value),
        None => refuse(HOST, after),
    }
}

/// The first response of the stream.
pub fn read_response(input: &[u8], told: &Told) -> Result<Message, Refusal> {
    let mut informational: Vec<Informational> = Vec::new();
    let mut at = 0;
    loop {
        // "all heads of one HTTP/1.1 message, empty lines included": one allowance for all of them.
        let line = take_line(input, at, HEADS_MOST)?;
        let status = status_line(input, &line)?;
        if let Some(number) = judge_status(status, informational.len()) {
            return refuse(number, line.start);
        }
        let (fields, after) = field_section(input, line.next, HEADS_MOST)?;
        at = after;

        if status < 200 {
            // "these and informational heads have neither (H)": judged right behind that head (R8).
            if has_framing(&fields) {
                return refuse(LENGTH, after);
            }
            informational.push(Informational { status, fields: keep_headers(input, fields, false, told.items) });
            continue;
        }

        let stated = stated_length(input, &fields, status, after, told)?;
        let framing = final_framing(input, &fields, status, after, told)?;
        let (chunks, trailers, length) = body(input, after, framing)?;
        return Ok(Message {
            length,
            control: Control::Response { informational, status },
            headers: keep_headers(input, fields, false, told.items),
            chunks,
            trailers,
            stated,
            long: 0,
        });
    }
}

/// Item 5: "A HEAD reply may announce chunked, which is dropped, or have neither line"; "Two length statements still
/// clash". A 304 that is not told HEAD has no Transfer-Encoding line, as in 01 (S24).
fn stated_length(input: &[u8], fields: &[Field], status: u64, after: usize, told: &Told) -> Result<Option<u64>, Refusal> {
    if !states_length(status, told) {
        return Ok(None);
    }
    match framing(input, fields, after)? {
        Framing::Absent => Ok(None),
        Framing::Length(field) => Ok(Some(stated_by(input, &field)?)),
        Framing::Chunked if told.head => Ok(None),
        _ => refuse(LENGTH, after),
    }
}

/// How the content of a final reply is framed.
fn final_framing(input: &[u8], fields: &[Field], status: u64, after: usize, told: &Told) -> Result<Framing, Refusal> {
    // "no content or trailers follow"
    if states_length(status, told) {
        return Ok(Framing::Absent);
    }
    // "A final response needs one (H), except 204 and 304; these ... have neither (H)."
    if status == 204 || status == 304 {
        if has_framing(fields) {
            return refuse(LENGTH, after);
        }
        return Ok(Framing::Absent);
    }
    match framing(input, fields, after)? {
        // Item 10: "this case leaves 7"
        Framing::Absent if told.has(Item::Closed) => Ok(Framing::UntilClosed { closed: told.closed }),
        Framing::Absent => refuse(LENGTH, after),
        framing => Ok(framing),
    }
}

/// "Status line: `HTTP/1.1`, space, three digits, space, reason": "2 (version ends at the first space), 3".
fn status_line(input: &[u8], line: &Line) -> Result<u64, Refusal> {
    let text = &input[line.start..line.end];
    let space = match text.iter().position(|&b| b == SP) {
        Some(offset) => offset,
        None => return refuse(SYNTAX, line.start),
    };
    let version = &text[..space];
    let rest = &text[space + 1..];
    if rest.len() < 4 || !rest[..3].iter().all(|b| b.is_ascii_digit()) || rest[3] != SP {
        return refuse(SYNTAX, line.start);
    }
    // "Reason bytes are those of a value."
    if !rest[4..].iter().all(|&b| is_value(b)) {
        return refuse(SYNTAX, line.start);
    }
    if version != b"HTTP/1.1" {
        return refuse(VERSION, line.start);
    }
    Ok(rest[..3].iter().fold(0, |n, &b| n * 10 + (b - b'0') as u64))
}
