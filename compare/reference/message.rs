//! A message as a reader hands it out: its length and ranges into the input; and "Fields that do not travel".

use super::items::*;
use super::octets::*;
use super::told::Told;

#[derive(Clone, Copy, PartialEq, Eq, Debug)]
pub struct Span {
    pub start: usize,
    pub len: usize,
}

impl Span {
    pub fn new(start: usize, end: usize) -> Span {
        Span { start, len: end - start }
    }
    pub fn of<'a>(&self, input: &'a [u8]) -> &'a [u8] {
        &input[self.start..self.start + self.len]
    }
}

/// A field line that has been judged: where the line starts, its name's and its value's range.
#[derive(Clone, Debug)]
pub struct Field {
    pub line: usize,
    pub name: Span,
    pub value: Span,
    /// The name in lower case.
    pub lower: Vec<u8>,
}

impl Field {
    pub fn is(&self, name: &str) -> bool {
        self.lower == name.as_bytes()
    }
}

pub fn all_named<'a>(fields: &'a [Field], name: &str) -> Vec<&'a Field> {
    fields.iter().filter(|f| f.is(name)).collect()
}

#[derive(Clone, Copy, PartialEq, Eq, Debug)]
pub enum Scheme {
    Http,
    Https,
}

impl Scheme {
    pub fn text(&self) -> &'static str {
        match self {
            Scheme::Http => "http",
            Scheme::Https => "https",
        }
    }
}

#[derive(Clone, Debug)]
pub struct Informational {
    pub status: u64,
    /// Kept fields only.
    pub fields: Vec<Field>,
}

#[derive(Clone, Debug)]
pub enum Control {
    /// `before` is what item 2 puts before the bytes of the path's range.
    Request { method: Span, scheme: Scheme, authority: Span, path: Span, before: &'static str },
    Response { informational: Vec<Informational>, status: u64 },
}

#[derive(Clone, Debug)]
pub struct Message {
    pub length: usize,
    pub control: Control,
    /// Kept fields only.
    pub headers: Vec<Field>,
    /// The non-empty chunks of the content.
    pub chunks: Vec<Span>,
    /// Kept fields only.
    pub trailers: Vec<Field>,
    /// Item 5: "A message record gains a stated length, which may be missing."
    pub stated: Option<u64>,
    /// Item 8: how many of its integers were not in their shortest form; 0 in HTTP/1.1.
    pub long: usize,
}

/// The whole path.
pub fn whole_path(input: &[u8], before: &str, path: Span) -> Vec<u8> {
    [before.as_bytes(), path.of(input)].concat()
}

/// A content in one piece: one chunk, or none where it is empty.
pub fn one_chunk(start: usize, len: usize) -> Vec<Span> {
    if len == 0 {
        return Vec::new();
    }
    vec![Span { start, len }]
}

/// Item 5: "For a HEAD's final reply and for 304, Content-Length fills [the stated length] ... no content or trailers
/// follow". A 204 has no length line, told HEAD or not (S23).
pub fn states_length(status: u64, told: &Told) -> bool {
    told.has(Item::Head) && status >= 200 && status != 204 && (status == 304 || told.head)
}

/// The stated length of a field that is digits: "more than 15 digits is 8 at its line after the head's 7".
pub fn stated_by(input: &[u8], field: &Field) -> Result<u64, Refusal> {
    let digits = field.value.of(input);
    match decimal(digits) {
        Some(number) if within_stated_digits(digits) => Ok(number as u64),
        _ => refuse(SIZE, field.line),
    }
}

impl Message {
    pub fn content_length(&self) -> usize {
        self.chunks.iter().map(|c| c.len).sum()
    }
    pub fn content(&self, input: &[u8]) -> Vec<u8> {
        let mut all = Vec::new();
        for chunk in &self.chunks {
            all.extend_from_slice(chunk.of(input));
        }
        all
    }
}

/// "In both forms these are dropped after they are judged: connection, keep-alive, proxy-connection, te,
/// transfer-encoding, upgrade, content-length, and host in requests."
///
/// Item 3: "in both forms drop from the same header section each field that a Connection value names".
pub fn keep_headers(input: &[u8], fields: Vec<Field>, request: bool, items: Items) -> Vec<Field> {
    let dropped = [
        "connection",
        "keep-alive",
        "proxy-connection",
        "te",
        "transfer-encoding",
        "upgrade",
        "content-length",
    ];
    let named = if items.has(Item::Connection) { connection_members(input, &fields) } else { Vec::new() };
    fields
        .into_iter()
        .filter(|f| !dropped.iter().any(|name| f.is(name)) && !(request && f.is("host")) && !named.contains(&f.lower))
        .collect()
}

/// What the Connection lines of a section name: "comma list, space and tab trimmed, compared in lower case. Members that are
/// no tokens name nothing." Every comma splits, quotes protect nothing (S20).
fn connection_members(input: &[u8], fields: &[Field]) -> Vec<Vec<u8>> {
    let mut members = Vec::new();
    for field in all_named(fields, "connection") {
        for member in field.value.of(input).split(|&b| b == b',') {
            let member = trimmed(member);
            if all_of(member, is_token) {
                members.push(member.to_ascii_lowercase());
            }
        }
    }
    members
}

/// Without the spaces and tabs at its ends.
fn trimmed(bytes: &[u8]) -> &[u8] {
    let start = bytes.iter().take_while(|&&b| is_blank(b)).count();
    let end = bytes.iter().rev().take_while(|&&b| is_blank(b)).count();
    &bytes[start..bytes.len().max(start + end) - end]
}

/// "In trailers content-length, transfer-encoding and host are refused".
pub fn has_refused_trailer(fields: &[Field]) -> bool {
    fields.iter().any(|f| f.is("content-length") || f.is("transfer-encoding") || f.is("host"))
}

/// "the others named are dropped": connection, keep-alive, proxy-connection, te, upgrade.
pub fn keep_trailers(fields: Vec<Field>) -> Vec<Field> {
    let dropped = ["connection", "keep-alive", "proxy-connection", "te", "upgrade"];
    fields.into_iter().filter(|f| !dropped.iter().any(|name| f.is(name))).collect()
}

/// "the first kept header value of that name (of the final head in a response)".
pub fn first_header(message: &Message, name: &[u8]) -> Option<Span> {
    message.headers.iter().find(|f| f.lower == name).map(|f| f.value)
}
