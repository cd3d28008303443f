//! The answers, in JSON: compact, keys sorted.

use crate::reference::bundle::{Appended, Entry};
use crate::reference::items::*;
use crate::reference::message::*;
use crate::reference::octets::*;
use crate::reference::salvage::Salvaged;
use crate::reference::steps::Walked;
use crate::reference::streams;
use crate::reference::table::{Record, Table};
use crate::reference::told::Told;

fn push_hex(out: &mut String, bytes: &[u8]) {
    const DIGITS: &[u8; 16] = b"0123456789abcdef";
    out.reserve(bytes.len() * 2);
    for &b in bytes {
        out.push(DIGITS[(b >> 4) as usize] as char);
        out.push(DIGITS[(b & 15) as usize] as char);
    }
}

fn push_hex_member(out: &mut String, key: &str, bytes: &[u8]) {
    out.push('"');
    out.push_str(key);
    out.push_str("\":\"");
    push_hex(out, bytes);
    out.push('"');
}

fn push_list<T>(out: &mut String, items: &[T], mut push: impl FnMut(&mut String, &T)) {
    out.push('[');
    for (i, item) in items.iter().enumerate() {
        if i > 0 {
            out.push(',');
        }
        push(out, item);
    }
    out.push(']');
}

fn push_fields(out: &mut String, input: &[u8], fields: &[Field]) {
    push_list(out, fields, |out, field| {
        out.push_str("[\"");
        push_hex(out, &field.lower);
        out.push_str("\",\"");
        push_hex(out, field.value.of(input));
        out.push_str("\"]");
    });
}

fn push_meaning(out: &mut String, input: &[u8], message: &Message) {
    let content = message.content(input);
    match &message.control {
        Control::Request { method, scheme, authority, path, before } => {
            out.push('{');
            push_hex_member(out, "authority", authority.of(input));
            out.push(',');
            push_hex_member(out, "content", &content);
            out.push_str(",\"headers\":");
            push_fields(out, input, &message.headers);
            out.push_str(",\"k\":\"req\",");
            push_hex_member(out, "method", method.of(input));
            out.push(',');
            push_hex_member(out, "path", &whole_path(input, before, *path));
            out.push_str(",\"scheme\":\"");
            out.push_str(scheme.text());
            out.push_str("\",\"trailers\":");
            push_fields(out, input, &message.trailers);
            out.push('}');
        }
        Control::Response { informational, status } => {
            out.push('{');
            push_hex_member(out, "content", &content);
            out.push_str(",\"headers\":");
            push_fields(out, input, &message.headers);
            out.push_str(",\"info\":");
            push_list(out, informational, |out, head| {
                out.push_str(&format!("[{},", head.status));
                push_fields(out, input, &head.fields);
                out.push(']');
            });
            out.push_str(",\"k\":\"resp\"");
            if let Some(number) = message.stated {
                out.push_str(&format!(",\"stated\":{}", number));
            }
            out.push_str(&format!(",\"status\":{},\"trailers\":", status));
            push_fields(out, input, &message.trailers);
            out.push('}');
        }
    }
}

fn push_span(out: &mut String, span: &Span) {
    out.push_str(&format!("[{},{}]", span.start, span.len));
}

fn push_field_ranges(out: &mut String, fields: &[Field]) {
    push_list(out, fields, |out, f| {
        out.push_str(&format!("[{},{},{},{}]", f.name.start, f.name.len, f.value.start, f.value.len));
    });
}

fn push_ranges(out: &mut String, message: &Message) {
    out.push('{');
    if let Control::Request { authority, before, .. } = &message.control {
        out.push_str("\"authority\":");
        push_span(out, authority);
        out.push(',');
        if !before.is_empty() {
            push_hex_member(out, "before", before.as_bytes());
            out.push(',');
        }
    }
    out.push_str("\"chunks\":");
    push_list(out, &message.chunks, push_span);
    out.push_str(",\"headers\":");
    push_field_ranges(out, &message.headers);
    match &message.control {
        Control::Request { method, path, .. } => {
            out.push_str(",\"method\":");
            push_span(out, method);
            out.push_str(",\"path\":");
            push_span(out, path);
        }
        Control::Response { informational, .. } => {
            out.push_str(",\"info\":");
            push_list(out, informational, |out, head| push_field_ranges(out, &head.fields));
        }
    }
    out.push_str(",\"trailers\":");
    push_field_ranges(out, &message.trailers);
    out.push('}');
}

fn refused(refusal: Refusal) -> String {
    format!("{{\"at\":{},\"n\":{}}}", refusal.place, refusal.number)
}

/// Item 8: the total of long integers, "absent where 0".
fn push_long(out: &mut String, items: Items, long: usize) {
    if items.has(Item::Long) && long > 0 {
        out.push_str(&format!("\"long\":{long},"));
    }
}

pub fn read_answer(input: &[u8], outcome: Result<Message, Refusal>, told: &Told) -> String {
    match outcome {
        Err(refusal) => refused(refusal),
        Ok(message) => {
            let mut out = format!("{{\"len\":{},", message.length);
            push_long(&mut out, told.items, message.long);
            out.push_str("\"m\":");
            push_meaning(&mut out, input, &message);
            out.push_str(",\"n\":0,\"r\":");
            push_ranges(&mut out, &message);
            out.push('}');
            out
        }
    }
}

pub fn turn_answer(outcome: Result<Vec<u8>, Refusal>) -> String {
    match outcome {
        Err(refusal) => refused(refusal),
        Ok(bytes) => {
            let mut out = String::from("{\"n\":0,");
            push_hex_member(&mut out, "out", &bytes);
            out.push('}');
            out
        }
    }
}

pub fn field_answer(outcome: Result<Message, Refusal>, name: &[u8], default: &[u8]) -> String {
    // "A lent number and place ... receive the message's refusal, or 0 and 0; a refused message gives the whole
    // default."
    let (number, place, found) = match &outcome {
        Err(refusal) => (refusal.number, refusal.place, None),
        Ok(message) => (0, 0, first_header(message, name)),
    };
    let (from, start, len) = match found {
        Some(value) => ("message", value.start, value.len),
        None => ("default", 0, default.len()),
    };
    format!("{{\"at\":{place},\"from\":\"{from}\",\"len\":{len},\"n\":{number},\"start\":{start}}}")
}

/// What a program prints.
pub fn text_answer(text: &str) -> String {
    format!("{{\"text\":\"{}\"}}", text.replace('\n', "\\n"))
}

pub fn stream_answer(scheme: Option<Scheme>, room: u128, tail: &[u8], inputs: &[Vec<u8>], told: &Told) -> String {
    let written = streams::write(inputs, scheme, room, told);
    let stream = [&written.octets[..], tail].concat();
    let taken = streams::take_off(&stream, scheme, told);
    let mut out = String::from("{\"calls\":");
    push_list(&mut out, &written.calls, |out, call| match call {
        Ok(length) => out.push_str(&format!("{{\"len\":{},\"n\":0}}", length)),
        Err(refusal) => out.push_str(&refused(*refusal)),
    });
    out.push_str(&format!(",\"end\":{},", refused(taken.end)));
    push_hex_member(&mut out, "out", &written.octets);
    out.push_str(&format!(",\"rest\":{},\"taken\":", taken.rest));
    push_list(&mut out, &taken.messages, |out, (start, message)| {
        out.push_str(&format!("[{},", message.length));
        push_meaning(out, &stream[*start..], message);
        out.push(']');
    });
    out.push('}');
    out
}

pub fn bundle_answer(outcome: Result<Vec<Entry>, Refusal>) -> String {
    let entries = match outcome {
        Err(refusal) => return refused(refusal),
        Ok(entries) => entries,
    };
    let mut out = String::from("{\"entries\":");
    push_list(&mut out, &entries, |out, entry| {
        let (delivered, message) = (entry.delivered as u32, entry.message);
        out.push_str(&format!("[{},{},{},{},{}]", entry.flock, delivered, entry.kind, message.start, message.len));
    });
    out.push_str(",\"n\":0}");
    out
}

pub fn append_answer(buffer: &[u8], used: u64, outcome: Result<Appended, Refusal>, table: Option<&Table>, items: Items) -> String {
    let appended = match outcome {
        Err(refusal) => return refused(refusal),
        Ok(appended) => appended,
    };
    let bundle = [&buffer[..used as usize], &appended.entry].concat();
    let mut out = String::from("{");
    push_long(&mut out, items, appended.long);
    push_buffer(&mut out, &bundle, Some(bundle.len()), table);
    out
}

/// A call that leaves these bytes and, if it says so, this used length.
pub fn buffer_answer(outcome: Result<(Vec<u8>, Option<usize>), Refusal>, table: Option<&Table>) -> String {
    let (bytes, used) = match outcome {
        Err(refusal) => return refused(refusal),
        Ok(outcome) => outcome,
    };
    let mut out = String::from("{");
    push_buffer(&mut out, &bytes, used, table);
    out
}

fn push_buffer(out: &mut String, bytes: &[u8], used: Option<usize>, table: Option<&Table>) {
    out.push_str("\"n\":0,");
    push_hex_member(out, "out", bytes);
    push_table(out, table);
    if let Some(used) = used {
        out.push_str(&format!(",\"used\":{used}"));
    }
    out.push('}');
}

/// A table that was told.
fn push_table(out: &mut String, table: Option<&Table>) {
    if let Some(table) = table {
        out.push_str(&format!(",\"table\":\"{}\"", table.text()));
    }
}

pub fn totals_answer(outcome: Result<Record, Refusal>) -> String {
    match outcome {
        Err(refusal) => refused(refusal),
        Ok(Record { entries, bytes, undelivered }) => {
            format!("{{\"bytes\":{bytes},\"entries\":{entries},\"n\":0,\"undelivered\":{undelivered}}}")
        }
    }
}

pub fn rebuild_answer(outcome: Result<(), Refusal>, table: Option<&Table>) -> String {
    if let Err(refusal) = outcome {
        return refused(refusal);
    }
    let mut out = String::from("{\"n\":0");
    push_table(&mut out, table);
    out.push('}');
    out
}

pub fn salvage_answer(outcome: Result<Salvaged, Refusal>) -> String {
    let Salvaged { entries, kept, left, stop } = match outcome {
        Err(refusal) => return refused(refusal),
        Ok(salvaged) => salvaged,
    };
    let mut out = format!("{{\"bytes\":{},\"entries\":{entries},\"left\":{left},\"n\":0,", kept.len());
    push_hex_member(&mut out, "out", &kept);
    out.push_str(&format!(",\"stop\":{stop}}}"));
    out
}

pub fn steps_answer(bytes: usize, walked: Walked) -> String {
    match walked {
        None => format!("{{\"n\":1,\"steps\":{bytes}}}"),
        Some((steps, Err(refusal))) => format!("{{\"at\":{},\"n\":{},\"steps\":{steps}}}", refusal.place, refusal.number),
        Some((steps, Ok(message))) => format!(
            "{{\"content\":{},\"fields\":{},\"len\":{},\"n\":0,\"steps\":{steps},\"trailers\":{}}}",
            message.content_length(),
            message.headers.len(),
            message.length,
            message.trailers.len()
        ),
    }
}
