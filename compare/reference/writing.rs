//! "How we write", and turning one form into the other.

use super::binary;
use super::http1;
use super::items::Item;
use super::message::*;
use super::octets::*;
use super::told::Told;

/// "shortest integers"
pub fn push_integer(out: &mut Vec<u8>, value: u64) {
    if value < 1 << 6 {
        out.push(value as u8);
    } else if value < 1 << 14 {
        out.extend_from_slice(&((value as u16) | 0x4000).to_be_bytes());
    } else if value < 1 << 30 {
        out.extend_from_slice(&((value as u32) | 0x8000_0000).to_be_bytes());
    } else {
        out.extend_from_slice(&(value | 0xc000_0000_0000_0000).to_be_bytes());
    }
}

fn push_string(out: &mut Vec<u8>, bytes: &[u8]) {
    push_integer(out, bytes.len() as u64);
    out.extend_from_slice(bytes);
}

fn push_section(out: &mut Vec<u8>, input: &[u8], stated: Option<u64>, fields: &[Field]) {
    let mut lines = Vec::new();
    // Item 5: "both writers put the field back as plain decimal, first in the header"
    if let Some(number) = stated {
        push_string(&mut lines, b"content-length");
        push_string(&mut lines, number.to_string().as_bytes());
    }
    for field in fields {
        push_string(&mut lines, &field.lower);
        push_string(&mut lines, field.value.of(input));
    }
    push_string(out, &lines);
}

/// "Binary: known length, shortest integers, all three sections present, no padding."
pub fn as_binary(input: &[u8], message: &Message) -> Result<Vec<u8>, Refusal> {
    let mut out = Vec::new();
    match &message.control {
        Control::Request { method, scheme, authority, path, before } => {
            push_integer(&mut out, 0);
            push_string(&mut out, method.of(input));
            push_string(&mut out, scheme.text().as_bytes());
            push_string(&mut out, authority.of(input));
            push_string(&mut out, &whole_path(input, before, *path));
        }
        Control::Response { informational, status } => {
            push_integer(&mut out, 1);
            for head in informational {
                push_integer(&mut out, head.status);
                push_section(&mut out, input, None, &head.fields);
            }
            push_integer(&mut out, *status);
        }
    }
    push_section(&mut out, input, message.stated, &message.headers);
    push_string(&mut out, &message.content(input));
    push_section(&mut out, input, None, &message.trailers);
    // "8 at 0 (... or Binary above 65,535 bytes)"
    if out.len() > BINARY_MOST {
        return refuse(SIZE, 0);
    }
    Ok(out)
}

/// "Lines are `name: value`."
fn push_lines(out: &mut Vec<u8>, input: &[u8], fields: &[Field]) {
    for field in fields {
        out.extend_from_slice(&field.lower);
        out.extend_from_slice(b": ");
        out.extend_from_slice(field.value.of(input));
        out.extend_from_slice(b"\r\n");
    }
}

/// The line of the head that frames the content, or states its length.
fn length_line(input: &[u8], message: &Message, told: &Told) -> Option<String> {
    // "Kept trailers: `transfer-encoding: chunked` ... Else `content-length` in plain decimal, save in requests with
    // empty content, 204, 304 and informational heads."
    if !message.trailers.is_empty() {
        return Some("transfer-encoding: chunked\r\n".to_string());
    }
    let length = |number: u64| Some(format!("content-length: {number}\r\n"));
    let size = message.content_length() as u64;
    match &message.control {
        // Item 9: "a request written in HTTP/1.1 with empty content and no trailers carries `content-length: 0` for every
        // method but GET and HEAD", unless told "to keep the former rule".
        Control::Request { method, .. } if size == 0 => {
            let says_so = told.has(Item::Former) && !told.former && !matches!(method.of(input), b"GET" | b"HEAD");
            if says_so { length(0) } else { None }
        }
        // Item 5: "put the field back ... or no length line if it is missing"
        Control::Response { status, .. } if states_length(*status, told) => message.stated.and_then(length),
        Control::Response { status: 204 | 304, .. } => None,
        _ => length(size),
    }
}

/// HTTP/1.1 as we write it.
pub fn as_http1(input: &[u8], message: &Message, told: &Told) -> Result<Vec<u8>, Refusal> {
    let content = message.content(input);
    let length_line = length_line(input, message, told);
    let chunked = !message.trailers.is_empty();

    let mut heads = Vec::new();
    let mut too_many = false;
    let mut lines = 0; // of the final head
    match &message.control {
        Control::Request { method, authority, path, before, .. } => {
            // "request line, `host`, length line, fields, empty line, body"
            heads.extend_from_slice(method.of(input));
            heads.push(SP);
            // Item 2: "We write origin-form or `*`."
            heads.extend_from_slice(&whole_path(input, before, *path));
            heads.extend_from_slice(b" HTTP/1.1\r\nhost: ");
            heads.extend_from_slice(authority.of(input));
            heads.extend_from_slice(b"\r\n");
            lines += 1;
        }
        Control::Response { informational, status } => {
            // "each informational head, then the final head in the same way, host not added; the reason is empty, its
            // space stays"
            for head in informational {
                heads.extend_from_slice(format!("HTTP/1.1 {} \r\n", head.status).as_bytes());
                push_lines(&mut heads, input, &head.fields);
                heads.extend_from_slice(b"\r\n");
                too_many |= head.fields.len() > LINES_MOST;
            }
            heads.extend_from_slice(format!("HTTP/1.1 {} \r\n", status).as_bytes());
        }
    }
    if let Some(line) = &length_line {
        heads.extend_from_slice(line.as_bytes());
        lines += 1;
    }
    push_lines(&mut heads, input, &message.headers);
    lines += message.headers.len();
    heads.extend_from_slice(b"\r\n");
    too_many |= lines > LINES_MOST;

    let mut trailer_part = Vec::new();
    if chunked {
        push_lines(&mut trailer_part, input, &message.trailers);
        trailer_part.extend_from_slice(b"\r\n");
        too_many |= message.trailers.len() > LINES_MOST;
    }

    // "8 at 0 (written heads, trailers or lines too many ...)"
    if too_many || heads.len() > HEADS_MOST || trailer_part.len() > TRAILER_PART_MOST {
        return refuse(SIZE, 0);
    }

    let mut out = heads;
    if chunked {
        // "one chunk with the content (none if empty), lower-case hex without leading zeros"
        if !content.is_empty() {
            out.extend_from_slice(format!("{:x}\r\n", content.len()).as_bytes());
            out.extend_from_slice(&content);
            out.extend_from_slice(b"\r\n");
        }
        out.extend_from_slice(b"0\r\n");
        out.extend_from_slice(&trailer_part);
    } else {
        out.extend_from_slice(&content);
    }
    Ok(out)
}

pub fn into_room(out: Vec<u8>, room: u128) -> Result<Vec<u8>, Refusal> {
    if out.len() as u128 > room {
        return refuse(ROOM, 0);
    }
    Ok(out)
}

// "Writing: the reader's refusal, 14, 8 at 0, 13."

pub fn http1_request_to_binary(input: &[u8], scheme: Option<Scheme>, room: u128, told: &Told) -> Result<Vec<u8>, Refusal> {
    let message = http1::read_request(input, scheme, told)?;
    into_room(as_binary(input, &message)?, room)
}

pub fn http1_response_to_binary(input: &[u8], room: u128, told: &Told) -> Result<Vec<u8>, Refusal> {
    let message = http1::read_response(input, told)?;
    into_room(as_binary(input, &message)?, room)
}

pub fn binary_to_http1(input: &[u8], connection: Option<Scheme>, room: u128, told: &Told) -> Result<Vec<u8>, Refusal> {
    // Item 7: "before all else, a wrong scheme number's 4 included"
    binary::judge_edition(told)?;
    // "any call told another number is 4 at 0, first"
    let connection = match connection {
        Some(scheme) => scheme,
        None => return refuse(UNSUPPORTED, 0),
    };
    let message = binary::read(input, told)?;
    // "request's scheme is not the connection's": 14 at 0; never for a response (R26).
    if let Control::Request { scheme, .. } = &message.control {
        if *scheme != connection {
            return refuse(OTHER_SCHEME, 0);
        }
    }
    into_room(as_http1(input, &message, told)?, room)
}

pub fn binary_to_binary(input: &[u8], room: u128, told: &Told) -> Result<Vec<u8>, Refusal> {
    let message = binary::read(input, told)?;
    into_room(as_binary(input, &message)?, room)
}

/// The listing program's print for a request stream under http.
pub fn listing(stream: &[u8], told: &Told) -> String {
    let mut text = String::from("message start length fields content trailers\n");
    // "Above 65,536 bytes of input it prints the header and `end 65536 8`."
    if stream.len() > LISTING_MOST {
        text.push_str("end 65536 8\n");
        return text;
    }
    let mut start = 0;
    let mut count = 0;
    // "`end` gives the stop's place in the stream and the refusal, or 0 when no byte is left."
    while start < stream.len() {
        match http1::read_request(&stream[start..], Some(Scheme::Http), told) {
            Ok(message) => {
                count += 1;
                text.push_str(&format!(
                    "{} {} {} {} {} {}\n",
                    count,
                    start,
                    message.length,
                    message.headers.len(),
                    message.content_length(),
                    message.trailers.len()
                ));
                start += message.length;
            }
            Err(refusal) => {
                text.push_str(&format!("end {} {}\n", start + refusal.place, refusal.number));
                return text;
            }
        }
    }
    text.push_str(&format!("end {} 0\n", start));
    text
}
