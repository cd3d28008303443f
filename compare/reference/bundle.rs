//! The night's bundle: its reader, the appender and the list of one flock.

use super::binary;
use super::items::Items;
use super::message::*;
use super::octets::*;
use super::told::Told;
use super::writing;

const HEAD: usize = 4;
pub const ENTRIES_MOST: usize = 256;
pub const FLOCK_MOST: u64 = 127;

/// "Each entry has a 32-bit head, most significant field first: 7 bits flock (1 to 127), 1 bit delivered, 2 bits kind
/// (0 request, 1 response), 22 bits length of the message."
#[derive(Clone, Copy, Debug)]
pub struct Entry {
    pub at: usize,
    pub flock: u64,
    pub delivered: bool,
    pub kind: u64,
    pub message: Span,
}

impl Entry {
    /// Its head and its message.
    pub fn whole(&self) -> Span {
        Span { start: self.at, len: HEAD + self.message.len }
    }
}

fn kind_of(message: &Message) -> u64 {
    match message.control {
        Control::Request { .. } => 0,
        Control::Response { .. } => 1,
    }
}

/// The head of an undelivered entry.
fn head_of(flock: u64, kind: u64, length: usize) -> [u8; HEAD] {
    ((flock as u32) << 25 | (kind as u32) << 22 | length as u32).to_be_bytes()
}

/// "Bundles and what is appended are read without that remark", and as RFC 9292 has them (item 7).
fn read_message(message: &[u8], items: Items) -> Result<Message, Refusal> {
    binary::read(message, &Told::nothing(items))
}

/// The entry at `at`, with `before` entries in front of it. "Order: cut head, count, flock and kind, length, cut message,
/// message, then 15 for its kind or form, all placed at the entry."
fn entry_at(input: &[u8], at: usize, before: usize, items: Items) -> Result<Entry, Refusal> {
    let Some(head) = input[at..].first_chunk::<HEAD>() else {
        return refuse(CUT, at);
    };
    if before == ENTRIES_MOST {
        return refuse(SIZE, at);
    }
    let head = u32::from_be_bytes(*head) as u64;
    let (flock, delivered, kind, length) = (head >> 25, head >> 24 & 1 == 1, head >> 22 & 3, (head & 0x3f_ffff) as usize);
    if flock == 0 || kind > 1 {
        return refuse(ENTRY, at);
    }
    if length > BINARY_MOST {
        return refuse(SIZE, at);
    }
    let start = at + HEAD;
    if input.len() - start < length {
        return refuse(CUT, at);
    }
    let bytes = &input[start..start + length];
    let message = match read_message(bytes, items) {
        Ok(message) => message,
        Err(refusal) => return refuse(refusal.number, at),
    };
    // "a kind other than the message's, or a message not written as 01 writes it"
    let as_written = writing::as_binary(bytes, &message).is_ok_and(|written| written == bytes);
    if kind != kind_of(&message) || !as_written {
        return refuse(ENTRY, at);
    }
    Ok(Entry { at, flock, delivered, kind, message: Span { start, len: length } })
}

/// The whole entries up to the first refusal, and that refusal.
pub fn front(input: &[u8], items: Items) -> (Vec<Entry>, Option<Refusal>) {
    let mut entries: Vec<Entry> = Vec::new();
    let mut at = 0;
    while at < input.len() {
        match entry_at(input, at, entries.len(), items) {
            Ok(entry) => {
                at += entry.whole().len;
                entries.push(entry);
            }
            Err(refusal) => return (entries, Some(refusal)),
        }
    }
    (entries, None)
}

pub fn read(input: &[u8], items: Items) -> Result<Vec<Entry>, Refusal> {
    match front(input, items) {
        (entries, None) => Ok(entries),
        (_, Some(refusal)) => Err(refusal),
    }
}

/// "A flock asked for or appended outside 1 to 127 is 15 at 0".
pub fn judge_flock(flock: u64) -> Result<(), Refusal> {
    if flock == 0 || flock > FLOCK_MOST {
        return refuse(ENTRY, 0);
    }
    Ok(())
}

/// The bundle in the first `used` bytes of a buffer: "a used length past the buffer is 13 first".
pub fn used_part(buffer: &[u8], used: u64) -> Result<&[u8], Refusal> {
    if used > buffer.len() as u64 {
        return refuse(ROOM, 0);
    }
    Ok(&buffer[..used as usize])
}

/// What an append does.
pub struct Appended {
    /// The entry that is written behind the bundle.
    pub entry: Vec<u8>,
    /// Item 8: "The appender gives its input's total".
    pub long: usize,
}

impl Appended {
    /// The length of the message as written.
    pub fn message_length(&self) -> usize {
        self.entry.len() - HEAD
    }
}

/// "The appender makes undelivered entries and judges the bundle (its own
/// place), then count, flock and message, then written length, then room"; "these stand at 0, the message's own at its
/// own place".
pub fn append(buffer: &[u8], used: u64, flock: u64, message: &[u8], items: Items) -> Result<Appended, Refusal> {
    let bundle = used_part(buffer, used)?;
    if read(bundle, items)?.len() == ENTRIES_MOST {
        return refuse(SIZE, 0);
    }
    judge_flock(flock)?;
    let accepted = read_message(message, items)?;
    let written = writing::as_binary(message, &accepted)?;
    if buffer.len() - bundle.len() < HEAD + written.len() {
        return refuse(ROOM, 0);
    }
    let head = head_of(flock, kind_of(&accepted), written.len());
    Ok(Appended { entry: [&head[..], &written].concat(), long: accepted.long })
}

/// "a list, the copied bytes of one flock's entries": heads and messages.
pub fn list(input: &[u8], flock: u64, room: u128, items: Items) -> Result<Vec<u8>, Refusal> {
    let entries = read(input, items)?;
    judge_flock(flock)?;
    let of_flock = entries.iter().filter(|entry| entry.flock == flock);
    let copied: Vec<u8> = of_flock.flat_map(|entry| entry.whole().of(input).iter().copied()).collect();
    writing::into_room(copied, room)
}
