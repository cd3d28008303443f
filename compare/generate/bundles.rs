//! Bundles: what they are made of, and the cases of item 1 (reader, appender, the list of one flock).

use crate::commands::room;
use crate::fixed::*;
use crate::hex;
use crate::messages::{push_form, Maker, Manner};
use crate::reference::bundle;
use crate::reference::figures::*;
use crate::reference::told::Told;
use crate::reference::writing;

/// An entry's head; `length` may be any number of 22 bits.
pub fn head(flock: u32, delivered: bool, kind: u32, length: usize) -> Vec<u8> {
    (flock << 25 | (delivered as u32) << 24 | kind << 22 | length as u32).to_be_bytes().to_vec()
}

/// An entry of this message, its kind taken from the framing.
pub fn entry(flock: u32, delivered: bool, message: &[u8]) -> Vec<u8> {
    let kind = message.first().map_or(0, |framing| (framing & 1) as u32);
    [head(flock, delivered, kind, message.len()), message.to_vec()].concat()
}

/// Messages as they are written, of 6 to 48 bytes.
pub fn small_messages() -> Vec<Vec<u8>> {
    vec![unhex("0140cc000000"), unhex(P5), unhex(FIGURE_13), request_plan().known(), unhex("000347455404687474700161012f04016201630362636403017400")]
}

// ---------------------------------------------------------------------------------------- random

/// A message as it is written.
pub fn written(maker: &mut Maker) -> Vec<u8> {
    maker.faults = 0;
    maker.sharp_faults = 0;
    let framing = maker.random.below(4) as u64;
    let input = maker.with(Manner { small: true, ..Manner::default() }, |maker| maker.binary_of(framing, None));
    writing::binary_to_binary(&input, u128::MAX, &Told::nothing(maker.items)).unwrap_or_else(|_| unhex(FIGURE_13))
}

/// One of few flocks, so that they meet.
pub fn flock(maker: &mut Maker) -> u32 {
    [1, 2, 5, 5, 126, 127][maker.random.below(6)]
}

fn faulty_entry(maker: &mut Maker) -> Vec<u8> {
    let message = written(maker);
    let delivered = maker.random.chance(2);
    let mut out = entry(flock(maker), delivered, &message);
    match maker.random.below(8) {
        0 => out[0] &= 1,
        1 => out[1] ^= 0x40,
        2 => out[1] |= 0x80,
        3 => out[maker.random.below(4)] ^= 1 << maker.random.below(8),
        4 => {
            let framing = maker.random.below(4) as u64;
            let raw = maker.binary_of(framing, None);
            out = entry(5, delivered, &raw);
        }
        5 => {
            let raw = maker.binary_input();
            out = entry(5, delivered, &raw);
        }
        6 => out = entry(5, delivered, &[&message[..], &[0]].concat()),
        _ => maker.mutate(&mut out),
    }
    out
}

/// A bundle; one in `faults` has an entry that is refused, or bytes changed.
pub fn bundle(maker: &mut Maker, faults: usize) -> Vec<u8> {
    let count = match maker.random.below(300) {
        0 => 254 + maker.random.below(4),
        1..=5 => 40,
        _ => maker.random.below(7),
    };
    let mut entries: Vec<Vec<u8>> = (0..count)
        .map(|_| {
            let message = if count > 40 { unhex("0140cc000000") } else { written(maker) };
            let delivered = maker.random.chance(3);
            entry(flock(maker), delivered, &message)
        })
        .collect();
    if maker.random.chance(faults) {
        let at = maker.random.below(entries.len() + 1);
        let bad = faulty_entry(maker);
        entries.insert(at, bad);
    }
    let mut out = entries.concat();
    if maker.random.chance(faults * 2) {
        maker.mutate(&mut out);
    }
    if maker.random.chance(faults * 2) {
        let keep = maker.random.below(out.len() + 1);
        out.truncate(keep);
    }
    out
}

/// A flock to ask for: mostly one that stands in bundles.
pub fn asked_flock(maker: &mut Maker) -> u32 {
    if maker.random.chance(12) {
        return [0, 128, 129, 255, 256, 257, 65_537, u32::MAX][maker.random.below(8)];
    }
    flock(maker)
}

/// A used length and a buffer around a bundle: mostly its own length, and free bytes behind it.
pub fn buffer(maker: &mut Maker, bundle: Vec<u8>, free: usize) -> (usize, Vec<u8>) {
    let mut used = bundle.len();
    let mut buffer = bundle;
    buffer.extend((0..free).map(|_| maker.random.octet()));
    match maker.random.below(24) {
        0 => used = buffer.len() + 1 + maker.random.below(3),
        1 => used = maker.random.below(buffer.len() + 1),
        2 => used = buffer.len(),
        3 => buffer.truncate(used),
        _ => {}
    }
    (used, buffer)
}

/// A message to be appended, and room for it.
pub fn append_words(maker: &mut Maker) -> String {
    let bundle = bundle(maker, 8);
    let message = if maker.random.chance(3) {
        written(maker)
    } else {
        maker.with(Manner { calm: true, ..Manner::default() }, Maker::binary_input)
    };
    let anew = writing::binary_to_binary(&message, u128::MAX, &Told::nothing(maker.items));
    let free = room(maker, anew.ok().map(|written| 4 + written.len()));
    let (used, buffer) = buffer(maker, bundle, free);
    let flock = asked_flock(maker);
    format!("{} {} {} {}", flock, used, hex(&buffer), hex(&message))
}

pub fn case(maker: &mut Maker) -> String {
    match maker.random.below(10) {
        0..=3 => format!("bundle {}", hex(&bundle(maker, 3))),
        4..=7 => format!("append {}", append_words(maker)),
        _ => {
            let (flock, bundle) = (asked_flock(maker), bundle(maker, 8));
            let needed = bundle::list(&bundle, flock as u64, u128::MAX, maker.items).ok().map(|list| list.len());
            format!("flock_list {} {} {}", flock, room(maker, needed), hex(&bundle))
        }
    }
}

// ---------------------------------------------------------------------------------------- fixed

pub fn cases(out: &mut Cases) {
    counts(out);
    heads(out);
    forms(out);
    appends(out);
    lists(out);
    truncations(out);
    lengths(out);
    for line in ["bundle", "bundle 0", "bundle - -", "append 1 0 -", "append 1 x - 00", "append -1 0 - 00", "flock_list 1 -", "flock_list 1 x -"] {
        out.push(line.to_string());
    }
}

pub fn reading(out: &mut Cases, bundle: &[u8]) {
    out.push(format!("bundle {}", hex(bundle)));
}

/// Appending in a buffer that is the bundle with `free` bytes behind it.
fn append(out: &mut Cases, flock: u64, bundle: &[u8], free: usize, message: &[u8]) {
    let buffer = [bundle, &vec![0x5a; free]].concat();
    out.push(format!("append {} {} {} {}", flock, bundle.len(), hex(&buffer), hex(message)));
}

/// In exactly the room that is needed, one less, and more; none is needed where it is refused.
pub fn append_rooms(out: &mut Cases, flock: u64, bundle: &[u8], message: &[u8]) {
    let appended = bundle::append(&[bundle, &vec![0; 70_000]].concat(), bundle.len() as u64, flock, message, out.items);
    for free in appended.map_or(vec![0], |appended| [2, 3, 6].map(|free| appended.entry.len() + free - 3).to_vec()) {
        append(out, flock, bundle, free, message);
    }
}

/// 0, 1, 255, 256 and 257 entries, whole and with bytes of a further one.
fn counts(out: &mut Cases) {
    let one = entry(3, false, &unhex("0140cc000000"));
    for count in [0, 1, 2, 255, 256, 257] {
        let bundle = one.repeat(count);
        for tail in ["", "00", "0a40", "0a4000", "00000000", "0a400030", "0ac10000", "ffffffff"] {
            reading(out, &[&bundle[..], &unhex(tail)].concat());
        }
        for flock in [0, 3, 128] {
            for message in [&b"\x01\x40\xcc\0\0\0"[..], b"\x04", b""] {
                append(out, flock, &bundle, 10, message);
                append(out, flock, &bundle, 9, message);
            }
            out.push(format!("flock_list {} {} {}", flock, bundle.len(), hex(&bundle)));
        }
    }
}

/// Every bit of a head flipped, in the first entry and in the second; every flock, kind and bit; lengths around the message's.
fn heads(out: &mut Cases) {
    for message in small_messages() {
        let one = entry(5, false, &message);
        for before in [Vec::new(), entry(1, true, &unhex(P5))] {
            for bit in 0..32 {
                let mut flipped = one.clone();
                flipped[bit / 8] ^= 0x80 >> (bit % 8);
                reading(out, &[&before[..], &flipped].concat());
                reading(out, &[&before[..], &flipped, &one].concat());
            }
        }
        for length in 0..message.len() + 3 {
            let bundle = [head(5, false, (message[0] & 1) as u32, length), message.clone()].concat();
            reading(out, &bundle);
        }
    }
    for flock in 0..128 {
        for kind in 0..4 {
            for delivered in [false, true] {
                let message = unhex(FIGURE_13);
                reading(out, &[head(flock, delivered, kind, message.len()), message].concat());
            }
        }
    }
    // flock and kind, length, cut message, in their order
    for flock in [0, 1] {
        for kind in [0, 1, 2, 3] {
            for length in [0, 1, 65_535, 65_536, 0x3f_ffff] {
                for behind in ["", "04", "0140cc000000"] {
                    reading(out, &[head(flock, false, kind, length), unhex(behind)].concat());
                }
            }
        }
    }
}

/// The same message in the ways it may be told, only one of which is as it is written.
fn told_ways() -> Vec<Vec<u8>> {
    let plan = Plan { headers: vec![pair("b", "c")], chunks: vec![b"de".to_vec()], trailers: vec![pair("t", "")], ..request_plan() };
    let empty = Plan { headers: vec![pair("b", "c")], ..response_plan(&[200]) };
    let mut ways = Vec::new();
    for plan in [&plan, &empty] {
        let known = plan.known();
        ways.extend([known.clone(), plan.indeterminate(), [&known[..], &[0]].concat(), [&known[..], &[0; 5]].concat(), [&known[..], &[1]].concat()]);
        ways.extend((1..4).map(|cut| known[..known.len() - cut].to_vec()));
        for (name, value) in [("te", "x"), ("connection", "b"), ("content-length", "2"), ("content-length", "0"), ("transfer-encoding", "x"), ("upgrade", "h2c"), ("host", "a")] {
            for first in [true, false] {
                let mut headers = plan.headers.clone();
                headers.insert(if first { 0 } else { 1 }, pair(name, value));
                ways.push(Plan { headers, ..plan.clone() }.known());
            }
        }
        ways.push(Plan { trailers: vec![pair("te", "x"), pair("t", "")], ..plan.clone() }.known());
    }
    ways.push(Plan { authority: Vec::new(), headers: vec![pair("host", "a")], ..request_plan() }.known());
    ways.push(Plan { early: vec![pair("te", "x")], ..response_plan(&[103, 200]) }.known());
    ways.push(Plan { early: vec![pair("b", "x")], ..response_plan(&[103, 200]) }.known());
    for length in ["0", "5", "05", "000", "999999999999999", "1000000000000000"] {
        for status in [304, 200, 204] {
            let headers = [vec![pair("content-length", length), pair("b", "c")], vec![pair("b", "c"), pair("content-length", length)]];
            ways.extend(headers.map(|headers| Plan { headers, ..response_plan(&[status]) }.known()));
        }
    }
    ways.push(Plan { method: b"HEAD".to_vec(), ..request_plan() }.known());
    ways.push(Plan { method: b"OPTIONS".to_vec(), path: b"*".to_vec(), ..request_plan() }.known());
    ways
}

/// One integer of Figure 13 or P5 in each longer form.
pub fn long_ways() -> Vec<Vec<u8>> {
    // the places of the integers, and how many octets each has there
    let places: [(&str, &[(usize, usize)]); 2] =
        [(FIGURE_13, &[(0, 1), (1, 2), (3, 1), (4, 1), (34, 1), (35, 1), (43, 1)]), (P5, &[(0, 1), (1, 1), (6, 1), (11, 1), (13, 1), (16, 1), (17, 1), (21, 1)])];
    let mut ways = Vec::new();
    for (text, integers) in places {
        let message = unhex(text);
        for &(at, octets) in integers {
            let value = if octets == 1 { message[at] as u64 } else { 200 };
            for form in octets..4 {
                let mut way = message[..at].to_vec();
                push_form(&mut way, value, form);
                way.extend_from_slice(&message[at + octets..]);
                ways.push(way);
            }
        }
    }
    ways
}

fn forms(out: &mut Cases) {
    let before = entry(2, false, &unhex(P5));
    for message in told_ways().into_iter().chain(long_ways()) {
        let one = entry(5, false, &message);
        reading(out, &one);
        reading(out, &[&before[..], &one, &before].concat());
        let mut other_kind = one.clone();
        other_kind[1] ^= 0x40;
        reading(out, &other_kind);
        append_rooms(out, 5, &before, &message);
    }
}

/// Used lengths inside an entry, at and past the buffer; the order of the appender's refusals.
fn appends(out: &mut Cases) {
    let bundle = [entry(5, false, &unhex(FIGURE_13)), entry(1, true, &unhex(P5))].concat();
    for free in [0, 9, 10, 11] {
        let buffer = [&bundle[..], &vec![0xc3; free]].concat();
        for used in (0..buffer.len() + 3).chain([65_536, 4_294_967_295]) {
            out.push(format!("append 7 {} {} 0140cc000000", used, hex(&buffer)));
        }
    }
    for flock in (0..=130).chain([254, 255, 256, 257, 511, 65_537, 1 << 31, 4_294_967_295]) {
        append(out, flock, &bundle, 10, &unhex("0140cc000000"));
        append(out, flock, &[], 0, &unhex("0140cc000000"));
        append(out, flock, &[], 0, b"\x04");
    }
    for message in small_messages() {
        append_rooms(out, 127, &bundle, &message);
        for cut in 0..message.len() {
            append(out, 127, &bundle, 60, &message[..cut]);
        }
    }
    for bundle in [&b"\x0a"[..], b"\0\0\0\0", b"\x0a\x41\0\0", b"\x0a\x40\0\x06\x01", b"\x0a\x40\0\x01\x04"] {
        for message in [&b""[..], b"\x01\x40\xcc\0\0\0"] {
            append(out, 0, bundle, 0, message);
            append(out, 5, bundle, 100, message);
        }
    }
}

fn lists(out: &mut Cases) {
    let message = unhex("0140cc000000");
    let bundle: Vec<u8> = (0..12).flat_map(|i| entry([1, 5, 127, 5][i % 4], i % 3 == 0, &message)).collect();
    for flock in (0..=130u64).chain([255, 256, 257, 261, 65_541, 4_294_967_295]) {
        for room in [0, 29, 30, 59, 60, 61] {
            out.push(format!("flock_list {} {} {}", flock, room, hex(&bundle)));
        }
    }
    for flock in [0, 5, 128] {
        for tail in ["00", "00000000", "0a400001", "0a40000104"] {
            out.push(format!("flock_list {} 0 {}", flock, hex(&[&bundle[..], &unhex(tail)].concat())));
        }
        out.push(format!("flock_list {} 0 -", flock));
    }
}

fn truncations(out: &mut Cases) {
    let bundle: Vec<u8> = small_messages().iter().enumerate().flat_map(|(i, message)| entry(5 + i as u32 % 2, i == 1, message)).collect();
    for cut in 0..=bundle.len() {
        reading(out, &bundle[..cut]);
        out.push(format!("flock_list 5 200 {}", hex(&bundle[..cut])));
        out.push(format!("append 9 {} {} 0140cc000000", cut, hex(&bundle)));
    }
}

/// Written messages about 65,535 bytes, and the same told in fewer.
fn lengths(out: &mut Cases) {
    for total in [65_534, 65_535, 65_536] {
        // written are 1 + 2 + 4 + (1 + 1 + 4 + v) + 1 + 1
        let plan = Plan { headers: vec![field("b", total - 15)], ..response_plan(&[200]) };
        reading(out, &entry(5, false, &plan.known()));
        reading(out, &entry(5, false, &plan.indeterminate()));
        append_rooms(out, 5, &[], &plan.indeterminate());
    }
    let whole = entry(5, false, &Plan { headers: vec![field("b", 65_520)], ..response_plan(&[200]) }.known());
    reading(out, &[&whole[..], &whole].concat());
    reading(out, &whole[..whole.len() - 1]);
}
