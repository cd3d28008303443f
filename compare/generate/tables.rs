//! Cases of item 6: the table of flock records.

use crate::bundles::{self, entry, small_messages};
use crate::fixed::*;
use crate::hex;
use crate::messages::Maker;
use crate::reference::items::Items;
use crate::reference::table::{self, Record, Table};

/// The true table of a bundle that is accepted; of an empty one otherwise.
pub fn true_table(items: Items, bundle: &[u8]) -> Table {
    let mut table = Table::empty();
    let _ = table::rebuild(&mut table, bundle, items);
    table
}

// ---------------------------------------------------------------------------------------- random

/// Mostly a true table; at times another, or one of a wrong length.
pub fn table(maker: &mut Maker, bundle: &[u8]) -> String {
    let mut table = true_table(maker.items, bundle);
    match maker.random.below(10) {
        0 => {
            let count = [0, 1, 5, 126, 128, 129, 254, 255][maker.random.below(8)];
            table.records.resize(count, Record::default());
        }
        1 | 2 => {
            for _ in 0..3 {
                let flock = bundles::flock(maker);
                let mut number = || {
                    let near = maker.random.below(100) as u32;
                    [near, u32::MAX - near, maker.random.next() as u32][maker.random.below(3)]
                };
                table.records[flock as usize - 1] = Record { entries: number(), bytes: number(), undelivered: number() };
            }
        }
        _ => {}
    }
    table.text()
}

pub fn case(maker: &mut Maker) -> String {
    match maker.random.below(10) {
        0..=4 => {
            let words = bundles::append_words(maker);
            // the bundle is the front of the buffer
            let parts: Vec<&str> = words.split(' ').collect();
            let buffer = unhex(parts[2]);
            let used = parts[1].parse().unwrap_or(0).min(buffer.len());
            format!("append table={} {}", table(maker, &buffer[..used]), words)
        }
        5 | 6 => {
            let bundle = bundles::bundle(maker, 20);
            format!("totals table={} {}", table(maker, &bundle), bundles::asked_flock(maker))
        }
        _ => {
            let (lent, bundle) = (bundles::bundle(maker, 20), bundles::bundle(maker, 6));
            format!("rebuild table={} {}", table(maker, &lent), hex(&bundle))
        }
    }
}

// ---------------------------------------------------------------------------------------- fixed

pub fn cases(out: &mut Cases) {
    counts(out);
    flocks(out);
    wraps(out);
    appends(out);
    rebuilds(out);
    for line in ["totals", "totals x", "totals table= 5", "totals table=127/0:1:1:1 5", "totals table=127/128:1:1:1 5", "totals table=127/5:1:1 5", "bundle table=127 -", "salvage table=127 0 -"] {
        out.push(line.to_string());
    }
}

/// 16 before all else, too many records as too few.
fn counts(out: &mut Cases) {
    for count in [0, 1, 5, 63, 125, 126, 127, 128, 129, 254, 255, 256, 383] {
        for flock in [0, 5, 127, 128] {
            out.push(format!("totals table={count} {flock}"));
            for used in [0, 1, 11] {
                out.push(format!("append table={count} {flock} {used} 00000000000000000000 0140cc000000"));
            }
        }
        for bundle in ["-", "00", "024000060140cc000000"] {
            out.push(format!("rebuild table={count} {bundle}"));
        }
    }
}

/// Each flock's record, and no other.
fn flocks(out: &mut Cases) {
    let all: String = (1..128).map(|flock| format!("/{flock}:{}:{}:{}", flock * 3, flock * 1_000 + 1, flock)).collect();
    for flock in (0..=130u64).chain([254, 255, 256, 257, 65_537, 4_294_967_295]) {
        out.push(format!("totals table=127{all} {flock}"));
        out.push(format!("totals {flock}"));
        out.push(format!("append table=127{all} {flock} 0 00000000000000000000 0140cc000000"));
    }
    let bundle: Vec<u8> = (1..128).flat_map(|flock| entry(flock, flock % 2 == 0, &unhex("0140cc000000"))).collect();
    out.push(format!("rebuild table=127 {}", hex(&bundle)));
    out.push(format!("rebuild table=127{all} {}", hex(&bundle)));
    out.push(format!("rebuild {}", hex(&bundle)));
}

/// Sums wrap at 32 bits, each by itself.
fn wraps(out: &mut Cases) {
    for entries in [0u32, 1, u32::MAX - 1, u32::MAX] {
        for bytes in [0, u32::MAX - 6, u32::MAX - 5, u32::MAX - 4, u32::MAX] {
            for undelivered in [0, u32::MAX - 1, u32::MAX] {
                out.push(format!("append table=127/5:{entries}:{bytes}:{undelivered} 5 0 00000000000000000000 0140cc000000"));
                out.push(format!("totals table=127/5:{entries}:{bytes}:{undelivered} 5"));
            }
        }
    }
}

/// Each refusal of an append, with its true table; rooms exact and one less.
fn appends(out: &mut Cases) {
    let bundle: Vec<u8> = small_messages().iter().enumerate().flat_map(|(i, message)| entry(1 + i as u32, i % 2 == 0, message)).collect();
    let table = true_table(out.items, &bundle).text();
    for free in [0, 9, 10, 11] {
        let buffer = [&bundle[..], &vec![0xee; free]].concat();
        for flock in [0, 1, 2, 127, 128] {
            for message in ["0140cc000000", "0140cc00", "0340cc", "04", "-"] {
                for used in [0, 10, bundle.len() - 1, bundle.len(), buffer.len(), buffer.len() + 1] {
                    out.push(format!("append table={table} {flock} {used} {} {message}", hex(&buffer)));
                }
            }
        }
    }
    for message in small_messages() {
        let free = vec![0; message.len() + 4];
        out.push(format!("append table={table} 2 {} {} {}", bundle.len(), hex(&[&bundle[..], &free].concat()), hex(&message)));
    }
    // 255 and 256 entries
    let one = entry(3, false, &unhex("0140cc000000"));
    for count in [255, 256] {
        let bundle = one.repeat(count);
        let table = true_table(out.items, &bundle).text();
        out.push(format!("append table={table} 3 {} {}{} 0140cc000000", bundle.len(), hex(&bundle), "00".repeat(10)));
    }
    // a message that is told in more or fewer bytes than it is written in counts as written
    for message in ["400140cc4000", "0340cc000000", "0140cc", "0140cc00", "0140c80402746500 0000", "0140cc0000000000"] {
        out.push(format!("append table=127 9 0 {} {}", "00".repeat(20), message.replace(' ', "")));
    }
}

fn rebuilds(out: &mut Cases) {
    let bundle: Vec<u8> = small_messages().iter().enumerate().flat_map(|(i, message)| entry(1 + i as u32 % 2, i == 1, message)).collect();
    for cut in 0..=bundle.len() {
        out.push(format!("rebuild table=127/9:9:9:9 {}", hex(&bundle[..cut])));
    }
    for count in [255, 256, 257] {
        let many: Vec<u8> = (0..count).flat_map(|i| entry(1 + i % 127, i % 3 == 0, &unhex("0140cc000000"))).collect();
        out.push(format!("rebuild table=127/9:9:9:9 {}", hex(&many)));
    }
    let large = Plan { headers: vec![field("b", 65_520)], ..response_plan(&[200]) }.known();
    out.push(format!("rebuild table=127 {}", hex(&entry(5, false, &large).repeat(2))));
}
