//! Cases of item 11: marking and the sweep.

use crate::bundles::{self, entry, small_messages};
use crate::fixed::*;
use crate::hex;
use crate::messages::Maker;
use crate::reference::sweep::sweep;
use crate::reference::table::Table;
use crate::tables::{self, true_table};

// ---------------------------------------------------------------------------------------- random

pub fn case(maker: &mut Maker) -> String {
    let bundle = bundles::bundle(maker, 12);
    let table = if maker.random.chance(6) { String::new() } else { format!("table={} ", tables::table(maker, &bundle)) };
    let free = maker.random.below(12);
    let (used, buffer) = bundles::buffer(maker, bundle, free);
    if maker.random.chance(2) {
        return format!("sweep {}{} {}", table, used, hex(&buffer));
    }
    let number = match maker.random.below(12) {
        0 => [256, 255, 65_536, 4_294_967_295][maker.random.below(4)],
        _ => maker.random.below(7),
    };
    format!("mark {}{} {} {}", table, number, used, hex(&buffer))
}

// ---------------------------------------------------------------------------------------- fixed

pub fn cases(out: &mut Cases) {
    patterns(out);
    orders(out);
    used_lengths(out);
    counts(out);
    wraps(out);
    for line in ["mark", "mark 0 0", "mark x 0 -", "sweep", "sweep 0", "sweep -1 -", "sweep table=x 0 -"] {
        out.push(line.to_string());
    }
}

/// Every pattern of delivered entries: each entry marked, the sweep, an append behind the sweep's end.
fn patterns(out: &mut Cases) {
    let messages = small_messages();
    for pattern in 0..32u32 {
        let bundle: Vec<u8> = messages.iter().enumerate().flat_map(|(i, message)| entry([5, 1, 5, 127, 5][i], pattern >> i & 1 == 1, message)).collect();
        let table = true_table(out.items, &bundle).text();
        for behind in ["", "dddddddddd"] {
            let buffer = [&bundle[..], &unhex(behind)].concat();
            out.push(format!("sweep table={table} {} {}", bundle.len(), hex(&buffer)));
            for number in 0..messages.len() + 2 {
                out.push(format!("mark table={table} {number} {} {}", bundle.len(), hex(&buffer)));
            }
        }
        if let Ok((buffer, used)) = sweep(&mut Table::empty(), &bundle, bundle.len() as u64, out.items) {
            for flock in [5, 9] {
                out.push(format!("append {flock} {used} {} 0140cc000000", hex(&buffer)));
            }
            out.push(format!("bundle {}", hex(&buffer[..used])));
            out.push(format!("sweep {used} {}", hex(&buffer)));
        }
    }
}

/// Each refusal in its order.
fn orders(out: &mut Cases) {
    let good = entry(5, false, &unhex("0140cc000000"));
    let bad = [good.clone(), vec![0, 0, 0, 0]].concat();
    for count in [0, 126, 127, 128] {
        for buffer in [&good, &bad] {
            for used in [0, buffer.len() - 1, buffer.len(), buffer.len() + 1, 65_536, 4_294_967_295] {
                for number in [0, 1, 2, 255, 256, 4_294_967_295u64] {
                    out.push(format!("mark table={count} {number} {used} {}", hex(buffer)));
                }
                out.push(format!("sweep table={count} {used} {}", hex(buffer)));
            }
        }
    }
}

/// Used lengths inside of an entry, at and past the buffer.
fn used_lengths(out: &mut Cases) {
    let bundle: Vec<u8> = small_messages().iter().enumerate().flat_map(|(i, message)| entry(1 + i as u32, i % 2 == 1, message)).collect();
    for used in 0..bundle.len() + 3 {
        out.push(format!("mark 1 {used} {}", hex(&bundle)));
        out.push(format!("mark 0 {used} {}", hex(&bundle)));
        out.push(format!("sweep {used} {}", hex(&bundle)));
    }
}

/// 255, 256 and 257 entries: all delivered, none, each second.
fn counts(out: &mut Cases) {
    for count in [0, 1, 2, 255, 256, 257] {
        for step in [1, 2, 1_000] {
            let bundle: Vec<u8> = (1..=count).flat_map(|i| entry(1 + i % 127, i % step == 0, &unhex("0140cc000000"))).collect();
            let table = true_table(out.items, &bundle).text();
            out.push(format!("sweep table={table} {} {}", bundle.len(), hex(&bundle)));
            for number in [0, 1, 254, 255, 256, 257] {
                out.push(format!("mark table={table} {number} {} {}", bundle.len(), hex(&bundle)));
            }
        }
    }
    let large = Plan { headers: vec![field("b", 65_520)], ..response_plan(&[200]) }.known();
    let bundle = [entry(5, true, &unhex(P5)), entry(5, false, &large)].concat();
    out.push(format!("sweep table=127/5:2:65557:1 {} {}", bundle.len(), hex(&bundle)));
}

/// On another table what is taken off wraps.
fn wraps(out: &mut Cases) {
    let bundle = [entry(5, true, &unhex("0140cc000000")), entry(5, false, &unhex(P5)), entry(6, true, &unhex(P5))].concat();
    for entries in [0u32, 1, 2, u32::MAX] {
        for bytes in [0, 5, 6, 7, u32::MAX] {
            for undelivered in [0, 1, u32::MAX] {
                let table = format!("127/5:{entries}:{bytes}:{undelivered}");
                out.push(format!("sweep table={table} {} {}", bundle.len(), hex(&bundle)));
                for number in 0..3 {
                    out.push(format!("mark table={table} {number} {} {}", bundle.len(), hex(&bundle)));
                }
            }
        }
    }
}
