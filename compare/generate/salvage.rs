//! Cases of item 12: what came through the radio.

use crate::bundles::{self, entry, small_messages};
use crate::commands::room;
use crate::fixed::*;
use crate::hex;
use crate::messages::Maker;
use crate::reference::bundle;
use crate::reference::items::Items;

fn kept(items: Items, input: &[u8]) -> usize {
    bundle::front(input, items).0.iter().map(|entry| entry.whole().len).sum()
}

// ---------------------------------------------------------------------------------------- random

pub fn case(maker: &mut Maker) -> String {
    let mut input = bundles::bundle(maker, 5);
    match maker.random.below(4) {
        0 => {
            let keep = maker.random.below(input.len() + 1);
            input.truncate(keep);
        }
        1 => {
            let size = 1 + maker.random.below(20);
            input.extend((0..size).map(|_| maker.random.octet()));
        }
        _ => {}
    }
    if maker.random.chance(3) {
        return format!("salvage_text {}", hex(&input));
    }
    let needed = Some(kept(maker.items, &input));
    format!("salvage {} {}", room(maker, needed), hex(&input))
}

// ---------------------------------------------------------------------------------------- fixed

pub fn cases(out: &mut Cases) {
    every_cut(out);
    stops(out);
    counts(out);
    program_sizes(out);
    for line in ["salvage", "salvage 0", "salvage x -", "salvage_text", "salvage_text 0"] {
        out.push(line.to_string());
    }
}

/// In exactly the room of what is kept, one less, and more; and what the program prints.
fn each(out: &mut Cases, input: &[u8]) {
    let kept = kept(out.items, input);
    for room in [kept.saturating_sub(1), kept, kept + 4] {
        out.push(format!("salvage {} {}", room, hex(input)));
    }
    out.push(format!("salvage_text {}", hex(input)));
}

/// An accepted bundle cut anywhere, and cut anywhere with other bytes behind the cut.
fn every_cut(out: &mut Cases) {
    let bundle: Vec<u8> = small_messages().iter().enumerate().flat_map(|(i, message)| entry(1 + i as u32, i == 1, message)).collect();
    for cut in 0..=bundle.len() {
        each(out, &bundle[..cut]);
        for tail in [&[0][..], &[0xff; 5], &bundle[..10]] {
            out.push(format!("salvage {} {}", bundle.len(), hex(&[&bundle[..cut], tail].concat())));
        }
    }
    for bit in 0..bundle.len() * 8 {
        let mut other = bundle.clone();
        other[bit / 8] ^= 0x80 >> (bit % 8);
        out.push(format!("salvage_text {}", hex(&other)));
    }
}

/// Each number that stops it, in the first entry and behind one.
fn stops(out: &mut Cases) {
    for text in [
        "0a", "00400006 0140cc000000", "0a800000", "0ac00000", "0a410000", "0a40ffff", "0a400000", "0a400001 04", "0a000006 0140cc000000", "0a400006 0340cc000000",
        "0a400007 0140cc00000001", "0a400007 0140cc00000000", "0a400006 014063000000", "0a400006 014065000000", "0a400007 0140cc00016100", "0a400006 0140cc010000",
        "0a000005 0003474554", "0a000006 000128000000", "0a400004 0140cc00", "ff000016 0004504f535404687474700161022f73000361626300",
    ] {
        for before in [Vec::new(), entry(1, false, &unhex(P5)), entry(1, true, &unhex(P5)).repeat(3)] {
            each(out, &[before, unhex(text)].concat());
        }
    }
}

fn counts(out: &mut Cases) {
    let one = entry(3, false, &unhex("0140cc000000"));
    for count in [0, 1, 255, 256, 257, 300] {
        for tail in ["", "0a4000", "0a400030", "00000000"] {
            each(out, &[one.repeat(count), unhex(tail)].concat());
        }
    }
}

/// About 65,536 bytes: of one large entry and a small one, of bytes that are no bundle.
fn program_sizes(out: &mut Cases) {
    let small = entry(3, false, &unhex("0140cc000000"));
    for total in [65_535, 65_536, 65_537] {
        // an entry is 4 + 15 + v bytes
        let plan = Plan { headers: vec![field("b", total - small.len() - 19)], ..response_plan(&[200]) };
        out.push(format!("salvage_text {}", hex(&[small.clone(), entry(5, false, &plan.known())].concat())));
        out.push(format!("salvage_text {}", hex(&vec![0; total])));
        out.push(format!("salvage 10 {}", hex(&[small.clone(), vec![0xff; total - small.len()]].concat())));
    }
}
