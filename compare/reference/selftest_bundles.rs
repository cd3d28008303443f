//! Selftest rows of the items of document 02 on bundles. The answers are worked out by hand from the papers.

use crate::reference::figures::*;
use crate::reference::items::*;
use crate::selftest::{refused, Tests, P5};

/// A response 204 as it is written, 6 bytes; an entry of it is 10.
const SMALL: &str = "0140cc000000";
/// `content-length` behind its length: 15 bytes.
const CL: &str = "0e636f6e74656e742d6c656e677468";

pub fn run(t: &mut Tests) {
    bundle(t);
    salvage(t);
    table(t);
    sweep(t);
}

fn entries(list: &str) -> String {
    format!("{{\"entries\":[{list}],\"n\":0}}")
}

fn appended(out: &str) -> String {
    format!("{{\"n\":0,\"out\":\"{out}\",\"used\":{}}}", out.len() / 2)
}

fn wrote(out: &str) -> String {
    format!("{{\"n\":0,\"out\":\"{out}\"}}")
}

/// Item 1: the night's bundle.
fn bundle(t: &mut Tests) {
    t.items = Items::up_to(Item::Head);
    t.says("a bundle, before its item", "bundle -", "{\"error\":\"not built\"}");
    t.says("an append, before its item", "append", "{\"error\":\"not built\"}");

    t.items = Items::up_to(Item::Bundle);
    let figure = format!("0a400030{FIGURE_13}"); // 52 bytes, flock 5
    let post = format!("ff000016{P5}"); // 26 bytes, flock 127, delivered
    let small = format!("02400006{SMALL}"); // 10 bytes, flock 1
    t.says("empty bundle", "bundle -", &entries(""));
    t.says("Figure 13, flock 5", &format!("bundle {figure}"), &entries("[5,0,1,4,48]"));
    t.says("two entries", &format!("bundle {figure}{post}"), &entries("[5,0,1,4,48],[127,1,0,56,22]"));
    t.says("no word", "bundle", "{\"error\":\"bad command\"}");

    let many = small.repeat(256);
    let long_integer = P5.replacen("00", "4000", 1);
    let dropped = "0140c8050274650161 0000".replace(' ', "");
    let host = "0003474554046874747000012f0704686f7374016100 00".replace(' ', "");
    for (name, input, number, place) in [
        ("cut head", format!("{figure}0a"), 9, 52),
        ("cut head, 3 bytes", format!("{figure}0a4000"), 9, 52),
        ("256 entries and 3 bytes", format!("{many}000000"), 9, 2560),
        ("257th entry, whatever it holds", format!("{many}00000000"), 8, 2560),
        ("flock 0", format!("00400030{FIGURE_13}"), 15, 0),
        ("kind 2, too long", "0a810000".to_string(), 15, 0),
        ("kind 3, cut", "0ac00030".to_string(), 15, 0),
        ("length 65,536", "0a410000".to_string(), 8, 0),
        ("length of all bits", format!("{figure}0a7fffff"), 8, 52),
        ("length 65,535, cut", "0a40ffff".to_string(), 9, 0),
        ("cut message", format!("{figure}{}", &figure[..102]), 9, 52),
        ("empty message", format!("{figure}0a000000"), 9, 52),
        ("the message's own", format!("{figure}0a40000104"), 10, 52),
        ("the message's own before kind", format!("{figure}0a00000104"), 10, 52),
        ("the message's own place does not show", format!("{figure}0a000010{}", &P5[..32]), 9, 52),
        ("another kind", format!("{figure}0a000030{FIGURE_13}"), 15, 52),
        ("padding", format!("0a400031{FIGURE_13}00"), 15, 0),
        ("sections missing", format!("0a000011{}", &P5[..34]), 15, 0),
        ("a long integer", format!("0a000017{long_integer}"), 15, 0),
        ("indeterminate", "0a4000060340cc000000".to_string(), 15, 0),
        ("a dropped field", format!("0a40000b{dropped}"), 15, 0),
        ("host for authority", format!("0a000017{host}"), 15, 0),
        // item 5 is there: a 304 stands with its length first, in plain decimal (S1); a HEAD reply is not known as one
        ("304, zeros", format!("0a40001801413012{CL}0230350000"), 15, 0),
        ("a HEAD reply", format!("0a4000170140c811{CL}01350000"), 7, 0),
    ] {
        t.says(name, &format!("bundle {input}"), &refused(number, place));
    }
    t.says("304 with its length", &format!("bundle 0a40001701413011{CL}01350000"), &entries("[5,0,1,4,23]"));
    t.says("256 entries", &format!("flock_list 1 2560 {many}"), &wrote(&many));

    // the appender
    let free = |bytes: usize| "ff".repeat(bytes);
    t.says("append", &format!("append 5 0 {} {FIGURE_13}", free(52)), &appended(&figure));
    t.says("append, more room", &format!("append 5 0 {} {FIGURE_13}", free(60)), &appended(&figure));
    t.says("append behind", &format!("append 1 52 {figure}{} {SMALL}", free(10)), &appended(&format!("{figure}{small}")));
    let open = "0340cc000000"; // indeterminate
    t.says("append anew", &format!("append 1 0 {} {open}", free(10)), &appended(&small));
    t.says("flock 127", &format!("append 127 0 {} {P5}", free(26)), &appended(&format!("fe000016{P5}")));
    let above = |value: usize| format!("0340c80162{:08x}{}000000", 0x8000_0000u32 + value as u32, "76".repeat(value));
    for (name, line, number, place) in [
        ("room", format!("5 0 {} {FIGURE_13}", free(51)), 13, 0),
        ("room, none", format!("5 0 - {FIGURE_13}"), 13, 0),
        ("used past the buffer", format!("0 53 {figure} 04"), 13, 0),
        ("used at the buffer", format!("5 52 {figure} {SMALL}"), 13, 0),
        ("the bundle's own", format!("0 53 {figure}{} 04", free(9)), 9, 52),
        ("256 entries", format!("0 2560 {many} 04"), 8, 0),
        ("flock 0", format!("0 0 {} 04", free(9)), 15, 0),
        ("flock 128", format!("128 0 {} 04", free(9)), 15, 0),
        ("flock 257", format!("257 0 {} 04", free(9)), 15, 0),
        ("the message's own, at its own place", format!("5 52 {figure} {}", &P5[..32]), 9, 16),
        ("written above 65,535", format!("5 0 - {}", above(65_521)), 8, 0),
        ("written 65,535, no room", format!("5 0 - {}", above(65_520)), 13, 0),
        ("a HEAD reply", format!("5 0 - 0140c811{CL}0135"), 7, 21),
    ] {
        t.says(&format!("append: {name}"), &format!("append {line}"), &refused(number, place));
    }

    // the list
    let all = format!("{figure}{small}{figure}{post}");
    t.says("list", &format!("flock_list 5 104 {all}"), &wrote(&figure.repeat(2)));
    t.says("list, delivered", &format!("flock_list 127 26 {all}"), &wrote(&post));
    t.says("list of none", &format!("flock_list 2 0 {all}"), &wrote(""));
    t.says("list, room", &format!("flock_list 5 103 {all}"), &refused(13, 0));
    t.says("list, flock before room", &format!("flock_list 128 0 {all}"), &refused(15, 0));
    t.says("list, flock 0", "flock_list 0 0 -", &refused(15, 0));
    t.says("list, the bundle's own first", &format!("flock_list 0 0 {all}00"), &refused(9, 140));
}

/// Item 12: what came through the radio.
fn salvage(t: &mut Tests) {
    t.items = Items::up_to(Item::Bundle);
    t.says("salvage, before its item", "salvage 0 -", "{\"error\":\"not built\"}");
    t.says("salvage_text, before its item", "salvage_text -", "{\"error\":\"not built\"}");

    t.items = Items::up_to(Item::Salvage);
    let kept = |entries: usize, out: &str, left: usize, stop: u32| {
        let bytes = out.len() / 2;
        format!("{{\"bytes\":{bytes},\"entries\":{entries},\"left\":{left},\"n\":0,\"out\":\"{out}\",\"stop\":{stop}}}")
    };
    let figure = format!("0a400030{FIGURE_13}"); // 52 bytes
    let post = format!("ff000016{P5}"); // 26 bytes
    let both = format!("{figure}{post}");
    let many = format!("02400006{SMALL}").repeat(256);
    for (name, room, input, wanted) in [
        ("nothing", 0, "-".to_string(), kept(0, "", 0, 0)),
        ("whole", 78, both.clone(), kept(2, &both, 0, 0)),
        ("whole, room", 77, both.clone(), refused(13, 0)),
        ("cut in the first head", 0, figure[..6].to_string(), kept(0, "", 3, 9)),
        ("cut in the first message", 0, figure[..102].to_string(), kept(0, "", 51, 9)),
        ("cut between", 52, figure.clone(), kept(1, &figure, 0, 0)),
        ("cut in the second", 52, both[..154].to_string(), kept(1, &figure, 25, 9)),
        ("cut in the second, room by what is kept", 51, both[..154].to_string(), refused(13, 0)),
        ("a wrong entry", 99, format!("{figure}00400030{FIGURE_13}"), kept(1, &figure, 52, 15)),
        ("a message's own number", 99, format!("{figure}0a40000104"), kept(1, &figure, 5, 10)),
        ("257th", 2560, format!("{many}{figure}"), kept(256, &many, 52, 8)),
        ("257th, cut head", 2560, format!("{many}0a4000"), kept(256, &many, 3, 9)),
    ] {
        t.says(name, &format!("salvage {room} {input}"), &wanted);
    }
    let text = |line: &str| format!("{{\"text\":\"{line}\\n\"}}");
    t.says("text", &format!("salvage_text {}", &both[..154]), &text("kept 1 52 left 25 stop 9"));
    t.says("text of nothing", "salvage_text -", &text("kept 0 0 left 0 stop 0"));
    t.says("text of 65,536", &format!("salvage_text {}{}", figure, "00".repeat(65_484)), &text("kept 1 52 left 65484 stop 15"));
    t.says("text of 65,537", &format!("salvage_text {}{}", figure, "00".repeat(65_485)), &text("kept 0 0 left 65536 stop 8"));
}

/// Item 6: how many rows for this flock?
fn table(t: &mut Tests) {
    let figure = format!("0a400030{FIGURE_13}"); // 52 bytes, flock 5
    let post = format!("ff000016{P5}"); // 26 bytes, flock 127, delivered
    let small = format!("02400006{SMALL}"); // 10 bytes, flock 1
    t.items = Items::up_to(Item::Connection);
    t.says("totals, before its item", "totals 5", "{\"error\":\"not built\"}");
    t.says("rebuild, before its item", "rebuild -", "{\"error\":\"not built\"}");
    t.says("table=, before its item", &format!("append table=127 5 0 - {SMALL}"), "{\"error\":\"bad command\"}");

    t.items = Items::up_to(Item::Table);
    let free = "ff".repeat(52);
    let append = |table: &str, flock: u32| format!("append table={table} {flock} 0 {free} {FIGURE_13}");
    let answer = |out: &str, table: &str| format!("{{\"n\":0,\"out\":\"{out}\",\"table\":\"{table}\",\"used\":{}}}", out.len() / 2);
    t.says("append", &append("127", 5), &answer(&figure, "127/5:1:48:1"));
    t.says("append without a table", &append("127", 5).replace("table=127 ", ""), &appended(&figure));
    let other = figure.replacen("0a40", "fe40", 1);
    t.says("append, flock 127", &append("127/1:2:3:1/5:9:9:9", 127), &answer(&other, "127/1:2:3:1/5:9:9:9/127:1:48:1"));
    t.says("on another table sums wrap", &append("127/5:4294967295:4294967250:4294967295", 5), &answer(&figure, "127/5:0:2:0"));
    t.says("all wrap to zero", &append("127/5:4294967295:4294967248:4294967295", 5), &answer(&figure, "127"));
    for count in [0, 1, 126, 128, 254, 100_000] {
        t.says("16 before all else", &format!("append table={count} 0 9 - 04"), &refused(16, 0));
        t.says("16 in totals", &format!("totals table={count} 0"), &refused(16, 0));
        t.says("16 in rebuild", &format!("rebuild table={count} 00"), &refused(16, 0));
    }
    t.says("16, then 13", "append table=127 0 9 - 04", &refused(13, 0));
    t.says("refused append", &format!("append table=127/5:1:1:1 5 0 - {SMALL}"), &refused(13, 0));

    let totals = |entries: u64, bytes: u64, undelivered: u64| format!("{{\"bytes\":{bytes},\"entries\":{entries},\"n\":0,\"undelivered\":{undelivered}}}");
    t.says("totals", "totals table=127/5:2:96:1/6:7:8:9 5", &totals(2, 96, 1));
    t.says("totals of none", "totals table=127/5:2:96:1 4", &totals(0, 0, 0));
    t.says("totals without a table", "totals 127", &totals(0, 0, 0));
    t.says("totals, last", "totals table=127/127:4294967295:1:0 127", &totals(4_294_967_295, 1, 0));
    for flock in ["0", "128", "256", "4294967295"] {
        t.says("totals, flock", &format!("totals {flock}"), &refused(15, 0));
    }

    let all = format!("{figure}{small}{figure}{post}");
    let rebuilt = |table: &str| format!("{{\"n\":0,\"table\":\"{table}\"}}");
    t.says("rebuild", &format!("rebuild table=127 {all}"), &rebuilt("127/1:1:6:1/5:2:96:2/127:1:22:0"));
    t.says("rebuild writes all records", "rebuild table=127/3:1:1:1 -", &rebuilt("127"));
    t.says("rebuild without a table", &format!("rebuild {all}"), "{\"n\":0}");
    t.says("rebuild, the bundle's own", &format!("rebuild table=127/3:1:1:1 {all}00"), &refused(9, 140));
    for line in ["totals table= 5", "totals table=x 5", "totals table=127/0:1:1:1 5", "totals table=127/128:1:1:1 5", "totals table=127/5:1:1 5", "bundle table=127 -"] {
        t.says(line, line, "{\"error\":\"bad command\"}");
    }
}

/// Item 11: room back in the bundle.
fn sweep(t: &mut Tests) {
    t.items = Items::up_to(Item::Table);
    t.says("mark, before its item", "mark 0 0 -", "{\"error\":\"not built\"}");
    t.says("sweep, before its item", "sweep 0 -", "{\"error\":\"not built\"}");

    t.items = Items::up_to(Item::Sweep);
    let figure = format!("0a400030{FIGURE_13}"); // 52 bytes, flock 5
    let sent = figure.replacen("0a", "0b", 1);
    let post = format!("ff000016{P5}"); // 26 bytes, flock 127, delivered
    let small = format!("02400006{SMALL}"); // 10 bytes, flock 1
    let marked = |out: &str, table: &str| format!("{{\"n\":0,\"out\":\"{out}\",\"table\":\"{table}\"}}");
    let bundle = format!("{figure}{post}{small}"); // 88 bytes
    let table = "127/1:1:6:1/5:1:48:1/127:1:22:0";
    t.says("mark", &format!("mark table={table} 0 88 {bundle}"), &marked(&format!("{sent}{post}{small}"), "127/1:1:6:1/5:1:48:0/127:1:22:0"));
    t.says("mark the last, in a longer buffer", &format!("mark 2 88 {bundle}ee"), &wrote(&format!("{figure}{post}{}", small.replacen("02", "03", 1))));
    t.says("mark again", &format!("mark table={table} 1 88 {bundle}"), &marked(&bundle, table));
    t.says("mark on another table", &format!("mark table=127 0 88 {bundle}"), &marked(&format!("{sent}{post}{small}"), "127/5:0:0:4294967295"));
    for (name, line, number, place) in [
        ("16 first", format!("mark table=126 9 99 {bundle}00"), 16, 0),
        ("used past the buffer", format!("mark 9 89 {bundle}"), 13, 0),
        ("the bundle's own", format!("mark 9 87 {bundle}"), 9, 78),
        ("no such entry", format!("mark 3 88 {bundle}"), 18, 0),
        ("no such entry, large", format!("mark 4294967295 88 {bundle}"), 18, 0),
        ("no entry at all", "mark 0 0 -".to_string(), 18, 0),
        ("sweep: 16 first", format!("sweep table=128 99 {bundle}"), 16, 0),
        ("sweep: used past the buffer", format!("sweep 89 {bundle}"), 13, 0),
        ("sweep: the bundle's own", format!("sweep 87 {bundle}"), 9, 78),
    ] {
        t.says(name, &line, &refused(number, place));
    }
    let swept = |out: &str, table: &str, used: usize| format!("{{\"n\":0,\"out\":\"{out}\",\"table\":\"{table}\",\"used\":{used}}}");
    // post goes, small moves to 52; behind the new end at 62 stand the old bytes
    let after = format!("{figure}{small}{}ee", &bundle[124..]);
    t.says("sweep", &format!("sweep table={table} 88 {bundle}ee"), &swept(&after, "127/1:1:6:1/5:1:48:1", 62));
    t.says("sweep of none", "sweep 0 ee", "{\"n\":0,\"out\":\"ee\",\"used\":0}");
    t.says("sweep that keeps all", &format!("sweep 52 {figure}"), &appended(&figure));
    t.says("sweep that keeps none", &format!("sweep table=127/5:1:48:0 52 {sent}"), &swept(&sent, "127", 0));
    t.says("sweep on another table", &format!("sweep table=127 52 {sent}"), &swept(&sent, "127/5:4294967295:4294967248:0", 0));
}
