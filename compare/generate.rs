//! `generate SET COUNT SEED`: command lines of the comparing protocol, for `reference` and `probe` alike.
//!
//! SET is `h1`, `binary`, `turn`, `field`, `stream` or `all` (COUNT random cases, the same for the same SEED), or the set of
//! an item of document 02 (see ITEM_SETS), or `fixed` (COUNT and SEED are not used; a further argument picks a set: none gives
//! those of document 01). `generate --items NUMBER,.. SET ..` tells items that have landed, for the rooms and for what the
//! random messages show; the set of an item has it and those that land before it besides.
//!
//! Build: rustc -O -o target/compare/generate compare/generate.rs

#[path = "generate/binary.rs"]
mod binary;
#[path = "generate/bundles.rs"]
mod bundles;
#[path = "generate/closed.rs"]
mod closed;
#[path = "generate/commands.rs"]
mod commands;
#[path = "generate/draft.rs"]
mod draft;
#[path = "generate/fixed.rs"]
mod fixed;
#[path = "generate/former.rs"]
mod former;
#[path = "generate/head.rs"]
mod head;
#[path = "generate/long.rs"]
mod long;
#[path = "generate/messages.rs"]
mod messages;
#[path = "generate/named.rs"]
mod named;
#[path = "generate/questions.rs"]
mod questions;
#[path = "reference/mod.rs"]
mod reference;
#[path = "generate/salvage.rs"]
mod salvage;
#[path = "generate/steps.rs"]
mod steps;
#[path = "generate/streams.rs"]
mod streams;
#[path = "generate/sweeps.rs"]
mod sweeps;
#[path = "generate/tables.rs"]
mod tables;
#[path = "generate/targets.rs"]
mod targets;

pub use commands::{needed, turn_line, Turn};
use fixed::Cases;
use messages::{Maker, Manner};
use reference::items::*;
use reference::told::Told;
use std::io::{self, BufWriter, Write};

pub struct Random(u64);

impl Random {
    pub fn new(seed: u64) -> Random {
        // splitmix, so that neighbouring seeds part at once and the state is never 0
        let mut z = seed.wrapping_add(0x9e37_79b9_7f4a_7c15);
        z = (z ^ (z >> 30)).wrapping_mul(0xbf58_476d_1ce4_e5b9);
        z = (z ^ (z >> 27)).wrapping_mul(0x94d0_49bb_1331_11eb);
        Random((z ^ (z >> 31)) | 1)
    }
    pub fn next(&mut self) -> u64 {
        // xorshift64*
        self.0 ^= self.0 >> 12;
        self.0 ^= self.0 << 25;
        self.0 ^= self.0 >> 27;
        self.0.wrapping_mul(0x2545_f491_4f6c_dd1d)
    }
    pub fn below(&mut self, n: usize) -> usize {
        if n == 0 {
            return 0;
        }
        ((self.next() >> 16) % n as u64) as usize
    }
    pub fn chance(&mut self, one_in: usize) -> bool {
        self.below(one_in) == 0
    }
    pub fn pick<'a, T: ?Sized>(&mut self, items: &[&'a T]) -> &'a T {
        items[self.below(items.len())]
    }
    pub fn octet(&mut self) -> u8 {
        self.next() as u8 ^ (self.next() >> 40) as u8
    }
}

pub fn hex(bytes: &[u8]) -> String {
    if bytes.is_empty() {
        return "-".to_string();
    }
    const DIGITS: &[u8; 16] = b"0123456789abcdef";
    let mut out = String::with_capacity(bytes.len() * 2);
    for &b in bytes {
        out.push(DIGITS[(b >> 4) as usize] as char);
        out.push(DIGITS[(b & 15) as usize] as char);
    }
    out
}

pub fn scheme(random: &mut Random) -> u64 {
    // numbers that would be 0 or 1 in a narrower type are among the others
    const OTHERS: [u64; 9] = [2, 3, 7, 10, 255, 256, 257, 65_536, 4_294_967_295];
    match random.below(40) {
        0 => OTHERS[random.below(OTHERS.len())],
        n if n < 26 => 0,
        _ => 1,
    }
}

fn h1_case(maker: &mut Maker) -> String {
    match maker.random.below(20) {
        0..=10 => {
            let scheme = scheme(&mut maker.random);
            format!("h1req {} {}", scheme, hex(&maker.request_input()))
        }
        11..=17 => format!("h1resp {}", hex(&maker.response_input())),
        _ => format!("listing {}", hex(&maker.stream_input())),
    }
}

fn binary_case(maker: &mut Maker) -> String {
    format!("bin {}", hex(&maker.binary_input()))
}

fn turn_case(maker: &mut Maker) -> String {
    let turn = [Turn::RequestToBinary, Turn::ResponseToBinary, Turn::BinaryToHttp1, Turn::BinaryToHttp1, Turn::BinaryToBinary]
        [maker.random.below(5)];
    // Few faults here: the readers are met by the other sets, the writers need accepted messages.
    let input = maker.with(Manner { calm: true, ..Manner::default() }, |maker| match turn {
        Turn::RequestToBinary => maker.request_input(),
        Turn::ResponseToBinary => maker.response_input(),
        _ => maker.binary_input(),
    });
    let told = Told::nothing(maker.items);
    let mut scheme = scheme(&mut maker.random);
    // A turning that is refused with 14 tells little: mostly tell the scheme that fits.
    if let Turn::BinaryToHttp1 = turn {
        if scheme < 2 && needed(&told, turn, scheme, &input).is_none() && !maker.random.chance(4) {
            scheme = 1 - scheme;
        }
    }
    let room = commands::room(maker, needed(&told, turn, scheme, &input));
    turn_line(&[], turn, scheme, room, &input)
}

/// The set of an item: its name, the item, its random cases and its fixed ones.
type ItemSet = (&'static str, Item, fn(&mut Maker) -> String, fn(&mut Cases));

const ITEM_SETS: [ItemSet; 12] = [
    ("head", Item::Head, head::case, head::cases),
    ("bundle", Item::Bundle, bundles::case, bundles::cases),
    ("salvage", Item::Salvage, salvage::case, salvage::cases),
    ("closed", Item::Closed, closed::case, closed::cases),
    ("former", Item::Former, former::case, former::cases),
    ("draft", Item::Draft, draft::case, draft::cases),
    ("long", Item::Long, long::case, long::cases),
    ("target", Item::Target, targets::case, targets::cases),
    ("named", Item::Connection, named::case, named::cases),
    ("table", Item::Table, tables::case, tables::cases),
    ("sweep", Item::Sweep, sweeps::case, sweeps::cases),
    ("steps", Item::Steps, steps::case, steps::cases),
];

fn usage() -> ! {
    let names: String = ITEM_SETS.iter().map(|(name, ..)| format!("|{name}")).collect();
    eprintln!("usage: generate [--items NUMBER,..] h1|binary|turn|field|stream|all{names} COUNT SEED");
    eprintln!("       generate [--items NUMBER,..] fixed 0 0 [h1|binary|turn|field|stream{names}]");
    std::process::exit(2);
}

/// The fixed cases of one set; of all sets of document 01 where none is named.
fn fixed_cases(items: Items, set: Option<&str>) -> Vec<String> {
    if let Some((_, item, _, cases)) = ITEM_SETS.iter().find(|(name, ..)| Some(*name) == set) {
        let mut out = Cases::new(items.or(Items::up_to(*item)));
        cases(&mut out);
        return out.lines;
    }
    if !matches!(set, None | Some("h1" | "binary" | "turn" | "field" | "stream")) {
        usage();
    }
    let mut lines = fixed::cases(items);
    lines.retain(|line| set.is_none() || set == Some(part_of(line)));
    lines
}

/// What makes the random cases of a set, and the items it makes them under.
fn random_cases(items: Items, set: &str) -> (fn(&mut Maker) -> String, Items) {
    if let Some((_, item, case, _)) = ITEM_SETS.iter().find(|(name, ..)| *name == set) {
        return (*case, items.or(Items::up_to(*item)));
    }
    let case: fn(&mut Maker) -> String = match set {
        "h1" => h1_case,
        "binary" => binary_case,
        "turn" => turn_case,
        "field" => questions::case,
        "stream" => streams::case,
        "all" => |maker| match maker.random.below(20) {
            0..=7 => h1_case(maker),
            8..=11 => binary_case(maker),
            12..=16 => turn_case(maker),
            17 => streams::case(maker),
            _ => questions::case(maker),
        },
        _ => usage(),
    };
    (case, items)
}

fn print(lines: impl Iterator<Item = String>) -> io::Result<()> {
    let mut out = BufWriter::with_capacity(1 << 18, io::stdout());
    for line in lines {
        writeln!(out, "{}", line)?;
    }
    out.flush()
}

fn main() {
    let arguments: Vec<String> = std::env::args().skip(1).collect();
    let mut words: Vec<&str> = arguments.iter().map(|word| word.as_str()).collect();
    let mut items = Items::none();
    if let ["--items", list, ..] = words[..] {
        items = Items::parse(list).unwrap_or_else(|| usage());
        words.drain(..2);
    }
    let [set, count, seed, part @ ..] = &words[..] else { usage() };
    let count: u64 = count.parse().unwrap_or_else(|_| usage());
    let seed: u64 = seed.parse().unwrap_or_else(|_| usage());

    // What reads the lines may close early.
    let _ = if *set == "fixed" {
        print(fixed_cases(items, part.first().copied()).into_iter())
    } else {
        let (case, items) = random_cases(items, set);
        let mut maker = Maker::new(Random::new(seed), items);
        print((0..count).map(|_| case(&mut maker)))
    };
}

/// The set a command belongs to.
fn part_of(line: &str) -> &'static str {
    match line.split(' ').next().unwrap_or("") {
        "bin" => "binary",
        "h1req2bin" | "h1resp2bin" | "bin2h1" | "bin2bin" => "turn",
        "field_h1req" | "field_h1resp" | "field_bin" => "field",
        "stream" => "stream",
        _ => "h1",
    }
}
