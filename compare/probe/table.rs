//! The commands that change a bundle and the table beside it, or read the table (document 02, items 1, 6 and 11), over libbundle_capi.a.
//!
//!   append FLOCK USED BUFFER MESSAGE    totals FLOCK    rebuild HEX    mark ENTRY USED BUFFER    sweep USED BUFFER        each with an option table=TABLE

use super::{hex, number, octets, refused, Answer};

mod entries {
    //! As in include/ospirnar.h, line for line.
    #[repr(C)]
    #[derive(Clone, Copy, PartialEq, Default, Debug)]
    pub struct Flock {
        pub entries: u32,
        pub bytes: u32,
        pub undelivered: u32,
    }
    #[repr(C)]
    pub struct AppendAnswer {
        pub number: u32,
        pub place: usize,
        pub used: usize,
        pub long: usize,
    }
    #[repr(C)]
    pub struct TotalsAnswer {
        pub number: u32,
        pub place: usize,
        pub entries: u32,
        pub bytes: u32,
        pub undelivered: u32,
    }
    #[repr(C)]
    pub struct TableAnswer {
        pub number: u32,
        pub place: usize,
        pub used: usize,
    }
    #[link(name = "bundle_capi", kind = "static")]
    extern "C" {
        pub fn ospirnar_append(
            table: *mut Flock, records: usize, buffer: *mut u8, buffer_len: usize, used: usize, flock: u32, message: *const u8, message_len: usize,
        ) -> AppendAnswer;
        pub fn ospirnar_totals(table: *const Flock, records: usize, flock: u32) -> TotalsAnswer;
        pub fn ospirnar_rebuild(table: *mut Flock, records: usize, input: *const u8, input_len: usize) -> TableAnswer;
        pub fn ospirnar_mark(table: *mut Flock, records: usize, buffer: *mut u8, buffer_len: usize, used: usize, entry: usize) -> TableAnswer;
        pub fn ospirnar_sweep(table: *mut Flock, records: usize, buffer: *mut u8, buffer_len: usize, used: usize) -> TableAnswer;
    }
}
use self::entries::Flock;

/// What shows that a record before or behind the table, which is not lent, was written to.
const GUARD: Flock = Flock { entries: 0xAAAA_AAAA, bytes: 0xAAAA_AAAA, undelivered: 0xAAAA_AAAA };

/// A table that is lent, between two records that are not.
#[derive(Clone, PartialEq)]
struct Table {
    all: Vec<Flock>,
}

impl Table {
    fn of(count: usize) -> Table {
        let mut all = vec![Flock::default(); count + 2];
        all[0] = GUARD;
        all[count + 1] = GUARD;
        Table { all }
    }

    fn len(&self) -> usize {
        self.all.len() - 2
    }

    fn pointer(&mut self) -> *mut Flock {
        self.all[1..].as_mut_ptr()
    }

    fn guarded(&self) -> bool {
        self.all[0] == GUARD && self.all[self.len() + 1] == GUARD
    }

    /// `COUNT` and `/FLOCK:ENTRIES:BYTES:UNDELIVERED` for each record that is not all zero.
    fn read(word: &[u8]) -> Option<Table> {
        let mut parts = word.split(|&b| b == b'/');
        let mut table = Table::of(number(parts.next()?, 100_000)? as usize);
        let count = table.len();
        for part in parts {
            let numbers = part.split(|&b| b == b':').map(|word| number(word, u32::MAX as u64)).collect::<Option<Vec<u64>>>()?;
            let [flock, entries, bytes, undelivered] = numbers[..] else { return None };
            if flock < 1 || flock > count as u64 {
                return None;
            }
            table.all[flock as usize] = Flock { entries: entries as u32, bytes: bytes as u32, undelivered: undelivered as u32 };
        }
        Some(table)
    }

    fn text(&self) -> String {
        let mut out = self.len().to_string();
        for (flock, record) in self.all.iter().enumerate().take(self.len() + 1).skip(1).filter(|(_, record)| **record != Flock::default()) {
            out.push_str(&format!("/{flock}:{}:{}:{}", record.entries, record.bytes, record.undelivered));
        }
        out
    }
}

/// A buffer that is lent, with a strip behind it that is not.
fn lend(buffer: &[u8]) -> Vec<u8> {
    let mut space = buffer.to_vec();
    space.extend([0xAA; 32]);
    space
}

/// The key of a table that was told.
fn push_table(out: &mut String, table: &Table, shown: bool) {
    if shown {
        out.push_str(&format!(",\"table\":\"{}\"", table.text()));
    }
}

/// An append to a buffer: the answer, the used length, and buffer and table afterwards. A refusal alters nothing and leaves the used length; an acceptance alters nothing before the used
/// length and behind the new one, and no record but the flock's.
fn append_to(table: &Table, buffer: &[u8], used: usize, flock: u32, message: &[u8]) -> Result<(Answer, usize, Vec<u8>, Table, usize), &'static str> {
    let (mut space, mut after) = (lend(buffer), table.clone());
    let before = space.clone();
    let answer = unsafe { entries::ospirnar_append(after.pointer(), table.len(), space.as_mut_ptr(), buffer.len(), used, flock, message.as_ptr(), message.len()) };
    if answer.number != 0 {
        return match (answer.used == used && answer.long == 0, space == before && after == *table) {
            (false, _) => Err("range"),
            (_, false) => Err("altered"),
            _ => Ok((Answer { number: answer.number, place: answer.place }, used, buffer.to_vec(), after, 0)),
        };
    }
    if answer.place != 0 || answer.used < used || answer.used > buffer.len() || flock < 1 || flock as usize > table.len() {
        return Err("range");
    }
    if space[..used] != before[..used] || space[answer.used..] != before[answer.used..] || !after.guarded() {
        return Err("altered");
    }
    if (1..=table.len()).any(|f| f != flock as usize && after.all[f] != table.all[f]) {
        return Err("altered");
    }
    space.truncate(buffer.len());
    Ok((Answer { number: 0, place: 0 }, answer.used, space, after, answer.long))
}

fn append(table: &Table, shown: bool, flock: u32, used: usize, buffer: &[u8], message: &[u8]) -> Result<String, &'static str> {
    let (answer, end, after, counted, long) = append_to(table, buffer, used, flock, message)?;
    if answer.number != 0 {
        return Ok(refused(answer));
    }
    // exactly enough room does the same, one octet less is 13 at 0
    if append_to(table, &buffer[..end], used, flock, message)? != (answer, end, after[..end].to_vec(), counted.clone(), long) {
        return Err("room");
    }
    if append_to(table, &buffer[..end - 1], used, flock, message)?.0 != (Answer { number: 13, place: 0 }) {
        return Err("room");
    }
    let mut out = String::from("{");
    if long > 0 {
        out.push_str(&format!("\"long\":{long},"));
    }
    out.push_str("\"n\":0,\"out\":");
    hex(&mut out, after[..end].iter().copied());
    push_table(&mut out, &counted, shown);
    out.push_str(&format!(",\"used\":{end}}}"));
    Ok(out)
}

/// A flock's answer, which is its record.
fn totals(table: &Table, flock: u32) -> Result<String, &'static str> {
    let mut lent = table.clone();
    let answer = unsafe { entries::ospirnar_totals(lent.pointer(), table.len(), flock) };
    if lent != *table {
        return Err("altered");
    }
    let none = answer.entries == 0 && answer.bytes == 0 && answer.undelivered == 0;
    match answer.number {
        0 if answer.place == 0 => Ok(format!("{{\"bytes\":{},\"entries\":{},\"n\":0,\"undelivered\":{}}}", answer.bytes, answer.entries, answer.undelivered)),
        0 => Err("range"),
        _ if none => Ok(refused(Answer { number: answer.number, place: answer.place })),
        _ => Err("range"),
    }
}

/// A rebuild leaves the table of the bundle, or as it was where it is refused.
fn rebuild(table: &Table, shown: bool, input: &[u8]) -> Result<String, &'static str> {
    let mut after = table.clone();
    let answer = unsafe { entries::ospirnar_rebuild(after.pointer(), table.len(), input.as_ptr(), input.len()) };
    if answer.used != input.len() {
        return Err("range");
    }
    if answer.number != 0 {
        return if after == *table { Ok(refused(Answer { number: answer.number, place: answer.place })) } else { Err("altered") };
    }
    if answer.place != 0 {
        return Err("range");
    }
    if !after.guarded() {
        return Err("altered");
    }
    let mut out = String::from("{\"n\":0");
    push_table(&mut out, &after, shown);
    out.push('}');
    Ok(out)
}

/// A mark of an entry, or a sweep where there is none: the answer, the used length, and buffer and table afterwards. A refusal alters nothing; both leave every octet behind the used length.
fn deliver(table: &Table, buffer: &[u8], used: usize, entry: Option<usize>) -> Result<(Answer, usize, Vec<u8>, Table), &'static str> {
    let (mut space, mut after) = (lend(buffer), table.clone());
    let before = space.clone();
    let (lent, records, octets) = (after.pointer(), table.len(), space.as_mut_ptr());
    let answer = match entry {
        Some(entry) => unsafe { entries::ospirnar_mark(lent, records, octets, buffer.len(), used, entry) },
        None => unsafe { entries::ospirnar_sweep(lent, records, octets, buffer.len(), used) },
    };
    if answer.number != 0 {
        return match (answer.used == used, space == before && after == *table) {
            (false, _) => Err("range"),
            (_, false) => Err("altered"),
            _ => Ok((Answer { number: answer.number, place: answer.place }, used, buffer.to_vec(), after)),
        };
    }
    if answer.place != 0 || answer.used > used || used > buffer.len() || (entry.is_some() && answer.used != used) {
        return Err("range");
    }
    if space[answer.used..] != before[answer.used..] || !after.guarded() {
        return Err("altered");
    }
    space.truncate(buffer.len());
    Ok((Answer { number: 0, place: 0 }, answer.used, space, after))
}

/// The first `used` octets of a mark, all octets of a sweep.
fn delivered(table: &Table, shown: bool, used: usize, buffer: &[u8], entry: Option<usize>) -> Result<String, &'static str> {
    let (answer, end, after, counted) = deliver(table, buffer, used, entry)?;
    if answer.number != 0 {
        return Ok(refused(answer));
    }
    let mut out = String::from("{\"n\":0,\"out\":");
    let seen = if entry.is_some() { used } else { buffer.len() };
    hex(&mut out, after[..seen].iter().copied());
    push_table(&mut out, &counted, shown);
    if entry.is_none() {
        out.push_str(&format!(",\"used\":{end}"));
    }
    out.push('}');
    Ok(out)
}

/// Whether a command is lent a table.
pub fn takes_table(name: &[u8]) -> bool {
    matches!(name, b"append" | b"totals" | b"rebuild" | b"mark" | b"sweep")
}

/// The answer to a command that is lent a table, `given` being its options; None if it is none.
pub fn command(name: &[u8], given: &[&[u8]], words: &[&[u8]]) -> Option<Result<String, &'static str>> {
    let whole = |word: &&[u8]| number(word, u32::MAX as u64);
    let tables = given.iter().map(|word| Table::read(word.strip_prefix(b"table=")?)).collect::<Option<Vec<Table>>>()?;
    let shown = !tables.is_empty();
    let table = tables.into_iter().next_back().unwrap_or_else(|| Table::of(127));
    Some(match (name, words) {
        (b"append", [flock, used, buffer, message]) => append(&table, shown, whole(flock)? as u32, whole(used)? as usize, &octets(buffer)?, &octets(message)?),
        (b"totals", [flock]) => totals(&table, whole(flock)? as u32),
        (b"rebuild", [input]) => rebuild(&table, shown, &octets(input)?),
        (b"mark", [entry, used, buffer]) => delivered(&table, shown, whole(used)? as usize, &octets(buffer)?, Some(whole(entry)? as usize)),
        (b"sweep", [used, buffer]) => delivered(&table, shown, whole(used)? as usize, &octets(buffer)?, None),
        _ => return None,
    })
}

// ---------------------------------------------------------------------------------------- nights

/// `--nights CALLS`: sequences of calls on one buffer and one table, each state held against a plain model made here from the papers: entries as a list, the table counted anew (a true one) or
/// changed by the same sums (another). Prints 'N passed, M failed', N the calls that agreed.
pub fn nights(calls: usize) -> bool {
    let (mut random, mut passed, mut failed) = (Random(20261117), 0, 0);
    while passed + failed < calls {
        match night(&mut random, calls - passed - failed) {
            Ok(count) => passed += count,
            Err((count, what)) => {
                passed += count;
                failed += 1;
                println!("night: call {count}: {what}");
                if failed == 10 {
                    break;
                }
            }
        }
    }
    println!("{passed} passed, {failed} failed");
    failed == 0
}

struct Random(u64);

impl Random {
    fn below(&mut self, n: usize) -> usize {
        self.0 ^= self.0 << 13;
        self.0 ^= self.0 >> 7;
        self.0 ^= self.0 << 17;
        (self.0 % n as u64) as usize
    }
}

/// An entry of the model.
#[derive(Clone)]
struct Kept {
    flock: u32,
    delivered: bool,
    message: Vec<u8>,
}

impl Kept {
    fn octets(&self) -> Vec<u8> {
        let response = u32::from(self.message[0] == 1);
        let head = self.flock << 25 | u32::from(self.delivered) << 24 | response << 22 | self.message.len() as u32;
        [&head.to_be_bytes()[..], &self.message[..]].concat()
    }
}

/// A Binary message as we write it: a response without fields and so much content, or a small request.
fn message(random: &mut Random) -> Vec<u8> {
    if random.below(4) == 0 {
        return b"\x00\x03GET\x04http\x01a\x01/\x00\x00\x00".to_vec();
    }
    let content = [0, 1, 7, 40, 63][random.below(5)];
    [&[1, 0x40, 200, 0, content as u8][..], &vec![b'x'; content], &[0]].concat()
}

fn records(kept: &[Kept], base: &Table) -> Table {
    let mut table = base.clone();
    for entry in kept {
        let record = &mut table.all[entry.flock as usize];
        record.entries = record.entries.wrapping_add(1);
        record.bytes = record.bytes.wrapping_add(entry.message.len() as u32);
        record.undelivered = record.undelivered.wrapping_add(u32::from(!entry.delivered));
    }
    table
}

/// One night: at most 400 calls, or 900 that sweep nothing and so fill the bundle. `base` is what the table was off the truth at its beginning: nothing in three nights of four.
fn night(random: &mut Random, most: usize) -> Result<usize, (usize, &'static str)> {
    let full = random.below(12) == 0;
    let room = if full { 20_000 } else { [0, 60, 300, 1000, 4000][random.below(5)] };
    let (calls, kinds) = if full { (900, 12) } else { (50 + random.below(350), 20) };
    let calls = most.min(calls);
    let mut base = Table::of(127);
    if random.below(4) == 0 {
        for record in base.all[1..128].iter_mut() {
            *record = Flock { entries: u32::MAX - random.below(3) as u32, bytes: u32::MAX - random.below(90) as u32, undelivered: u32::MAX };
        }
    }
    let mut buffer: Vec<u8> = (0..room).map(|_| random.below(256) as u8).collect();
    let (mut kept, mut table, mut used): (Vec<Kept>, Table, usize) = (Vec::new(), base.clone(), 0);
    for count in 0..calls {
        let fault = |what| (count, what);
        let refusal = |number| Answer { number, place: 0 };
        let accepted = Answer { number: 0, place: 0 };
        let (mut want, mut model) = (buffer.clone(), kept.clone());
        let (answer, end, after, counted) = match random.below(kinds) {
            0..=8 => {
                let (flock, text) = ([0, 1, 5, 5, 127, 128, 1 + random.below(127) as u32][random.below(7)], message(random));
                let got = append_to(&table, &buffer, used, flock, &text).map_err(fault)?;
                let expected = if kept.len() == 256 {
                    refusal(8)
                } else if flock < 1 || flock > 127 {
                    refusal(15)
                } else if used + 4 + text.len() > room {
                    refusal(13)
                } else {
                    let entry = Kept { flock, delivered: false, message: text };
                    want[used..used + entry.octets().len()].copy_from_slice(&entry.octets());
                    model.push(entry);
                    accepted
                };
                if got.0 != expected {
                    return Err(fault("an append's answer"));
                }
                if got.4 != 0 {
                    return Err(fault("an append's total of long integers"));
                }
                (got.0, got.1, got.2, got.3)
            }
            9..=15 => {
                let entry = random.below(kept.len() + 2);
                let got = deliver(&table, &buffer, used, Some(entry)).map_err(fault)?;
                if got.0 != (if entry < kept.len() { accepted } else { refusal(18) }) {
                    return Err(fault("a mark's answer"));
                }
                if entry < kept.len() {
                    model[entry].delivered = true;
                    want[model[..entry].iter().map(|e| e.octets().len()).sum::<usize>()] |= 1;
                }
                got
            }
            16 | 17 => {
                let got = deliver(&table, &buffer, used, None).map_err(fault)?;
                if got.0 != accepted {
                    return Err(fault("a sweep's answer"));
                }
                model.retain(|entry| !entry.delivered);
                let front: Vec<u8> = model.iter().flat_map(|entry| entry.octets()).collect();
                want[..front.len()].copy_from_slice(&front);
                got
            }
            18 => {
                // a table of another length, or a used length past the buffer: nothing changes
                let short = Table::of(126 + 2 * random.below(2));
                let first = deliver(&short, &buffer, used, None).map_err(fault)?;
                let second = deliver(&table, &buffer, room + 1, Some(0)).map_err(fault)?;
                if first.0 != refusal(16) || second.0 != refusal(13) {
                    return Err(fault("a refusal's answer"));
                }
                (accepted, used, buffer.clone(), table.clone())
            }
            _ => {
                let mut lent = table.clone();
                for flock in 1..=127 {
                    let answer = unsafe { entries::ospirnar_totals(lent.pointer(), 127, flock) };
                    if answer.number != 0 || (Flock { entries: answer.entries, bytes: answer.bytes, undelivered: answer.undelivered }) != table.all[flock as usize] {
                        return Err(fault("a flock's answer"));
                    }
                }
                // a rebuild of whatever table is the table of the bundle
                let mut other = base.clone();
                let answer = unsafe { entries::ospirnar_rebuild(other.pointer(), 127, buffer.as_ptr(), used) };
                if answer.number != 0 || other != records(&kept, &Table::of(127)) {
                    return Err(fault("a rebuild"));
                }
                (accepted, used, buffer.clone(), table.clone())
            }
        };
        if answer.number != 0 && (after != buffer || counted != table || end != used) {
            return Err(fault("a refused call altered something"));
        }
        if after != want || end != model.iter().map(|entry| entry.octets().len()).sum::<usize>() {
            return Err(fault("the buffer afterwards"));
        }
        if counted != records(&model, &base) {
            return Err(fault("the table afterwards"));
        }
        (buffer, kept, table, used) = (after, model, counted, end);
    }
    Ok(calls)
}
