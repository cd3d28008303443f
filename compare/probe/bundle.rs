//! The commands that read bundles (document 02, items 1 and 12), over libbundle_capi.a. Those that change one are in table.rs.
//!
//!   bundle HEX    flock_list FLOCK ROOM HEX    salvage ROOM HEX    salvage_text HEX

use super::{hex, judge_room, list, number, octets, output, ranges, refused, room, write, write_hex, write_text, Answer, Lent};

mod entries {
    //! As in include/ospirnar.h, line for line.
    #[repr(C)]
    pub struct BundleAnswer {
        pub number: u32,
        pub place: usize,
        pub count: usize,
    }
    #[repr(C)]
    pub struct ListAnswer {
        pub number: u32,
        pub place: usize,
        pub len: usize,
    }
    #[repr(C)]
    pub struct SalvageAnswer {
        pub number: u32,
        pub place: usize,
        pub entries: usize,
        pub kept: usize,
        pub left: usize,
        pub stop: u32,
    }
    #[link(name = "bundle_capi", kind = "static")]
    extern "C" {
        pub fn ospirnar_read_bundle(input: *const u8, input_len: usize, entries: *mut u32, entries_len: usize) -> BundleAnswer;
        pub fn ospirnar_flock_list(input: *const u8, input_len: usize, flock: u32, output: *mut u8, output_len: usize) -> ListAnswer;
        pub fn ospirnar_salvage(input: *const u8, input_len: usize, output: *mut u8, output_len: usize) -> SalvageAnswer;
        pub fn ospirnar_salvage_line(input: *const u8, input_len: usize, output: *mut u8, output_len: usize) -> ListAnswer;
    }
}

const ENTRIES_MOST: usize = 256;

/// An answer that the header rules out.
const OUT_OF_RANGE: Answer = Answer { number: u32::MAX, place: usize::MAX };

/// The bundle's answer: accepted it is as long as the input; a refusal counts no entry.
fn read_bundle(input: &[u8], lent: &mut Lent<u32>) -> (Answer, usize) {
    let (pointer, room) = lent.lend();
    let answer = unsafe { entries::ospirnar_read_bundle(input.as_ptr(), input.len(), pointer, room) };
    let good = if answer.number == 0 { answer.place == input.len() && answer.count <= ENTRIES_MOST } else { answer.count == 0 };
    (if good { Answer { number: answer.number, place: answer.place } } else { OUT_OF_RANGE }, answer.count)
}

pub fn bundle(input: &[u8]) -> Result<String, &'static str> {
    let call = |lent: &mut Lent<u32>| read_bundle(input, lent).0;
    let mut lent = ranges(3 * ENTRIES_MOST);
    let (answer, count) = read_bundle(input, &mut lent);
    if answer == OUT_OF_RANGE {
        return Err("range");
    }
    if answer.number != 0 {
        let mut none = ranges(0);
        if call(&mut none) != answer {
            return Err("room");
        }
        return if lent.kept_from(0) && none.kept_from(0) { Ok(refused(answer)) } else { Err("altered") };
    }
    judge_room(&lent, 3 * count, answer, call)?;
    let entries: Vec<&[u32]> = lent.all[..3 * count].chunks(3).collect();
    let inside = |entry: &&[u32]| entry[0] & 0x3f_ffff == entry[2] && entry[1] as u64 + entry[2] as u64 <= input.len() as u64;
    if !entries.iter().all(inside) {
        return Err("range");
    }
    let mut out = String::from("{\"entries\":");
    list(&mut out, &entries, |out, entry| {
        let head = entry[0];
        out.push_str(&format!("[{},{},{},{},{}]", head >> 25, head >> 24 & 1, head >> 22 & 3, entry[1], entry[2]));
    });
    out.push_str(",\"n\":0}");
    Ok(out)
}

/// An answer as other writers give theirs: the length written, or the refusal's place.
fn written(answer: entries::ListAnswer) -> Answer {
    match answer.number {
        0 if answer.place == 0 => Answer { number: 0, place: answer.len },
        0 => OUT_OF_RANGE,
        _ if answer.len == 0 => Answer { number: answer.number, place: answer.place },
        _ => OUT_OF_RANGE,
    }
}

fn flock_list(input: &[u8], flock: u32, out: &mut Lent<u8>) -> Answer {
    let (pointer, room) = out.lend();
    written(unsafe { entries::ospirnar_flock_list(input.as_ptr(), input.len(), flock, pointer, room) })
}

fn salvage_line(input: &[u8], out: &mut Lent<u8>) -> Answer {
    let (pointer, room) = out.lend();
    written(unsafe { entries::ospirnar_salvage_line(input.as_ptr(), input.len(), pointer, room) })
}

/// More than the line takes.
const LINE_MOST: usize = 128;

/// The salvage's answer as other writers give theirs, then entries, octets left off and the number that stopped it. What is kept and what is left off are the input; a
/// refusal tells nothing but itself.
fn salvage_into(input: &[u8], out: &mut Lent<u8>) -> (Answer, usize, usize, u32) {
    let (pointer, room) = out.lend();
    let answer = unsafe { entries::ospirnar_salvage(input.as_ptr(), input.len(), pointer, room) };
    let good = match answer.number {
        0 => answer.place == 0 && answer.kept <= input.len() && answer.left == input.len() - answer.kept && answer.entries <= ENTRIES_MOST,
        _ => answer.kept == 0 && answer.left == 0 && answer.entries == 0 && answer.stop == 0,
    };
    let place = if answer.number == 0 { answer.kept } else { answer.place };
    (if good { Answer { number: answer.number, place } } else { OUT_OF_RANGE }, answer.entries, answer.left, answer.stop)
}

pub fn salvage(space: usize, input: &[u8]) -> Result<String, &'static str> {
    let kept = match write(space, |out| salvage_into(input, out).0)? {
        Ok(kept) => kept,
        Err(OUT_OF_RANGE) => return Err("range"),
        Err(answer) => return Ok(refused(answer)),
    };
    let (_, entries, left, stop) = salvage_into(input, &mut output(space));
    let mut out = format!("{{\"bytes\":{},\"entries\":{entries},\"left\":{left},\"n\":0,\"out\":", kept.len());
    hex(&mut out, kept);
    out.push_str(&format!(",\"stop\":{stop}}}"));
    Ok(out)
}

/// The answer to a command of bundles; None if it is none.
pub fn command(name: &[u8], words: &[&[u8]]) -> Option<Result<String, &'static str>> {
    Some(match (name, words) {
        (b"bundle", [input]) => bundle(&octets(input)?),
        (b"flock_list", [flock, space, input]) => {
            let (flock, space, input) = (number(flock, u32::MAX as u64)? as u32, room(space)?, octets(input)?);
            write_hex(space, |out| flock_list(&input, flock, out))
        }
        (b"salvage", [space, input]) => salvage(room(space)?, &octets(input)?),
        (b"salvage_text", [input]) => {
            let input = octets(input)?;
            write_text(LINE_MOST, |out| salvage_line(&input, out))
        }
        _ => return None,
    })
}
