//! A reader for the tag itself: one byte per step.

use super::http1;
use super::message::*;
use super::octets::*;
use super::told::Told;

const ROOM_LEAST: u128 = 8_192;
/// Longer inputs are not tried front by front: that would take too long.
const EACH_MOST: usize = 2_000;

/// What the steps over all bytes came to: after how many of them the first answer that is no call for more was given, and that
/// answer; None if all asked for more. The refusal of the beginning itself stands at 0 steps.
pub type Walked = Option<(usize, Result<Message, Refusal>)>;

/// "Each step gives ... the first reader's answer on the bytes so far, told the same scheme". "After an end or a refusal steps
/// give that answer again", so the first that is no call for more is the answer of all later ones.
pub fn walk(input: &[u8], scheme: Option<Scheme>, room: u128, told: &Told) -> Walked {
    if let Err(refusal) = begin(scheme, room) {
        return Some((0, Err(refusal)));
    }
    let answer = |steps: usize| http1::read_request(&input[..steps], scheme, told);
    let asks_more = |steps: usize| matches!(answer(steps), Err(Refusal { number: MORE, .. }));
    let steps = if input.len() <= EACH_MOST {
        (1..=input.len()).find(|&steps| !asks_more(steps))?
    } else {
        by_halves(input.len(), asks_more)?
    };
    Some((steps, answer(steps)))
}

/// The first of the numbers from 1 to `last` that does not ask for more, where all behind it do not either: "All answers on a
/// stream alone, save a closing 1, are the first answers on the longer stream too".
fn by_halves(last: usize, asks_more: impl Fn(usize) -> bool) -> Option<usize> {
    let numbers: Vec<usize> = (1..=last).collect();
    numbers.get(numbers.partition_point(|&steps| asks_more(steps))).copied()
}

/// "19 at 0 if that room is smaller, when begun, first, before a wrong scheme number's 4 too".
fn begin(scheme: Option<Scheme>, room: u128) -> Result<(), Refusal> {
    if room < ROOM_LEAST {
        return refuse(STEP_ROOM, 0);
    }
    if scheme.is_none() {
        return refuse(UNSUPPORTED, 0);
    }
    Ok(())
}
