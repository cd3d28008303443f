//! Room back in the bundle: marking an entry as delivered, and the sweep.

use super::bundle::{self, used_part};
use super::items::Items;
use super::octets::*;
use super::table::Table;

/// The bundle afterwards. "marking by entry number, counted from 0"; "marking a delivered entry again is accepted and changes
/// nothing". Order: "16, the appender's 13 at 0 for a used length past the buffer, the bundle's own, 18".
pub fn mark(table: &mut Table, buffer: &[u8], used: u64, number: u64, items: Items) -> Result<Vec<u8>, Refusal> {
    table.judge()?;
    let bundle = used_part(buffer, used)?;
    let entries = bundle::read(bundle, items)?;
    if number >= entries.len() as u64 {
        return refuse(NO_ENTRY, 0);
    }
    let entry = entries[number as usize];
    let mut marked = bundle.to_vec();
    if !entry.delivered {
        marked[entry.at] |= 1;
        table.record(entry.flock).mark();
    }
    Ok(marked)
}

/// The whole buffer afterwards, and the new used length: "undelivered entries move forward, in order and with all their
/// bytes"; "Behind the new end the old bytes stay."
pub fn sweep(table: &mut Table, buffer: &[u8], used: u64, items: Items) -> Result<(Vec<u8>, usize), Refusal> {
    table.judge()?;
    let bundle = used_part(buffer, used)?;
    let (delivered, kept): (Vec<_>, Vec<_>) = bundle::read(bundle, items)?.into_iter().partition(|entry| entry.delivered);
    for entry in delivered {
        table.record(entry.flock).take_off(entry.message.len);
    }
    let mut swept: Vec<u8> = kept.iter().flat_map(|entry| entry.whole().of(bundle).iter().copied()).collect();
    let end = swept.len();
    swept.extend_from_slice(&buffer[end..]);
    Ok((swept, end))
}
