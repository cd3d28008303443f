//! How many rows for this flock: the table of flock records beside a bundle.

use super::bundle::{self, judge_flock, Appended, Entry, FLOCK_MOST};
use super::items::Items;
use super::octets::*;

/// "entries, message bytes and undelivered entries"; each wraps at 32 bits by itself (S34).
#[derive(Clone, Copy, PartialEq, Eq, Debug, Default)]
pub struct Record {
    pub entries: u32,
    pub bytes: u32,
    pub undelivered: u32,
}

impl Record {
    /// Message bytes are the messages' written lengths, heads not counted (S31).
    fn add(&mut self, length: usize, delivered: bool) {
        self.entries = self.entries.wrapping_add(1);
        self.bytes = self.bytes.wrapping_add(length as u32);
        self.undelivered = self.undelivered.wrapping_add(!delivered as u32);
    }

    /// Item 11: an undelivered entry is marked.
    pub fn mark(&mut self) {
        self.undelivered = self.undelivered.wrapping_sub(1);
    }

    /// Item 11: a delivered entry is swept.
    pub fn take_off(&mut self, length: usize) {
        self.entries = self.entries.wrapping_sub(1);
        self.bytes = self.bytes.wrapping_sub(length as u32);
    }
}

/// "a table of flock records, one per flock, in a list lent by the caller": the record of flock f is the f-th.
#[derive(Clone, PartialEq, Eq, Debug)]
pub struct Table {
    pub records: Vec<Record>,
}

impl Table {
    pub fn of(count: usize) -> Table {
        Table { records: vec![Record::default(); count] }
    }

    /// The true table of an empty bundle.
    pub fn empty() -> Table {
        Table::of(FLOCK_MOST as usize)
    }

    /// "16 at 0 for a table that has not 127 records, before all else".
    pub fn judge(&self) -> Result<(), Refusal> {
        if self.records.len() != FLOCK_MOST as usize {
            return refuse(TABLE, 0);
        }
        Ok(())
    }

    /// As the protocol has it: `COUNT` followed by `/FLOCK:ENTRIES:BYTES:UNDELIVERED` for each record that is not all zero, in
    /// order.
    pub fn text(&self) -> String {
        let mut out = self.records.len().to_string();
        for (i, record) in self.records.iter().enumerate().filter(|(_, record)| **record != Record::default()) {
            out.push_str(&format!("/{}:{}:{}:{}", i + 1, record.entries, record.bytes, record.undelivered));
        }
        out
    }

    pub fn record(&mut self, flock: u64) -> &mut Record {
        &mut self.records[flock as usize - 1]
    }

    fn add(&mut self, entry: &Entry) {
        self.record(entry.flock).add(entry.message.len, entry.delivered);
    }
}

/// "Appending keeps it true."; "a refused append changes neither bundle nor table".
pub fn append(
    table: &mut Table, buffer: &[u8], used: u64, flock: u64, message: &[u8], items: Items,
) -> Result<Appended, Refusal> {
    table.judge()?;
    let appended = bundle::append(buffer, used, flock, message, items)?;
    table.record(flock).add(appended.message_length(), false);
    Ok(appended)
}

/// "A flock's answer reads its one record".
pub fn totals(table: &Table, flock: u64) -> Result<Record, Refusal> {
    table.judge()?;
    judge_flock(flock)?;
    Ok(table.records[flock as usize - 1])
}

/// "Add a rebuild from any accepted bundle."
pub fn rebuild(table: &mut Table, input: &[u8], items: Items) -> Result<(), Refusal> {
    table.judge()?;
    let entries = bundle::read(input, items)?;
    *table = Table::empty();
    entries.iter().for_each(|entry| table.add(entry));
    Ok(())
}
