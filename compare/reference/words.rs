//! The words of a command line: byte strings, numbers, options.

use crate::reference::items::*;
use crate::reference::message::Scheme;
use crate::reference::octets::decimal;
use crate::reference::table::{Record, Table};
use crate::reference::told::Told;

pub fn bytes_of(word: &[u8]) -> Option<Vec<u8>> {
    if word == b"-" {
        return Some(Vec::new());
    }
    if word.is_empty() || word.len() % 2 != 0 {
        return None;
    }
    let digit = |b: u8| match b {
        b'0'..=b'9' => Some(b - b'0'),
        b'a'..=b'f' => Some(b - b'a' + 10),
        _ => None,
    };
    let mut bytes = Vec::with_capacity(word.len() / 2);
    for pair in word.chunks(2) {
        bytes.push(digit(pair[0])? * 16 + digit(pair[1])?);
    }
    Some(bytes)
}

/// The scheme number told, any integer: Some(None) is an integer that is neither 0 nor 1.
pub fn scheme_of(word: &[u8]) -> Option<Option<Scheme>> {
    let (negative, digits) = match word.strip_prefix(b"-") {
        Some(rest) => (true, rest),
        None => (false, word),
    };
    Some(match (decimal(digits)?, negative) {
        (0, _) => Some(Scheme::Http),
        (1, false) => Some(Scheme::Https),
        _ => None,
    })
}

/// An integer from 0 to 4294967295.
pub fn number_of(word: &[u8]) -> Option<u64> {
    decimal(word).filter(|&n| n <= u32::MAX as u128).map(|n| n as u64)
}

/// Each option, and the item it comes with.
const OPTIONS: [(&str, Item); 5] = [
    ("head", Item::Head),
    ("closed", Item::Closed),
    ("former", Item::Former),
    ("edition", Item::Draft),
    ("table", Item::Table),
];

/// What the words `key=value` tell and lend.
pub struct Options {
    pub told: Told,
    /// A table that is lent.
    pub table: Option<Table>,
}

/// The options in front of the other words, and those. None: an option is unknown, not taken by this command (`taken` are), not
/// there yet, told twice, or no number.
pub fn options<'a>(items: Items, taken: &[&str], words: &'a [&'a [u8]]) -> Option<(Options, &'a [&'a [u8]])> {
    let mut options = Options { told: Told::nothing(items), table: None };
    let mut seen: Vec<&[u8]> = Vec::new();
    for (i, word) in words.iter().enumerate() {
        let Some(equals) = word.iter().position(|&b| b == b'=') else {
            return Some((options, &words[i..]));
        };
        let (key, value) = (&word[..equals], &word[equals + 1..]);
        let (name, item) = OPTIONS.iter().find(|(name, _)| name.as_bytes() == key)?;
        if !items.has(*item) || !taken.contains(name) || seen.contains(&key) {
            return None;
        }
        seen.push(key);
        if *name == "table" {
            options.table = Some(table_of(value)?);
        } else {
            options.told.tell(name, number_of(value)?);
        }
    }
    Some((options, &[]))
}

/// `COUNT` followed by `/FLOCK:ENTRIES:BYTES:UNDELIVERED` for records that are not all zero.
fn table_of(word: &[u8]) -> Option<Table> {
    let mut parts = word.split(|&b| b == b'/');
    let count = number_of(parts.next()?).filter(|&count| count <= 100_000)?;
    let mut table = Table::of(count as usize);
    for part in parts {
        let numbers: Vec<u64> = part.split(|&b| b == b':').map(number_of).collect::<Option<_>>()?;
        let [flock, entries, bytes, undelivered] = numbers[..] else { return None };
        let record = table.records.get_mut((flock as usize).checked_sub(1)?)?;
        *record = Record { entries: entries as u32, bytes: bytes as u32, undelivered: undelivered as u32 };
    }
    Some(table)
}
