//! The items of document 02 that have landed: the one place that every rule asks.

/// An item, by the name its rules and its set of cases have; its number is 02's.
#[derive(Clone, Copy, PartialEq, Eq, Debug)]
pub enum Item {
    Bundle = 1,
    Target = 2,
    Connection = 3,
    Integers = 4,
    Head = 5,
    Table = 6,
    Draft = 7,
    Long = 8,
    Former = 9,
    Closed = 10,
    Sweep = 11,
    Salvage = 12,
    Steps = 13,
    Same = 14,
}

use Item::*;

/// In the order in which they land. Integers comes with the base and changes no answer; Same is a statement only.
const LANDING: [Item; 14] =
    [Integers, Head, Bundle, Salvage, Closed, Former, Draft, Long, Target, Connection, Table, Sweep, Steps, Same];

#[derive(Clone, Copy, PartialEq, Eq, Debug, Default)]
pub struct Items(u16);

impl Items {
    /// Document 01 alone.
    pub fn none() -> Items {
        Items(0)
    }

    pub fn all() -> Items {
        Items::up_to(Same)
    }

    /// This item and those that land before it.
    pub fn up_to(last: Item) -> Items {
        let landed = LANDING.iter().take_while(|&&item| item != last).fold(Items::none(), |items, &item| items.and(item));
        landed.and(last)
    }

    /// Of numbers with commas between them, as `4,5,1`.
    pub fn parse(text: &str) -> Option<Items> {
        let mut items = Items::none();
        for word in text.split(',') {
            let number: u16 = word.parse().ok()?;
            items = items.and(*LANDING.iter().find(|&&item| item as u16 == number)?);
        }
        Some(items)
    }

    pub fn has(self, item: Item) -> bool {
        self.0 >> item as u16 & 1 == 1
    }

    pub fn and(self, item: Item) -> Items {
        Items(self.0 | 1 << item as u16)
    }

    pub fn or(self, other: Items) -> Items {
        Items(self.0 | other.0)
    }
}
