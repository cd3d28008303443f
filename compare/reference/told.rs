//! What a call is told beside its input (a request's scheme stands by itself).

use super::items::*;

/// Item 7: "each call on a Binary message is told 0 for RFC 9292 or 1 for the draft".
#[derive(Clone, Copy, PartialEq, Eq, Debug, Default)]
pub enum Edition {
    #[default]
    Rfc9292,
    Draft,
    /// Another number was told.
    Another,
}

/// "In the draft a value can't be empty, there is no padding, and a message may also end before the final header section.
/// ... All else, colon names included, is document 01's."
impl Edition {
    pub fn takes_empty_values(self) -> bool {
        self != Edition::Draft
    }
    pub fn takes_padding(self) -> bool {
        self != Edition::Draft
    }
    pub fn may_end_before_header(self) -> bool {
        self == Edition::Draft
    }
}

#[derive(Clone, Copy, Debug, Default)]
pub struct Told {
    /// The items of document 02 that have landed.
    pub items: Items,
    /// "whether the message answers a HEAD"
    pub head: bool,
    /// "that the connection has closed"
    pub closed: bool,
    /// "to keep the former rule" on empty content
    pub former: bool,
    pub edition: Edition,
}

impl Told {
    /// Told nothing.
    pub fn nothing(items: Items) -> Told {
        Told { items, ..Told::default() }
    }

    /// Told these numbers, each by its name.
    pub fn by(items: Items, options: &[(&str, u64)]) -> Told {
        let mut told = Told::nothing(items);
        for (key, number) in options {
            told.tell(key, *number);
        }
        told
    }

    pub fn has(&self, item: Item) -> bool {
        self.items.has(item)
    }

    /// "A yes or no told to any call is a number: 0 is no, any other yes."
    pub fn tell(&mut self, key: &str, number: u64) {
        match key {
            "head" => self.head = number != 0,
            "closed" => self.closed = number != 0,
            "former" => self.former = number != 0,
            "edition" => {
                self.edition = match number {
                    0 => Edition::Rfc9292,
                    1 => Edition::Draft,
                    _ => Edition::Another,
                }
            }
            _ => {}
        }
    }
}
