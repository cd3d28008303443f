//! What came through the radio: the longest front of whole entries.

use super::bundle;
use super::items::Items;
use super::octets::*;

const INPUT_MOST: usize = 65_536;

pub struct Salvaged {
    pub entries: usize,
    /// The bytes kept.
    pub kept: Vec<u8>,
    /// How many bytes are left off.
    pub left: usize,
    /// The number of "the refusal that stopped it (0 if none)": the bundle reader's on the whole input (S46).
    pub stop: u32,
}

/// "from arbitrary bytes it copies the longest front of whole entries that the bundle reader accepts to lent room";
/// "13 at 0 if the room is smaller than what is kept".
pub fn salvage(input: &[u8], room: u128, items: Items) -> Result<Salvaged, Refusal> {
    let salvaged = front(input, items);
    if salvaged.kept.len() as u128 > room {
        return refuse(ROOM, 0);
    }
    Ok(salvaged)
}

fn front(input: &[u8], items: Items) -> Salvaged {
    let (entries, stop) = bundle::front(input, items);
    let end = entries.iter().map(|entry| entry.whole().len).sum();
    let stop = stop.map_or(0, |refusal| refusal.number);
    Salvaged { entries: entries.len(), kept: input[..end].to_vec(), left: input.len() - end, stop }
}

/// "A program prints one line, `kept ENTRIES BYTES left BYTES stop NUMBER`; above 65,536 bytes of input it is `kept 0 0
/// left 65536 stop 8`."
pub fn text(input: &[u8], items: Items) -> String {
    if input.len() > INPUT_MOST {
        return "kept 0 0 left 65536 stop 8\n".to_string();
    }
    let Salvaged { entries, kept, left, stop } = front(input, items);
    format!("kept {entries} {} left {left} stop {stop}\n", kept.len())
}
