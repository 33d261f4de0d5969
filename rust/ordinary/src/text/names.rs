//! Names: "1 to 16 letters or digits", padded with zeros to 16 bytes.

use crate::refusal::{Reason, Refusal};

/// Bytes in an entry of a list, and the longest that a name may be.
pub const ENTRY: usize = 16;
/// The most entries that a list may have, and the most labels of a text.
pub const MOST: usize = 999;

/// A name padded with zeros.
pub type Name = [u8; ENTRY];

/// A list of these names, for the reader and the writer; what is longer than 16
/// bytes is cut off there.
pub fn name_list(names: &[&str]) -> Vec<u8> {
    let entry = |name: &&str| {
        let bytes = name.bytes().chain([0; ENTRY]);
        bytes.take(ENTRY).collect::<Vec<u8>>()
    };
    names.iter().flat_map(entry).collect()
}

/// "13 at 0 first, for a list that is ragged or above 999 entries."
pub fn entries(list: &[u8]) -> Result<&[Name], Refusal> {
    match list.as_chunks() {
        (entries, []) if entries.len() <= MOST => Ok(entries),
        _ => Err(Refusal::whole(Reason::Name)),
    }
}

/// A name is made of letters and digits.
pub fn is_of_name(byte: u8) -> bool {
    byte.is_ascii_alphanumeric()
}

/// The name that an entry holds, if it holds a proper one: one to sixteen letters
/// or digits, then zeros only.
pub fn proper(entry: &Name) -> Option<&[u8]> {
    let end = entry.iter().position(|&byte| !is_of_name(byte));
    let (name, rest) = entry.split_at(end.unwrap_or(ENTRY));
    (!name.is_empty() && rest.iter().all(|&byte| byte == 0)).then_some(name)
}

/// Slots of a table; more than twice as many as there can be names.
const SLOTS: usize = 2_048;

/// Different names, numbered from 1 in the order they came in.
pub struct Numbered {
    names: Vec<Name>,
    /// A name's number, in the first free slot from the one that it falls on.
    slots: [u16; SLOTS],
}

impl Numbered {
    /// No names.
    pub fn none() -> Numbered {
        Numbered {
            names: Vec::new(),
            slots: [0; SLOTS],
        }
    }

    /// A list's entries, under the number of their place. Entries that are no proper
    /// name are there too, but no text has one. "The number is its first place in
    /// the list."
    pub fn of_list(entries: &[Name]) -> Numbered {
        let mut numbered = Numbered::none();
        numbered.names.extend_from_slice(entries);
        for (place, name) in (1..).zip(entries) {
            if let Err(slot) = numbered.find(name) {
                numbered.slots[slot] = place;
            }
        }
        numbered
    }

    /// The number of a name that is there.
    pub fn number(&self, name: &Name) -> Option<u16> {
        self.find(name).ok()
    }

    /// The number of a name, the next one if it is new; none if it is the thousandth.
    pub fn number_or_next(&mut self, name: &Name) -> Option<u16> {
        let slot = match self.find(name) {
            Ok(number) => return Some(number),
            Err(slot) => slot,
        };
        if self.names.len() == MOST {
            return None;
        }
        self.names.push(*name);
        let number = self.names.len() as u16;
        self.slots[slot] = number;
        Some(number)
    }

    /// A name's number, or the slot for it.
    fn find(&self, name: &Name) -> Result<u16, usize> {
        let mut slot = falls_on(name);
        loop {
            match self.slots[slot] {
                0 => return Err(slot),
                number if self.names[usize::from(number) - 1] == *name => return Ok(number),
                _ => slot = (slot + 1) % SLOTS,
            }
        }
    }
}

/// The slot where the search for a name begins.
fn falls_on(name: &Name) -> usize {
    let whole = u128::from_le_bytes(*name);
    let mixed = (whole as u64).rotate_left(23) ^ (whole >> 64) as u64;
    let mixed = mixed.wrapping_mul(0x9E37_79B9_7F4A_7C15);
    (mixed >> 40) as usize % SLOTS
}
