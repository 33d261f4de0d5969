//! The refusals, and what to do about each.

use std::error::Error;
use std::fmt;

/// Why a call was turned away. Records, reply bytes and the bytes of a text are
/// numbered from 1.
#[derive(Clone, Copy, PartialEq, Eq, Hash, Debug)]
pub enum Refusal {
    /// 1: the byte count is no multiple of 8.
    Ragged,
    /// 2: more records than allowed.
    Long,
    /// 3: a kind that is not of this notation, or byte 1, 6 or 7 not zero.
    Kind {
        /// The record with this fault.
        record: u32,
    },
    /// 4: x or y outside its range.
    Field {
        /// The record with this fault.
        record: u32,
    },
    /// 5: the records are not one body.
    Nesting {
        /// The separator or end that does not fit, or the opener never closed.
        record: u32,
    },
    /// 6: a plain test directly before a kind that adds places.
    Skip {
        /// The lowest such test.
        record: u32,
    },
    /// 7: the converted length is above 4,096.
    Growth,
    /// 8: a lent buffer is too short.
    Room,
    /// 9: a reply byte that is neither 0 nor 1.
    Reply {
        /// The first such byte.
        byte: u32,
    },
    /// 10: a machine state that is not sound.
    State,
    /// 11: relative to absolute gives a number above 9,999.
    Far {
        /// The first such record.
        record: u32,
    },
    /// 12: not a text.
    Text {
        /// The first byte that no text could have there, one past the end if it stops
        /// short.
        byte: u32,
    },
    /// 13 at 0: a list of names that is ragged or has more than 999 entries.
    Names,
    /// 13, of a text: a name that is not in the list, or a thousandth label.
    Name {
        /// Its first byte.
        byte: u32,
    },
    /// 13, of a routine to be written: an action without a proper name in the list.
    Unnamed {
        /// The first such record.
        record: u32,
    },
    /// 14: a goto whose target is not there.
    Label {
        /// The lowest such goto.
        record: u32,
    },
    /// An answer that this crate has no name for, given as the library gave it.
    /// It means that the crate and the library were built from different trees.
    Unknown {
        /// The library's number.
        number: u32,
        /// The library's place.
        place: u32,
    },
}

impl Refusal {
    /// Gives the library's numbers a name; number 0 is no refusal.
    pub(crate) fn from_numbers(number: u32, place: u32) -> Option<Refusal> {
        let record = place;
        Some(match number {
            0 => return None,
            1 => Refusal::Ragged,
            2 => Refusal::Long,
            3 => Refusal::Kind { record },
            4 => Refusal::Field { record },
            5 => Refusal::Nesting { record },
            6 => Refusal::Skip { record },
            7 => Refusal::Growth,
            8 => Refusal::Room,
            9 => Refusal::Reply { byte: place },
            10 => Refusal::State,
            11 => Refusal::Far { record },
            12 => Refusal::Text { byte: place },
            13 if place == 0 => Refusal::Names,
            13 => Refusal::Name { byte: place },
            14 => Refusal::Label { record },
            _ => Refusal::Unknown { number, place },
        })
    }

    /// The paper's number.
    pub fn number(self) -> u32 {
        match self {
            Refusal::Ragged => 1,
            Refusal::Long => 2,
            Refusal::Kind { .. } => 3,
            Refusal::Field { .. } => 4,
            Refusal::Nesting { .. } => 5,
            Refusal::Skip { .. } => 6,
            Refusal::Growth => 7,
            Refusal::Room => 8,
            Refusal::Reply { .. } => 9,
            Refusal::State => 10,
            Refusal::Far { .. } => 11,
            Refusal::Text { .. } => 12,
            Refusal::Names | Refusal::Name { .. } | Refusal::Unnamed { .. } => 13,
            Refusal::Label { .. } => 14,
            Refusal::Unknown { number, .. } => number,
        }
    }

    /// The paper's place: the number of a record, a reply byte or a text's byte, or 0.
    pub fn place(self) -> u32 {
        match self {
            Refusal::Kind { record }
            | Refusal::Field { record }
            | Refusal::Nesting { record }
            | Refusal::Skip { record }
            | Refusal::Far { record }
            | Refusal::Unnamed { record }
            | Refusal::Label { record } => record,
            Refusal::Reply { byte } | Refusal::Text { byte } | Refusal::Name { byte } => byte,
            Refusal::Unknown { place, .. } => place,
            Refusal::Ragged
            | Refusal::Long
            | Refusal::Growth
            | Refusal::Room
            | Refusal::State
            | Refusal::Names => 0,
        }
    }
}

impl fmt::Display for Refusal {
    fn fmt(&self, f: &mut fmt::Formatter<'_>) -> fmt::Result {
        match self {
            Refusal::Ragged => f.write_str(
                "the byte count is no multiple of 8: the file is cut short or holds something \
                 else; send whole records of eight bytes",
            ),
            Refusal::Long => f.write_str(
                "too many records: a routine may have 512, a base or relative base 4,096; \
                 split it",
            ),
            Refusal::Kind { record } => write!(
                f,
                "record {record} has a kind that this notation does not know, or its byte 1, 6 \
                 or 7 is not zero: correct the record, or check that the file is of the kind \
                 you meant"
            ),
            Refusal::Field { record } => write!(
                f,
                "record {record} has a number outside its range: actions and labels are 1 to \
                 999, other numbers 0 to 9,999, and a field that the kind does not use is 0"
            ),
            Refusal::Nesting { record } => write!(
                f,
                "record {record} does not fit its block: a separator or end there has no \
                 matching open item, or an item opened there is never closed; add or remove \
                 the missing part"
            ),
            Refusal::Skip { record } => write!(
                f,
                "the test at record {record} stands directly before a block, loop, call or \
                 return, which it cannot skip as one record: put a call or return into a block \
                 with two arms, +a1; R##k as +a1{{; R##k; }}{{; }}; before a block or loop give \
                 the test the other sign and put a jump behind it to the record that it would \
                 have skipped to, +a1; +a2{{ as -a1; ##{}; +a2{{; then raise every ##k and R##k \
                 that names a record behind those put in. A label or an action between them is \
                 no help: what follows is then done on yes and on no",
                record.saturating_add(3)
            ),
            Refusal::Growth => f.write_str(
                "the converted routine would have more than 4,096 records: use fewer returns \
                 (each adds six places for every record of the routine), calls, blocks or loops",
            ),
            Refusal::Room => f.write_str(
                "a lent buffer is too short: output and working buffer each need eight bytes \
                 for every converted record (32,768 are always enough), a routine read from \
                 text eight for every instruction (4,096), a listing or text one for each of \
                 its bytes",
            ),
            Refusal::Reply { byte } => write!(
                f,
                "reply byte {byte} is neither 0 (no) nor 1 (yes): correct it, also if the run \
                 would not have come to it"
            ),
            Refusal::State => f.write_str(
                "the state is not sound: the position must be at most the record count, the \
                 depth at most 96, entries in use at most 9,999 and unused entries 0; hand back \
                 the state of the step before, or start fresh",
            ),
            Refusal::Far { record } => write!(
                f,
                "the forward jump at record {record} leads past 9,999, the greatest number that \
                 an absolute jump can hold: shorten it, or use stop"
            ),
            Refusal::Text { byte } => write!(
                f,
                "no text could have what stands at byte {byte}, or the text ends there too \
                 early: look for a letter too many, a blank inside an instruction, a bracket \
                 or number left out, a name longer than 16 or a number longer than 4 digits, \
                 or a `;` that does not stand between two instructions"
            ),
            Refusal::Names => f.write_str(
                "the list of names is no list: it needs 16 bytes for each name, the rest of \
                 them zero, and may have 999 names",
            ),
            Refusal::Name { byte } => write!(
                f,
                "the name at byte {byte} is not in the list of names, or it is the thousandth \
                 label: correct its spelling (capitals count) or add it to the list; a routine \
                 has at most 999 labels"
            ),
            Refusal::Unnamed { record } => write!(
                f,
                "the action of record {record} has no proper name in the list of names: give \
                 the list an entry of 1 to 16 letters or digits at the action's number"
            ),
            Refusal::Label { record } => write!(
                f,
                "the label that the goto at record {record} names is misspelt or was removed: \
                 correct the goto, or put the label back before the record that it should lead \
                 to. Of two labels, ##[s][t], the second must stand behind the leftmost first \
                 one. A label that is put in must not stand directly behind a test, which would \
                 skip it; and raise every ##k and R##k that names a record behind it. If the \
                 routine is to end there, write ##0 in place of the goto"
            ),
            Refusal::Unknown { number, place } => write!(
                f,
                "the library gave an answer that this crate does not know (number {number}, \
                 place {place}): build the library and the crate from the same tree"
            ),
        }
    }
}

impl Error for Refusal {}

#[cfg(test)]
mod tests {
    use super::*;

    #[test]
    fn numbers_and_places_come_back() {
        for number in (1..=14).chain([99]) {
            let refusal = Refusal::from_numbers(number, 7).expect("not 0");
            assert_eq!(refusal.number(), number);
            let has_place = ![1, 2, 7, 8, 10].contains(&number);
            assert_eq!(refusal.place(), if has_place { 7 } else { 0 });
        }
        assert_eq!(Refusal::from_numbers(0, 0), None);
        assert_eq!(Refusal::from_numbers(13, 0), Some(Refusal::Names));
        assert_eq!((Refusal::Names.number(), Refusal::Names.place()), (13, 0));
        let unnamed = Refusal::Unnamed { record: 7 };
        assert_eq!((unnamed.number(), unnamed.place()), (13, 7));
    }

    #[test]
    fn every_refusal_says_what_to_do() {
        let mut all: Vec<Refusal> = (1..=14)
            .chain([99])
            .filter_map(|number| Refusal::from_numbers(number, 31))
            .collect();
        all.extend([Refusal::Names, Refusal::Unnamed { record: 31 }]);
        for refusal in all {
            let text = refusal.to_string();
            assert!(text.len() > 40, "{text}");
            assert!(!text.contains("  "), "{text}");
        }
        let skip = Refusal::Skip { record: 31 }.to_string();
        assert!(skip.starts_with("the test at record 31 stands directly before a block"));
        let label = Refusal::Label { record: 31 }.to_string();
        assert!(label.starts_with("the label that the goto at record 31 names is misspelt"));
    }
}
