//! Stage 2, "Calls and returns (4.1, 4.2)".

use crate::record::{kind, numbered, own, Record};
use crate::second_level::Levels;

const POP: Record = Record::new(kind::ACTION, own::POP, 0);
const SEPARATOR: Record = Record::new(kind::SEPARATOR, 0, 0);
const END: Record = Record::new(kind::END, 0, 0);

/// "R##k at i becomes push(i+1) followed by a second-level ##k. ##R becomes the
/// chain for n, the routine's record count."
pub fn lower(given: &[Record]) -> Vec<Record> {
    let mut levels = Levels::given(given.len());
    for (i, record) in numbered(given) {
        match record.kind {
            kind::CALL => {
                levels.first(Record::new(kind::ACTION, own::PUSH, (i + 1) as u16));
                levels.second(Record::jump(record.x.into()));
            }
            kind::RETURN => write_chain(given.len(), &mut levels),
            _ => levels.first(record),
        }
    }
    levels.removed()
}

/// "The chain for j is +compare(j){ then pop, ##j, }{, the chain for j-1, }; for
/// j = 1 the second arm is ##0. [...] The first record is first level, the
/// others second level."
fn write_chain(n: usize, levels: &mut Levels) {
    for j in (1..=n).rev() {
        if j == n {
            levels.first(compare(j));
        } else {
            levels.second(compare(j));
        }
        levels.second(POP);
        levels.second(Record::jump(j));
        levels.second(SEPARATOR);
    }
    levels.second(Record::jump(0));
    for _ in 1..=n {
        levels.second(END);
    }
}

/// `+compare(j){`
fn compare(j: usize) -> Record {
    Record::new(kind::YES_BLOCK, own::COMPARE, j as u16)
}
