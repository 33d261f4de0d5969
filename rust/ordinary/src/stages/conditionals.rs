//! Stage 4, "Conditionals (3.2, 3.3)".

use crate::nesting::partners;
use crate::record::{kind, numbered, Record};
use crate::second_level::Levels;

/// "With k the separator's number: +a{ becomes -a and a second-level ##(k+1),
/// -a{ becomes +a and the same. [...] }{ becomes ##(k+1), k its end's number. }
/// at i becomes ##(i+1)." And by request C-12, "a header without separator takes
/// its `}` as partner, and that `}` passes to the next record."
pub fn lower(given: &[Record]) -> Vec<Record> {
    let partner = partners(given);
    let mut levels = Levels::given(given.len());
    for (i, record) in numbered(given) {
        let k = partner[i];
        match record.kind {
            kind::YES_BLOCK | kind::NO_BLOCK => {
                levels.first(exchanged_test(record));
                levels.second(Record::jump(k + 1));
            }
            kind::SEPARATOR => levels.first(Record::jump(k + 1)),
            kind::END => levels.first(Record::jump(i + 1)),
            _ => levels.first(record),
        }
    }
    levels.removed()
}

/// The plain test that skips the jump behind it exactly when the first arm is
/// entered.
fn exchanged_test(header: Record) -> Record {
    let kind = match header.kind {
        kind::YES_BLOCK => kind::NO_TEST,
        _ => kind::YES_TEST,
    };
    Record { kind, ..header }
}
