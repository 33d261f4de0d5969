//! Stage 3, "Loops (3.4)".

use crate::nesting::partners;
use crate::record::{kind, numbered, Record};
use crate::second_level::Levels;

/// "With k the partner's number: +a{* becomes -a and a second-level ##(k+1);
/// -a{* becomes +a and the same; *} becomes ##k."
pub fn lower(given: &[Record]) -> Vec<Record> {
    let partner = partners(given);
    let mut levels = Levels::given(given.len());
    for (i, record) in numbered(given) {
        let k = partner[i];
        match record.kind {
            kind::YES_LOOP | kind::NO_LOOP => {
                levels.first(exchanged_test(record));
                levels.second(Record::jump(k + 1));
            }
            kind::LOOP_END => levels.first(Record::jump(k)),
            _ => levels.first(record),
        }
    }
    levels.removed()
}

/// The plain test that skips the jump behind it exactly when the body is entered.
fn exchanged_test(header: Record) -> Record {
    let kind = match header.kind {
        kind::YES_LOOP => kind::NO_TEST,
        _ => kind::YES_TEST,
    };
    Record { kind, ..header }
}
