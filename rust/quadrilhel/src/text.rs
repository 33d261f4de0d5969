//! Typed routines: the desk's text in, and out again.

use std::error::Error;
use std::fmt;

use crate::refusal::Refusal;
use crate::{c, count, filled, NAME_BYTES, NAME_LIMIT, RECORD, ROUTINE_LIMIT, TEXT_BYTES};

/// Reads a routine from text and answers how many records it has.
///
/// `names` is a list of names as the library takes it, 16 bytes an entry; [`Names`]
/// makes one. The records stand in the first eight bytes each of `out`, the rest of
/// `out` is as it was. Refusals 13 at 0, then 12 and 13 by their place, then 2 and 8;
/// a refused call does not write. Whether the routine is well built is for
/// [`check_routine`](crate::check_routine).
pub fn read_text(text: &[u8], names: &[u8], out: &mut [u8]) -> Result<usize, Refusal> {
    count(c::read_text(text, names, out))
}

/// Writes a routine as text and answers the text's length in bytes.
///
/// [`TEXT_BYTES`] are always enough room. Refusals 1 to 4, 13 at 0, 13 at the first
/// record whose action has no proper name, and 8; a refused call does not write.
pub fn write_text(routine: &[u8], names: &[u8], text: &mut [u8]) -> Result<usize, Refusal> {
    count(c::write_text(routine, names, text)).map_err(|refusal| match refusal {
        Refusal::Name { byte } => Refusal::Unnamed { record: byte },
        other => other,
    })
}

/// The routine that a text is read as.
///
/// ```
/// let names = quadrilhel::Names::of(&["three", "take", "log"])?;
/// let routine = quadrilhel::typed("+three{; take; }; log", &names)?;
/// assert_eq!(quadrilhel::as_text(&routine, &names)?, "+three{; take; }; log");
/// # Ok::<(), Box<dyn std::error::Error>>(())
/// ```
pub fn typed(text: impl AsRef<[u8]>, names: &Names) -> Result<Vec<u8>, Mistyped> {
    let text = text.as_ref();
    let read = |out: &mut [u8]| read_text(text, names.as_bytes(), out);
    filled(RECORD * ROUTINE_LIMIT, RECORD, read).map_err(|refusal| Mistyped::new(refusal, text))
}

/// A routine as text.
pub fn as_text(routine: &[u8], names: &Names) -> Result<String, Refusal> {
    let write = |text: &mut [u8]| write_text(routine, names.as_bytes(), text);
    let text = filled(TEXT_BYTES, 1, write)?;
    // The library writes ASCII only, so nothing is lost here.
    Ok(String::from_utf8_lossy(&text).into_owned())
}

/// Different names for the actions 1, 2, 3 and so on.
///
/// With such a list, what was read is always written, and reading that gives the same
/// records.
#[derive(Clone, PartialEq, Eq, Debug, Default)]
pub struct Names {
    entries: Vec<u8>,
}

impl Names {
    /// A list of these names, at most 999, each of 1 to 16 letters or digits.
    pub fn of(names: &[&str]) -> Result<Names, BadName> {
        if names.len() > NAME_LIMIT {
            return Err(BadName::TooMany);
        }
        let mut entries = Vec::with_capacity(NAME_BYTES * names.len());
        for (index, name) in names.iter().enumerate() {
            let number = index + 1;
            let is_proper = (1..=NAME_BYTES).contains(&name.len())
                && name.bytes().all(|byte| byte.is_ascii_alphanumeric());
            if !is_proper {
                return Err(BadName::Improper { number });
            }
            if let Some(first) = names[..index].iter().position(|other| other == name) {
                let first = first + 1;
                return Err(BadName::Repeated { number, first });
            }
            entries.extend(name.bytes().chain([0; NAME_BYTES]).take(NAME_BYTES));
        }
        Ok(Names { entries })
    }

    /// The list as the library takes it.
    pub fn as_bytes(&self) -> &[u8] {
        &self.entries
    }
}

/// Why names make no list.
#[derive(Clone, Copy, PartialEq, Eq, Hash, Debug)]
pub enum BadName {
    /// There are more than 999.
    TooMany,
    /// A name is not 1 to 16 letters or digits.
    Improper {
        /// Its number, from 1.
        number: usize,
    },
    /// A name stands twice.
    Repeated {
        /// Its number, from 1.
        number: usize,
        /// The number of the first like it.
        first: usize,
    },
}

impl fmt::Display for BadName {
    fn fmt(&self, f: &mut fmt::Formatter<'_>) -> fmt::Result {
        match self {
            BadName::TooMany => f.write_str("a list may have 999 names: leave out the rest"),
            BadName::Improper { number } => write!(
                f,
                "name {number} is not 1 to 16 letters (A to Z, a to z) or digits: choose another"
            ),
            BadName::Repeated { number, first } => write!(
                f,
                "name {number} is the same as name {first}: choose another, or leave it out"
            ),
        }
    }
}

impl Error for BadName {}

/// Why a text was turned away, and where in it.
#[derive(Clone, Copy, PartialEq, Eq, Hash, Debug)]
pub struct Mistyped {
    /// The refusal.
    pub refusal: Refusal,
    /// The line, from 1, one more after each line feed; 0 if the refusal is of the
    /// whole.
    pub line: usize,
    /// The byte in that line, from 1; 0 if the refusal is of the whole.
    pub column: usize,
}

impl Mistyped {
    fn new(refusal: Refusal, text: &[u8]) -> Mistyped {
        let (line, column) = match refusal.place() {
            0 => (0, 0),
            place => line_and_column(text, place as usize),
        };
        Mistyped {
            refusal,
            line,
            column,
        }
    }
}

/// The line and the column of a byte of a text, or of one past its end, from 1.
fn line_and_column(text: &[u8], place: usize) -> (usize, usize) {
    let before = &text[..text.len().min(place.saturating_sub(1))];
    let lines = before.iter().filter(|&&byte| byte == b'\n').count();
    let start = before.iter().rposition(|&byte| byte == b'\n');
    let column = before.len() - start.map_or(0, |feed| feed + 1);
    (lines + 1, column + 1)
}

impl fmt::Display for Mistyped {
    fn fmt(&self, f: &mut fmt::Formatter<'_>) -> fmt::Result {
        if self.line > 0 {
            write!(f, "line {}, column {}: ", self.line, self.column)?;
        }
        self.refusal.fmt(f)
    }
}

impl Error for Mistyped {
    fn source(&self) -> Option<&(dyn Error + 'static)> {
        Some(&self.refusal)
    }
}

#[cfg(test)]
mod tests {
    use super::*;

    #[test]
    fn lines_and_columns() {
        let text = b"a;\nbc;\r\n\nd";
        for (place, spot) in [
            (1, (1, 1)),
            (3, (1, 3)),
            (4, (2, 1)),
            (8, (2, 5)),
            (9, (3, 1)),
            (10, (4, 1)),
            (11, (4, 2)),
            (99, (4, 2)),
        ] {
            assert_eq!(line_and_column(text, place), spot, "{place}");
        }
        assert_eq!(line_and_column(b"", 1), (1, 1));
    }

    #[test]
    fn lists_of_names() {
        let names = Names::of(&["take", "abcdefghijklmnop"]).expect("proper");
        assert_eq!(
            names.as_bytes(),
            b"take\0\0\0\0\0\0\0\0\0\0\0\0abcdefghijklmnop"
        );
        assert_eq!(Names::of(&[]), Ok(Names::default()));
        for bad in ["", "abcdefghijklmnopq", "a b", "a_b", "é", "a\0"] {
            let improper = Err(BadName::Improper { number: 2 });
            assert_eq!(Names::of(&["x", bad]), improper, "{bad}");
        }
        let repeated = BadName::Repeated {
            number: 3,
            first: 1,
        };
        assert_eq!(Names::of(&["x", "X", "x"]), Err(repeated));
        let many: Vec<String> = (0..1_000).map(|number| format!("n{number}")).collect();
        let many: Vec<&str> = many.iter().map(String::as_str).collect();
        assert_eq!(Names::of(&many), Err(BadName::TooMany));
        assert!(Names::of(&many[1..]).is_ok_and(|names| names.as_bytes().len() == 15_984));
    }
}
