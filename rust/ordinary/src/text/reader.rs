//! Text to records.

use crate::record::{kind, Record, Stored, RECORD};
use crate::refusal::{Reason, Refusal};
use crate::text::names::{entries, is_of_name, Name, Numbered, ENTRY};
use crate::ROUTINE_LIMIT;

/// Reads a routine from text and answers the number of its records, which are in
/// the first eight bytes per record of `out`. "Refusals: 13 at 0 first, for a list
/// that is ragged or above 999 entries; then 12 text [...] and 13 unknown name or
/// thousandth label [...], whichever comes first; then 2 and 8, no others."
pub fn read_text(text: &[u8], names: &[u8], out: &mut [u8]) -> Result<usize, Refusal> {
    let mut reader = Reader {
        text,
        at: 0,
        list: entries(names)?,
        actions: None,
        labels: Numbered::none(),
    };
    let mut records = [[0; RECORD]; ROUTINE_LIMIT];
    let count = reader.routine(&mut records)?;
    let Some(read) = records.get(..count) else {
        return Err(Refusal::whole(Reason::Long));
    };
    match out.as_chunks_mut().0.get_mut(..count) {
        Some(part) => part.copy_from_slice(read),
        None => return Err(Refusal::whole(Reason::Room)),
    }
    Ok(count)
}

/// Text that has been read up to a place.
struct Reader<'a> {
    text: &'a [u8],
    /// How many bytes have been read.
    at: usize,
    list: &'a [Name],
    /// The list's names, numbered when the first action is read.
    actions: Option<Box<Numbered>>,
    labels: Numbered,
}

impl Reader<'_> {
    /// "Instructions parted by `;` [...]. Text without instructions is the empty
    /// routine, a `;` stands only between two." Keeps as many records as there is
    /// room for and answers how many there are.
    fn routine(&mut self, records: &mut [Stored]) -> Result<usize, Refusal> {
        self.blanks();
        if self.next().is_none() {
            return Ok(0);
        }
        let mut count = 0;
        loop {
            let record = self.instruction()?;
            if let Some(kept) = records.get_mut(count) {
                *kept = record.bytes();
            }
            count += 1;
            self.blanks();
            if self.next().is_none() {
                return Ok(count);
            }
            self.expect(b';')?;
            self.blanks();
        }
    }

    /// One instruction, by its first byte.
    fn instruction(&mut self) -> Result<Record, Refusal> {
        let bare = |kind| Ok(Record::new(kind, 0, 0));
        match self.next() {
            Some(b'+') => self.test([kind::YES_TEST, kind::YES_BLOCK, kind::YES_LOOP]),
            Some(b'-') => self.test([kind::NO_TEST, kind::NO_BLOCK, kind::NO_LOOP]),
            Some(b'[') => Ok(Record::new(kind::LABEL, self.label()?, 0)),
            Some(b'#') => self.jump(),
            Some(b'}') => {
                self.at += 1;
                bare(if self.takes(b'{') {
                    kind::SEPARATOR
                } else {
                    kind::END
                })
            }
            Some(b'*') => {
                self.at += 1;
                self.expect(b'}')?;
                bare(kind::LOOP_END)
            }
            Some(b'!') => {
                self.at += 1;
                bare(kind::JUMP)
            }
            _ => self.action_or_call(),
        }
    }

    /// `+a`, `+a{` or `+a{*`, and the same with `-`.
    fn test(&mut self, [test, block, repeat]: [u8; 3]) -> Result<Record, Refusal> {
        self.at += 1;
        let from = self.at;
        let name = self.name()?;
        let action = self.action(from, &name)?;
        let kind = if !self.takes(b'{') {
            test
        } else if !self.takes(b'*') {
            block
        } else {
            repeat
        };
        Ok(Record::new(kind, action, 0))
    }

    /// `##k`, `##[s]`, `##[s][t]` or `##R`.
    fn jump(&mut self) -> Result<Record, Refusal> {
        self.expect(b'#')?;
        self.expect(b'#')?;
        if self.takes(b'R') {
            return Ok(Record::new(kind::RETURN, 0, 0));
        }
        if self.next() != Some(b'[') {
            return Ok(Record::new(kind::JUMP, self.number()?, 0));
        }
        let first = self.label()?;
        if self.next() != Some(b'[') {
            return Ok(Record::new(kind::GOTO, first, 0));
        }
        Ok(Record::new(kind::CHAINED_GOTO, first, self.label()?))
    }

    /// `a`, or `R##k`: an `R` with a `#` behind it can only be a call.
    fn action_or_call(&mut self) -> Result<Record, Refusal> {
        let from = self.at;
        let name = self.name()?;
        if self.text[from..self.at] == *b"R" && self.next() == Some(b'#') {
            self.expect(b'#')?;
            self.expect(b'#')?;
            return Ok(Record::new(kind::CALL, self.number()?, 0));
        }
        Ok(Record::new(kind::ACTION, self.action(from, &name)?, 0))
    }

    /// `[s]`, as its number: "Labels are numbered by first appearance."
    fn label(&mut self) -> Result<u16, Refusal> {
        self.expect(b'[')?;
        let from = self.at;
        let name = self.name()?;
        let number = self.labels.number_or_next(&name);
        let number = number.ok_or(Refusal::at(Reason::Name, from + 1))?;
        self.expect(b']')?;
        Ok(number)
    }

    /// The number of the action whose name was read from a place on.
    fn action(&mut self, from: usize, name: &Name) -> Result<u16, Refusal> {
        let list = self.list;
        let actions = self
            .actions
            .get_or_insert_with(|| Box::new(Numbered::of_list(list)));
        let number = actions.number(name);
        number.ok_or(Refusal::at(Reason::Name, from + 1))
    }

    /// "An action name or label is 1 to 16 letters or digits; a longer one is 12
    /// only."
    fn name(&mut self) -> Result<Name, Refusal> {
        let rest = &self.text[self.at..];
        let run = rest.iter().take(ENTRY + 1);
        let length = run.take_while(|&&byte| is_of_name(byte)).count();
        let mut name = [0; ENTRY];
        match name.get_mut(..length) {
            Some(part) if length > 0 => part.copy_from_slice(&rest[..length]),
            Some(_) => return Err(self.wrong()),
            None => {
                self.at += ENTRY;
                return Err(self.wrong());
            }
        }
        self.at += length;
        Ok(name)
    }

    /// "A number has 1 to 4 digits."
    fn number(&mut self) -> Result<u16, Refusal> {
        let mut number = 0;
        for digits in 0..5 {
            match self.next() {
                Some(digit @ b'0'..=b'9') if digits < 4 => {
                    number = 10 * number + u16::from(digit - b'0');
                    self.at += 1;
                }
                Some(b'0'..=b'9') => return Err(self.wrong()),
                _ if digits == 0 => return Err(self.wrong()),
                _ => break,
            }
        }
        Ok(number)
    }

    /// "Bytes 9, 10, 13 and 32 free around them and nowhere else."
    fn blanks(&mut self) {
        while let Some(9 | 10 | 13 | 32) = self.next() {
            self.at += 1;
        }
    }

    /// The next byte, none at the end.
    fn next(&self) -> Option<u8> {
        self.text.get(self.at).copied()
    }

    /// Reads this byte if it is the next.
    fn takes(&mut self, byte: u8) -> bool {
        let is_next = self.next() == Some(byte);
        self.at += usize::from(is_next);
        is_next
    }

    /// Reads this byte; no text can have another here.
    fn expect(&mut self, byte: u8) -> Result<(), Refusal> {
        if self.takes(byte) {
            Ok(())
        } else {
            Err(self.wrong())
        }
    }

    /// "The first byte that no text could have there, one past the end if it stops
    /// short."
    fn wrong(&self) -> Refusal {
        Refusal::at(Reason::Text, self.at + 1)
    }
}
