//! "What is turned away."

/// The reasons, under the numbers of the paper and of the requests after it.
#[derive(Clone, Copy, PartialEq, Eq, Debug)]
pub enum Reason {
    /// "Byte count no multiple of 8."
    Ragged = 1,
    /// "More records than allowed."
    Long = 2,
    /// "Kind not of this notation, or byte 1, 6 or 7 not zero."
    Kind = 3,
    /// "x or y outside its range."
    Field = 4,
    /// "Not one body."
    Nesting = 5,
    /// "Plain test before an adding kind."
    Skip = 6,
    /// "Converted length above 4,096."
    Growth = 7,
    /// "Output or working buffer under 8 bytes per converted record."
    Room = 8,
    /// "A reply byte not 0 or 1."
    Reply = 9,
    /// "A machine state that is not sound."
    State = 10,
    /// "Relative to absolute gives a number above 9,999."
    Far = 11,
    /// Of a text: "the first byte that no text could have there".
    Text = 12,
    /// "Unknown name or thousandth label", or a list of names that is none.
    Name = 13,
    /// "Label": a goto whose target is not there (request C-13).
    Label = 14,
}

/// A reason and its place, 0 where the paper gives none.
#[derive(Clone, Copy, PartialEq, Eq, Debug)]
pub struct Refusal {
    /// Why.
    pub reason: Reason,
    /// Where, from 1.
    pub place: usize,
}

impl Refusal {
    /// A refusal that names a place.
    pub(crate) fn at(reason: Reason, place: usize) -> Refusal {
        Refusal { reason, place }
    }

    /// A refusal of the whole.
    pub(crate) fn whole(reason: Reason) -> Refusal {
        Refusal { reason, place: 0 }
    }

    /// The paper's number for the reason.
    pub fn number(self) -> u32 {
        self.reason as u32
    }
}
