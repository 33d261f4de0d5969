//! The record: "Eight bytes each, no header."

/// Bytes in a record.
pub const RECORD: usize = 8;

/// The kinds of the paper's table, and of its relative base.
pub mod kind {
    /// `a`: do a.
    pub const ACTION: u8 = 1;
    /// `+a`: do a, skip one on no.
    pub const YES_TEST: u8 = 2;
    /// `-a`: do a, skip one on yes.
    pub const NO_TEST: u8 = 3;
    /// `##k`: go to k.
    pub const JUMP: u8 = 4;
    /// `[s]`: a label.
    pub const LABEL: u8 = 5;
    /// `##[s]`: go to the leftmost `[s]`.
    pub const GOTO: u8 = 6;
    /// `##[s][t]`: go to the first `[t]` after the leftmost `[s]`.
    pub const CHAINED_GOTO: u8 = 7;
    /// `+a{`: a conditional entered on yes.
    pub const YES_BLOCK: u8 = 8;
    /// `-a{`: a conditional entered on no.
    pub const NO_BLOCK: u8 = 9;
    /// `}{`: between the two arms of a conditional.
    pub const SEPARATOR: u8 = 10;
    /// `}`: the end of a conditional.
    pub const END: u8 = 11;
    /// `+a{*`: a loop entered on yes.
    pub const YES_LOOP: u8 = 12;
    /// `-a{*`: a loop entered on no.
    pub const NO_LOOP: u8 = 13;
    /// `*}`: the end of a loop.
    pub const LOOP_END: u8 = 14;
    /// `R##k`: call k.
    pub const CALL: u8 = 15;
    /// `##R`: return.
    pub const RETURN: u8 = 16;
    /// Forward x, in a relative base.
    pub const FORWARD: u8 = 17;
    /// Backward x, in a relative base.
    pub const BACKWARD: u8 = 18;
    /// Stop, in a relative base.
    pub const STOP: u8 = 19;
}

/// "The counter stack's own actions", as a base may hold them in x.
pub mod own {
    /// Push y.
    pub const PUSH: u16 = 1_001;
    /// Pop.
    pub const POP: u16 = 1_002;
    /// Compare the top with y.
    pub const COMPARE: u16 = 1_003;
}

/// A record as it is stored.
pub(crate) type Stored = [u8; RECORD];

/// What a record says: its kind and its two fields.
#[derive(Clone, Copy, PartialEq, Eq, Debug)]
pub struct Record {
    /// Byte 0.
    pub kind: u8,
    /// "Bytes 2-3 are x [...] low byte first."
    pub x: u16,
    /// "Bytes 4-5 are y, low byte first."
    pub y: u16,
}

impl Record {
    /// A record of this kind with these fields.
    pub const fn new(kind: u8, x: u16, y: u16) -> Record {
        Record { kind, x, y }
    }

    /// `##k`.
    pub const fn jump(k: usize) -> Record {
        Record::new(kind::JUMP, k as u16, 0)
    }

    /// Reads a record; the bytes that must be zero are not looked at.
    pub fn read(bytes: &[u8; RECORD]) -> Record {
        Record {
            kind: bytes[0],
            x: u16::from_le_bytes([bytes[2], bytes[3]]),
            y: u16::from_le_bytes([bytes[4], bytes[5]]),
        }
    }

    /// The record's eight bytes.
    pub fn bytes(self) -> [u8; RECORD] {
        let [x_low, x_high] = self.x.to_le_bytes();
        let [y_low, y_high] = self.y.to_le_bytes();
        [self.kind, 0, x_low, x_high, y_low, y_high, 0, 0]
    }
}

/// Records with their numbers: "The first record is number 1."
pub(crate) fn numbered(records: &[Record]) -> impl Iterator<Item = (usize, Record)> + '_ {
    (1..).zip(records.iter().copied())
}

/// The whole records that these bytes hold.
pub fn records_of(bytes: &[u8]) -> Vec<Record> {
    let (whole, _) = bytes.as_chunks::<RECORD>();
    whole.iter().map(Record::read).collect()
}

/// The bytes of these records.
pub fn bytes_of(records: &[Record]) -> Vec<u8> {
    let mut bytes = vec![0; RECORD * records.len()];
    write_records(records, &mut bytes);
    bytes
}

/// Fills the first eight bytes per record and keeps the rest.
pub(crate) fn write_records(records: &[Record], out: &mut [u8]) {
    let (places, _) = out.as_chunks_mut::<RECORD>();
    for (place, record) in places.iter_mut().zip(records) {
        *place = record.bytes();
    }
}
