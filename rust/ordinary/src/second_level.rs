//! Records of two levels, and "Removing second level (3.1)".

use crate::record::{kind, Record};

/// What a stage writes before second level is removed.
pub struct Levels {
    records: Vec<Record>,
    /// Where each first-level record stands among all, from 1.
    places: Vec<usize>,
}

impl Levels {
    /// Nothing yet, from a stage that is given this many records.
    pub fn given(count: usize) -> Levels {
        Levels {
            records: Vec::with_capacity(2 * count),
            places: Vec::with_capacity(count),
        }
    }

    /// Writes a first-level record.
    pub fn first(&mut self, record: Record) {
        self.records.push(record);
        self.places.push(self.records.len());
    }

    /// Writes a second-level record.
    pub fn second(&mut self, record: Record) {
        self.records.push(record);
    }

    /// "##0 stays; a jump above the count of first-level records becomes ##0;
    /// any other ##k becomes ##(k+l), l being the second-level records before
    /// the k-th first-level one. This holds for jumps of either level."
    pub fn removed(self) -> Vec<Record> {
        let Levels {
            mut records,
            places,
        } = self;
        for record in &mut records {
            if record.kind == kind::JUMP && record.x != 0 {
                *record = Record::jump(place_of(&places, record.x));
            }
        }
        records
    }
}

/// k + l is the place of the k-th first-level record among all.
fn place_of(places: &[usize], k: u16) -> usize {
    places.get(usize::from(k) - 1).copied().unwrap_or(0)
}
