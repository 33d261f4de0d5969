//! Stage 1, "Labels (Projection 3.6)".

use crate::record::{kind, numbered, Record};

/// The labels of a routine, sorted by label and then by place.
pub struct Labels(Vec<(u16, usize)>);

impl Labels {
    /// Collects the labels in one pass.
    pub fn of(routine: &[Record]) -> Labels {
        let mut found: Vec<(u16, usize)> = numbered(routine)
            .filter(|(_, record)| record.kind == kind::LABEL)
            .map(|(place, record)| (record.x, place))
            .collect();
        found.sort_unstable();
        Labels(found)
    }

    /// The first `[label]` strictly after a place; after 0 it is the leftmost.
    fn first_after(&self, label: u16, place: usize) -> Option<usize> {
        let next = self.0.partition_point(|&entry| entry <= (label, place));
        match self.0.get(next) {
            Some(&(found, place)) if found == label => Some(place),
            _ => None,
        }
    }

    /// Where a goto leads; none if it has no target or is no goto: "a target lookup
    /// that finds nothing should say so to whoever asked" (request C-13).
    pub fn target(&self, record: Record) -> Option<usize> {
        let leftmost = || self.first_after(record.x, 0);
        match record.kind {
            kind::GOTO => leftmost(),
            kind::CHAINED_GOTO => leftmost().and_then(|place| self.first_after(record.y, place)),
            _ => None,
        }
    }

    /// "Place: the lowest such goto" (request C-13).
    pub fn lowest_lost_goto(&self, routine: &[Record]) -> Option<usize> {
        let is_lost =
            |&(_, record): &(usize, Record)| is_goto(record.kind) && self.target(record).is_none();
        numbered(routine).find(is_lost).map(|(place, _)| place)
    }
}

fn is_goto(kind: u8) -> bool {
    matches!(kind, kind::GOTO | kind::CHAINED_GOTO)
}

/// "At place i, [s] becomes ##(i+1); a goto becomes ##m with m its target." Every goto
/// has one: the records were checked.
pub fn lower(routine: &[Record]) -> Vec<Record> {
    let labels = Labels::of(routine);
    let lower_one = |(i, record): (usize, Record)| match record.kind {
        kind::LABEL => Record::jump(i + 1),
        _ => labels.target(record).map_or(record, Record::jump),
    };
    numbered(routine).map(lower_one).collect()
}
