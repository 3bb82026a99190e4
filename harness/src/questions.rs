//! The questions that are document 01's own: 1, 2 and 8 to 14, written from its text, and request U9's 20 to 22, from that text.
//! Questions 3 to 7 are not asked here: the crate refuses by them, and `watch.rs` tells their numbers.

use crate::lines::Line;
use crate::record::{self, Record};

/// Question 1's limit.
pub const SHEET_LIMIT: usize = 65_536;

/// An edit: a position, a number removed, a stretch of the pool, and whether it goes before earlier additions there.
#[derive(Clone, Copy, Debug, Eq, PartialEq)]
pub struct Edit {
    pub position: u64,
    pub removed: u64,
    pub start: u64,
    pub count: u64,
    pub before: bool,
}

/// 1. Has the sheet at most 65,536 bytes?
pub fn is_short_enough(sheet: &[u8]) -> bool {
    sheet.len() <= SHEET_LIMIT
}

/// 2. Is the offset a line start, not past the end? The lines from there on, if so.
pub fn lines_from(lines: &[Line], offset: u64) -> Option<&[Line]> {
    let place = lines.iter().position(|line| line.start as u64 == offset)?;
    Some(&lines[place..])
}

/// 8. Is the line not blank?
pub fn is_not_blank(sheet: &[u8], line: Line) -> bool {
    !line.is_blank(sheet)
}

/// 9, 12, 14. Are there slots for all?
pub fn has_slots(slots: u64, needed: usize) -> bool {
    needed as u64 <= slots
}

/// 10. Is the list made of raw tables?
pub fn is_raw_tables(list: &[Record]) -> bool {
    let mut rest = list;
    while !rest.is_empty() {
        match after_table(rest) {
            Some(after) => rest = after,
            None => return false,
        }
    }
    true
}

/// The list after one raw table: a head holding row, line end, delimiter row; then pairs of line end and row.
fn after_table(list: &[Record]) -> Option<&[Record]> {
    let list = after_record(list, record::ENTER, record::HEAD)?;
    let list = after_row(list, record::ROW)?;
    let list = after_piece(list, &[record::LINE_ENDING])?;
    let list = after_row(list, record::DELIMITER_ROW)?;
    let mut list = after_record(list, record::EXIT, record::HEAD)?;
    while let Some(row) = after_piece(list, &[record::LINE_ENDING]) {
        list = after_row(row, record::ROW)?;
    }
    Some(list)
}

/// The list after one row: its entry, one or more pieces, its exit.
fn after_row(list: &[Record], name: u64) -> Option<&[Record]> {
    let pieces: &[u64] = match name {
        record::ROW => &[record::SPACE_OR_TAB, record::DIVIDER, record::DATA],
        _ => &[record::SPACE_OR_TAB, record::DIVIDER, record::MARKER, record::FILLER],
    };
    let list = after_record(list, record::ENTER, name)?;
    let mut list = after_piece(list, pieces)?;
    while let Some(rest) = after_piece(list, pieces) {
        list = rest;
    }
    after_record(list, record::EXIT, name)
}

/// The list after one piece, entered and left, of one of the names.
fn after_piece<'a>(list: &'a [Record], names: &[u64]) -> Option<&'a [Record]> {
    let name = list.first().map(|record| record.name).filter(|name| names.contains(name))?;
    let list = after_record(list, record::ENTER, name)?;
    after_record(list, record::EXIT, name)
}

/// The list after one record of this kind and name; its link must be none or text.
fn after_record(list: &[Record], kind: u64, name: u64) -> Option<&[Record]> {
    let (first, rest) = list.split_first()?;
    (first.kind == kind && first.name == name && first.link <= 1).then_some(rest)
}

/// 11. Do the merged edits stay in the list without overlap, and added events in the pool?
///
/// An edit that removes and adds nothing is dropped first. Sums may pass 64 bits, so they are taken in 128.
pub fn edits_fit(list: usize, pool: usize, edits: &[Edit]) -> bool {
    let kept: Vec<&Edit> = edits.iter().filter(|edit| edit.removed > 0 || edit.count > 0).collect();
    kept.iter().all(|edit| {
        let end = u128::from(edit.position) + removed_at(edit.position, &kept);
        let is_inside = |other: &&Edit| other.position > edit.position && u128::from(other.position) < end;
        let added_end = u128::from(edit.start) + u128::from(edit.count);
        end <= list as u128 && !kept.iter().any(is_inside) && (edit.count == 0 || added_end <= pool as u128)
    })
}

/// The number removed at a position: removals add up.
fn removed_at(position: u64, edits: &[&Edit]) -> u128 {
    let here = edits.iter().filter(|edit| edit.position == position);
    here.map(|edit| u128::from(edit.removed)).sum()
}

/// 13. Does the event enter a GfmTable, and does a delimiter row follow, closed, its values entered and left in turn?
pub fn has_closed_values(list: &[Record], index: u64) -> bool {
    let from = usize::try_from(index).unwrap_or(usize::MAX).min(list.len());
    let Some((first, rest)) = list[from..].split_first() else {
        return false;
    };
    let row = rest.iter().position(|record| record.enters(record::DELIMITER_ROW));
    first.enters(record::TABLE) && row.is_some_and(|row| values_alternate(&rest[row + 1..]))
}

/// Whether the records up to the delimiter row's exit, which must come, enter and leave values in turn.
fn values_alternate(row: &[Record]) -> bool {
    let mut inside = false;
    for record in row {
        if record.exits(record::DELIMITER_ROW) {
            return !inside;
        }
        if record.enters(record::VALUE) || record.exits(record::VALUE) {
            if record.enters(record::VALUE) == inside {
                return false;
            }
            inside = !inside;
        }
    }
    false
}

/// 20. Are there 256 entries, and no kind above 6?
pub fn are_kinds(kinds: &[u8]) -> bool {
    kinds.len() == 256 && kinds.iter().all(|&kind| kind <= 6)
}

/// 21. Are bytes 9 and 32 exactly those of kind 1, and bytes 10 and 13 exactly those of kind 2?
pub fn has_whitespace_kinds(kinds: &[u8]) -> bool {
    bytes_of(kinds, 1) == [9, 32] && bytes_of(kinds, 2) == [10, 13]
}

/// 22. Has each of kinds 3 to 6 exactly one byte, and is the kind of the `>` byte 0?
pub fn has_punctuation_kinds(kinds: &[u8]) -> bool {
    (3..=6).all(|kind| bytes_of(kinds, kind).len() == 1) && kinds[62] == 0
}

/// The bytes of a kind, rising.
fn bytes_of(kinds: &[u8], kind: u8) -> Vec<usize> {
    (0..kinds.len()).filter(|&byte| kinds[byte] == kind).collect()
}
