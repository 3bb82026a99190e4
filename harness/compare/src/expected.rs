//! The answers of the harness: document 01's questions, and the crate.

use crate::case::{to_ours, Answer, Case};
use harness::calls::{self, SheetSlots};
use harness::drive::Flags;
use harness::questions::Edit;
use harness::record::Record;
use poolsheet::{Event, Five, HeadFlags};

/// The answer that the harness gives to a case.
pub fn expected(case: &Case) -> Answer {
    accepted(case).unwrap_or_else(|number| case.refused(number))
}

fn accepted(case: &Case) -> Result<Answer, u8> {
    match *case {
        Case::Head { sheet, offset, flags, slots } => {
            let head = calls::head(sheet, offset as u64, flags.code_indented, crate_flags(flags), slots as u64)?;
            let counts = vec![head.events.len(), head.end as usize, head.cells];
            Ok(of_events(counts, vec![filled(&head.events, slots)]))
        }
        Case::Row { sheet, offset, lazy, slots } => {
            let row = calls::row(sheet, offset as u64, lazy, slots as u64)?;
            let counts = vec![row.events.len(), row.end as usize];
            Ok(of_events(counts, vec![filled(&row.events, slots)]))
        }
        Case::Resolve { list, slots } => {
            let results = calls::resolve(list, slots as u64)?;
            Ok(of_events(vec![results.len()], vec![filled(&results, slots)]))
        }
        Case::Edit { list, edits, pool, slots } => accepted_edit(list, edits, pool, slots),
        Case::Align { list, index, slots } => {
            let alignments = calls::align(list, index as u64, slots as u64)?;
            let counts = vec![alignments.len()];
            Ok(Answer { alignments: Some(narrow(&alignments, slots)), ..of_events(counts, vec![]) })
        }
        Case::Sheet { sheet, code_indented, slots } => {
            Ok(of_sheet(&calls::sheet(sheet, code_indented, &sheet_slots(slots))?, slots))
        }
        Case::Kinds { kinds, sheet, code_indented, slots } => {
            Ok(of_sheet(&calls::sheet_with(kinds, sheet, code_indented, &sheet_slots(slots))?, slots))
        }
    }
}

pub fn crate_flags(flags: HeadFlags) -> Flags {
    Flags { lazy: flags.lazy, pierced: flags.pierced }
}

fn accepted_edit(list: &[Record], edits: &[Five], pool: &[Record], slots: usize) -> Result<Answer, u8> {
    let given: Vec<Edit> = edits.iter().map(crate_edit).collect();
    let results = calls::edit(list, &given, pool, slots as u64)?;
    // Request U5: by rising position, equal positions in the order given.
    let mut sorted = edits.to_vec();
    sorted.sort_by_key(|five| five[0]);
    Ok(Answer { edits: Some(sorted), ..of_events(vec![results.len()], vec![filled(&results, slots)]) })
}

/// Five numbers as an edit.
pub fn crate_edit(five: &Five) -> Edit {
    harness::read::edit(&five.map(|number| number as u64))
}

fn sheet_slots(slots: [usize; 3]) -> SheetSlots {
    let [raw, results, alignments] = slots.map(|slots| slots as u64);
    SheetSlots { raw, results, alignments }
}

/// The answer with a sheet's reading in so many slots.
pub fn of_sheet(read: &calls::Sheet, slots: [usize; 3]) -> Answer {
    let counts = vec![read.tables, read.raw.len(), read.results.len(), read.alignments.len()];
    let events = vec![filled(&read.raw, slots[0]), filled(&read.results, slots[1])];
    Answer { alignments: Some(narrow(&read.alignments, slots[2])), ..of_events(counts, events) }
}

/// An accepted answer of counts and event slots.
fn of_events(counts: Vec<usize>, events: Vec<Vec<Event>>) -> Answer {
    Answer { number: 0, counts, events, alignments: None, edits: None, overrun: false }
}

/// The records, then blank slots.
fn filled(records: &[Record], slots: usize) -> Vec<Event> {
    let mut filled: Vec<Event> = records.iter().map(to_ours).collect();
    filled.resize(slots, Event::default());
    filled
}

/// The alignments, then unused slots.
fn narrow(alignments: &[u64], slots: usize) -> Vec<u8> {
    let mut narrow: Vec<u8> = alignments.iter().map(|&alignment| alignment as u8).collect();
    narrow.resize(slots, 0);
    narrow
}
