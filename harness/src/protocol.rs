//! The line protocol: one answer line for each request line.

use crate::calls::{self, Sheet, SheetSlots};
use crate::crate_only;
use crate::drive::Flags;
use crate::guard::guarded;
use crate::kinds;
use crate::print;
use crate::read::{self, Words};

/// The answer to a request: `?` if it is unreadable, `panic` if the crate panicked.
pub fn answer(request: &str) -> String {
    let answered = guarded(|| answer_words(Words::new(request)));
    match answered {
        Ok(answer) => answer.unwrap_or_else(|| "?".to_string()),
        Err(_) => "panic".to_string(),
    }
}

fn answer_words(mut words: Words) -> Option<String> {
    match words.word()? {
        "head" => head(words),
        "row" => row(words),
        "resolve" => resolve(words),
        "edit" => edit(words),
        "align" => align(words),
        "sheet" => sheet(words),
        "kinds" => sheet_with(words),
        other => crate_only::answer(other, words),
    }
}

/// `head OFFSET CODE_INDENTED LAZY PIERCED SLOTS HEX`
fn head(mut words: Words) -> Option<String> {
    let offset = words.number()?;
    let code_indented = words.flag()?;
    let flags = Flags { lazy: words.flag()?, pierced: words.flag()? };
    let slots = words.number()?;
    let sheet = words.bytes()?;
    words.end()?;
    Some(match calls::head(&sheet, offset, code_indented, flags, slots) {
        Ok(head) => {
            let group = print::event_slots(&head.events, slots);
            format!("0 {} {} {}{group}", head.events.len(), head.end, head.cells)
        }
        Err(number) => format!("{number} 0 0 0 | +{slots}"),
    })
}

/// `row OFFSET LAZY SLOTS HEX`
fn row(mut words: Words) -> Option<String> {
    let offset = words.number()?;
    let lazy = words.flag()?;
    let slots = words.number()?;
    let sheet = words.bytes()?;
    words.end()?;
    Some(match calls::row(&sheet, offset, lazy, slots) {
        Ok(row) => format!("0 {} {}{}", row.events.len(), row.end, print::event_slots(&row.events, slots)),
        Err(number) => format!("{number} 0 0 | +{slots}"),
    })
}

/// `resolve SLOTS EVENT..`
fn resolve(mut words: Words) -> Option<String> {
    let slots = words.number()?;
    let list = words.events()?;
    Some(match calls::resolve(&list, slots) {
        Ok(results) => format!("0 {}{}", results.len(), print::event_slots(&results, slots)),
        Err(number) => format!("{number} 0 | +{slots}"),
    })
}

/// `edit SLOTS E L P`, then E edits of five numbers, L list events, P pool events
fn edit(mut words: Words) -> Option<String> {
    let slots = words.number()?;
    let (edit_count, list_count, pool_count) = (words.number()?, words.number()?, words.number()?);
    let mut fives = words.edits(edit_count)?;
    let list = words.some_events(list_count)?;
    let pool = words.some_events(pool_count)?;
    words.end()?;
    let edits: Vec<_> = fives.iter().map(read::edit).collect();
    Some(match calls::edit(&list, &edits, &pool, slots) {
        Ok(results) => {
            // Request U5: by rising position, equal positions in the order given.
            fives.sort_by_key(|five| five[0]);
            let group = print::event_slots(&results, slots);
            format!("0 {}{group} |{}", results.len(), print::numbers(fives.as_flattened()))
        }
        Err(number) => format!("{number} 0 | +{slots} |{}", print::numbers(fives.as_flattened())),
    })
}

/// `align INDEX SLOTS EVENT..`
fn align(mut words: Words) -> Option<String> {
    let index = words.number()?;
    let slots = words.number()?;
    let list = words.events()?;
    Some(match calls::align(&list, index, slots) {
        Ok(alignments) => format!("0 {}{}", alignments.len(), print::alignment_slots(&alignments, slots)),
        Err(number) => format!("{number} 0 | +{slots}"),
    })
}

/// `sheet CODE_INDENTED RAW RESULTS ALIGNMENTS HEX`
fn sheet(words: Words) -> Option<String> {
    read_sheet(words, calls::sheet)
}

/// `kinds ENTRIES CHANGES CODE_INDENTED RAW RESULTS ALIGNMENTS HEX`
fn sheet_with(mut words: Words) -> Option<String> {
    let (entries, changes) = (words.number()?, words.bytes()?);
    let kinds = kinds::table(entries, &changes)?;
    read_sheet(words, |sheet, code_indented, slots| calls::sheet_with(&kinds, sheet, code_indented, slots))
}

/// The words of a sheet request, and its answer by a call.
fn read_sheet(mut words: Words, call: impl Fn(&[u8], bool, &SheetSlots) -> Result<Sheet, u8>) -> Option<String> {
    let code_indented = words.flag()?;
    let slots = SheetSlots { raw: words.number()?, results: words.number()?, alignments: words.number()? };
    let bytes = words.bytes()?;
    words.end()?;
    Some(match call(&bytes, code_indented, &slots) {
        Ok(read) => {
            let counts = [read.tables, read.raw.len(), read.results.len(), read.alignments.len()];
            let [tables, events, results, alignments] = counts;
            let raw_group = print::event_slots(&read.raw, slots.raw);
            let result_group = print::event_slots(&read.results, slots.results);
            let alignment_group = print::alignment_slots(&read.alignments, slots.alignments);
            format!("0 {tables} {events} {results} {alignments}{raw_group}{result_group}{alignment_group}")
        }
        Err(number) => {
            format!("{number} 0 0 0 0 | +{} | +{} | +{}", slots.raw, slots.results, slots.alignments)
        }
    })
}
