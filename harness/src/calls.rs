//! The six calls of document 01, each with its questions in order. A refusal is `Err` of its number.

use crate::bom::{unmarked, Unmarked};
use crate::drive::{self, Flags};
use crate::event::Event;
use crate::kinds;
use crate::lines::{lines, Line};
use crate::questions::{self, Edit};
use crate::record::{self, Record};
use crate::run;

/// An accepted head.
pub struct Head {
    pub events: Vec<Record>,
    pub end: u64,
    pub cells: usize,
}

/// An accepted row.
pub struct Row {
    pub events: Vec<Record>,
    pub end: u64,
}

/// An accepted sheet.
#[derive(Debug, Eq, PartialEq)]
pub struct Sheet {
    pub tables: usize,
    pub raw: Vec<Record>,
    pub results: Vec<Record>,
    pub alignments: Vec<u64>,
}

/// `Ok` where a question gets a yes, its number where it gets a no.
fn ask(yes: bool, number: u8) -> Result<(), u8> {
    yes.then_some(()).ok_or(number)
}

/// The index of the last event: the first byte of the last line's line end, or the sheet's length.
fn end_of(events: &[Record]) -> u64 {
    events.last().expect("a head or row has events").index
}

/// Head: questions 1, 2, then 3 to 7 by the crate, then 9.
pub fn head(sheet: &[u8], offset: u64, code_indented: bool, flags: Flags, slots: u64) -> Result<Head, u8> {
    ask(questions::is_short_enough(sheet), 1)?;
    let sheet = unmarked(sheet);
    let all = lines(sheet.text);
    let from = sheet.offset(offset).and_then(|offset| questions::lines_from(&all, offset)).ok_or(2)?;
    let driven = drive::head(sheet.text, from, code_indented, flags)?;
    ask(questions::has_slots(slots, driven.events.len()), 9)?;
    let events = sheet.raised(record::from_events(&driven.events));
    Ok(Head { end: end_of(&events), events, cells: driven.cells })
}

/// Row: questions 1, 2, then 5 by the crate, then 8 and 9. A blank line is not given to the crate unless it is lazy.
pub fn row(sheet: &[u8], offset: u64, lazy: bool, slots: u64) -> Result<Row, u8> {
    ask(questions::is_short_enough(sheet), 1)?;
    let sheet = unmarked(sheet);
    let all = lines(sheet.text);
    let line = sheet.offset(offset).and_then(|offset| questions::lines_from(&all, offset)).ok_or(2)?[0];
    ask(lazy || questions::is_not_blank(sheet.text, line), 8)?;
    let events = sheet.raised(record::from_events(&drive::row(sheet.text, line, lazy)?));
    ask(questions::has_slots(slots, events.len()), 9)?;
    Ok(Row { end: end_of(&events), events })
}

/// Resolve: questions 10 and 12.
pub fn resolve(list: &[Record], slots: u64) -> Result<Vec<Record>, u8> {
    ask(questions::is_raw_tables(list), 10)?;
    let results = run::resolve(list);
    ask(questions::has_slots(slots, results.len()), 12)?;
    Ok(results)
}

/// Edit: questions 11 and 12.
pub fn edit(list: &[Record], edits: &[Edit], pool: &[Record], slots: u64) -> Result<Vec<Record>, u8> {
    ask(questions::edits_fit(list.len(), pool.len(), edits), 11)?;
    let results = run::edit(list, edits, pool);
    ask(questions::has_slots(slots, results.len()), 12)?;
    Ok(results)
}

/// Alignment: questions 13 and 14.
pub fn align(list: &[Record], index: u64, slots: u64) -> Result<Vec<u64>, u8> {
    ask(questions::has_closed_values(list, index), 13)?;
    let alignments = run::align(list, index as usize);
    ask(questions::has_slots(slots, alignments.len()), 14)?;
    Ok(alignments)
}

/// The slots lent to the sheet call.
pub struct SheetSlots {
    pub raw: u64,
    pub results: u64,
    pub alignments: u64,
}

/// Sheet with the built-in kinds: question 1, then 9, 12 and 14, each once for the whole sheet.
pub fn sheet(sheet: &[u8], code_indented: bool, slots: &SheetSlots) -> Result<Sheet, u8> {
    ask(questions::is_short_enough(sheet), 1)?;
    read(unmarked(sheet), code_indented, slots)
}

/// Sheet with a firm's own kinds (request U9): questions 20, 21 and 22, then as `sheet`. A byte order mark is passed
/// over whatever kinds its bytes have. The rest is given to the crate in built-in bytes; events hold places only, so
/// those it gives are the answer.
pub fn sheet_with(kinds: &[u8], sheet: &[u8], code_indented: bool, slots: &SheetSlots) -> Result<Sheet, u8> {
    ask(questions::are_kinds(kinds), 20)?;
    ask(questions::has_whitespace_kinds(kinds), 21)?;
    ask(questions::has_punctuation_kinds(kinds), 22)?;
    ask(questions::is_short_enough(sheet), 1)?;
    let Unmarked { text, before } = unmarked(sheet);
    let text = kinds::exchanged(text, &kinds::to_built_in(kinds));
    read(Unmarked { text: &text, before }, code_indented, slots)
}

/// The reading of a sheet that is not too long: questions 9, 12 and 14.
fn read(sheet: Unmarked, code_indented: bool, slots: &SheetSlots) -> Result<Sheet, u8> {
    let tables = raw_tables(sheet.text, code_indented);
    let raw: Vec<Event> = tables.iter().flatten().cloned().collect();
    ask(questions::has_slots(slots.raw, raw.len()), 9)?;
    let results = run::resolve_events(raw.clone());
    ask(questions::has_slots(slots.results, results.len()), 12)?;
    let alignments = run::all_alignments(&results);
    ask(questions::has_slots(slots.alignments, alignments.len()), 14)?;
    let [raw, results] = [raw, results].map(|events| sheet.raised(record::from_events(&events)));
    Ok(Sheet { tables: tables.len(), raw, results, alignments })
}

/// The walk of 01, with request U3, over a sheet without a byte order mark: the raw events of each table, in sheet order.
pub fn raw_tables(sheet: &[u8], code_indented: bool) -> Vec<Vec<Event>> {
    Walk::new(sheet).raw_tables(code_indented)
}

/// A sheet cut into lines for the walk.
pub struct Walk<'a> {
    sheet: &'a [u8],
    lines: Vec<Line>,
    /// For each line, the place of the first line from there on that is blank or a remark, or the number of lines.
    closing: Vec<usize>,
}

impl<'a> Walk<'a> {
    pub fn new(sheet: &'a [u8]) -> Walk<'a> {
        let lines = lines(sheet);
        let closing = next_closing(sheet, &lines);
        Walk { sheet, lines, closing }
    }

    /// Whether a head is tried at all.
    pub fn has_text(&self) -> bool {
        self.closing.iter().enumerate().any(|(place, &closing)| closing > place)
    }

    /// The raw events of each table: a head is tried at each line that is neither blank, nor a remark, nor a table's.
    pub fn raw_tables(&self, code_indented: bool) -> Vec<Vec<Event>> {
        let mut tables = vec![];
        let mut place = 0;
        while place < self.lines.len() {
            // The rows of a table whose head is here: the lines behind the delimiter row up to a blank one or a remark.
            let rows = self.closing.get(place + 2).map_or(0, |closing| closing - (place + 2));
            let try_head =
                || drive::table(self.sheet, &self.lines[place..], code_indented, Flags::default(), rows).ok();
            if let Some(driven) = (self.closing[place] > place).then(try_head).flatten() {
                tables.push(driven.events);
                place += 2 + rows;
            } else {
                place += 1;
            }
        }
        tables
    }
}

/// For each line, the place of the first line from there on that is blank or a remark, or the number of lines.
fn next_closing(sheet: &[u8], lines: &[Line]) -> Vec<usize> {
    let mut closing = vec![lines.len(); lines.len()];
    let mut next = lines.len();
    for place in (0..lines.len()).rev() {
        if lines[place].is_blank(sheet) || lines[place].is_remark(sheet) {
            next = place;
        }
        closing[place] = next;
    }
    closing
}

/// Whether the crate resolves all tables of a sheet in one list as it does each alone.
pub fn resolves_apart(sheet: &[u8], code_indented: bool) -> bool {
    let tables = raw_tables(unmarked(sheet).text, code_indented);
    let together = run::resolve_events(tables.iter().flatten().cloned().collect());
    let apart: Vec<Event> = tables.into_iter().flat_map(run::resolve_events).collect();
    record::from_events(&together) == record::from_events(&apart)
}
