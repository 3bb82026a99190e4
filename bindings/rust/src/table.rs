//! A sheet that was read: its tables, their rows, and where each cell's text stands.

use std::ops::Range;

use crate::{alignment_slots, calls, raw_slots, result_slots, Alignment, Event, Name, Refusal, KINDS, SHEET_MAX};

/// A sheet that was read.
#[derive(Clone, Debug)]
pub struct Sheet<'s> {
    bytes: &'s [u8],
    raw: Vec<Event>,
    results: Vec<Event>,
    tables: Vec<Table<'s>>,
}

/// A table.
#[derive(Clone, Debug, PartialEq, Eq)]
pub struct Table<'s> {
    alignments: Vec<Alignment>,
    header: Row<'s>,
    rows: Vec<Row<'s>>,
}

/// A head row or a body row, as ragged as it is.
#[derive(Clone, Debug, PartialEq, Eq)]
pub struct Row<'s> {
    line: usize,
    cells: Vec<Cell<'s>>,
}

/// A cell.
#[derive(Clone, Debug, PartialEq, Eq)]
pub struct Cell<'s> {
    text: &'s [u8],
    range: Option<Range<usize>>,
}

/// Reads a whole sheet. With `code_indented`, a line that is indented by 4 columns or more is no head line. A table ends at a blank line or
/// at a remark, a line with at most 3 columns of indent and then `>`.
///
/// The only refusal is [`Refusal::SheetTooLong`]: slots that usually suffice are lent first, and where they do not, slots that always do.
pub fn read_sheet(sheet: &[u8], code_indented: bool) -> Result<Sheet<'_>, Refusal> {
    read_sheet_with(&KINDS, sheet, code_indented)
}

/// The same with a firm's own table of kinds, which is tested first; [`KINDS`] says which tables pass.
///
/// Refuses by [`Refusal::NoKindTable`], [`Refusal::WhitespaceKindsDiffer`], [`Refusal::PunctuationKindsDiffer`] and then
/// [`Refusal::SheetTooLong`].
pub fn read_sheet_with<'s>(kinds: &[u8], sheet: &'s [u8], code_indented: bool) -> Result<Sheet<'s>, Refusal> {
    let n = if sheet.len() <= SHEET_MAX { sheet.len() } else { 0 };
    match read_into(kinds, sheet, code_indented, n + 64, n + n / 2 + 96) {
        Err(Refusal::TooFewRawSlots | Refusal::TooFewResultSlots) => {
            read_into(kinds, sheet, code_indented, raw_slots(n), result_slots(n))
        }
        answer => answer,
    }
}

/// Reads a whole sheet into so many raw slots and result slots.
fn read_into<'s>(
    kinds: &[u8],
    sheet: &'s [u8],
    code_indented: bool,
    raw: usize,
    results: usize,
) -> Result<Sheet<'s>, Refusal> {
    let mut raw = vec![Event::BLANK; raw];
    let mut results = vec![Event::BLANK; results];
    let mut alignments = vec![0; alignment_slots(sheet.len().min(SHEET_MAX))];
    let counts = calls::sheet_with(kinds, sheet, code_indented, &mut raw, &mut results, &mut alignments)?;
    raw.truncate(counts.events);
    results.truncate(counts.results);
    alignments.truncate(counts.alignments);
    let tables = tables(sheet, &results, &alignments);
    Ok(Sheet { bytes: sheet, raw, results, tables })
}

/// The tables that result events tell of, and their alignments.
fn tables<'s>(sheet: &'s [u8], results: &[Event], alignments: &[u8]) -> Vec<Table<'s>> {
    let mut left = alignments.iter().filter_map(|&number| Alignment::from_number(number));
    let mut rows: Vec<Row<'s>> = Vec::new();
    let mut tables = Vec::new();
    let mut start = 0;
    for event in results {
        if event.enters(Name::GfmTableRow) {
            rows.push(Row { line: event.line as usize, cells: Vec::new() });
        } else if event.enters(Name::GfmTableCell) {
            last(&mut rows).cells.push(Cell { text: &[], range: None });
        } else if event.enters(Name::GfmTableCellText) {
            start = event.index as usize;
        } else if event.leaves(Name::GfmTableCellText) {
            let range = start..event.index as usize;
            *last(&mut last(&mut rows).cells) = Cell { text: &sheet[range.clone()], range: Some(range) };
        } else if event.leaves(Name::GfmTable) {
            let mut read = std::mem::take(&mut rows).into_iter();
            let header = read.next().expect("a table has a head row");
            let alignments = left.by_ref().take(header.cells.len()).collect();
            tables.push(Table { alignments, header, rows: read.collect() });
        }
    }
    tables
}

/// The last of a list that was begun.
fn last<T>(list: &mut [T]) -> &mut T {
    list.last_mut().expect("texts are in cells, and cells in rows")
}

impl<'s> Sheet<'s> {
    /// The sheet's bytes.
    pub fn bytes(&self) -> &'s [u8] {
        self.bytes
    }

    /// The raw events of all tables.
    pub fn raw(&self) -> &[Event] {
        &self.raw
    }

    /// The result events of all tables.
    pub fn results(&self) -> &[Event] {
        &self.results
    }

    /// The tables, in sheet order.
    pub fn tables(&self) -> &[Table<'s>] {
        &self.tables
    }
}

impl<'s> Table<'s> {
    /// The alignment of each column, as many as the head row has cells.
    pub fn alignments(&self) -> &[Alignment] {
        &self.alignments
    }

    /// The head row.
    pub fn header(&self) -> &Row<'s> {
        &self.header
    }

    /// The body rows.
    pub fn rows(&self) -> &[Row<'s>] {
        &self.rows
    }

    /// The place, from 0, of the first column whose head cell has this text.
    pub fn position(&self, name: &[u8]) -> Option<usize> {
        self.header.cells.iter().position(|cell| cell.text == name)
    }

    /// The text of each body row's cell in a column, empty where the cell is empty or missing.
    pub fn column(&self, position: usize) -> impl Iterator<Item = &'s [u8]> + '_ {
        self.rows.iter().map(move |row| row.cells.get(position).map_or(&[][..], |cell| cell.text))
    }
}

impl<'s> Row<'s> {
    /// The line of the sheet, from 1.
    pub fn line(&self) -> usize {
        self.line
    }

    /// The cells, possibly more or fewer than the head row has.
    pub fn cells(&self) -> &[Cell<'s>] {
        &self.cells
    }
}

impl<'s> Cell<'s> {
    /// The text, without whitespace around it, backslashes as they stand in the sheet. Empty where the cell is.
    pub fn text(&self) -> &'s [u8] {
        self.text
    }

    /// Where the text stands in the sheet, if the cell is not empty.
    pub fn range(&self) -> Option<Range<usize>> {
        self.range.clone()
    }
}
