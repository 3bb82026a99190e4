//! A call with its arguments, as both readers get it, and what came back.

use harness::kinds;
use harness::print;
use harness::record::Record;
use poolsheet::{Event, Five, HeadFlags};

/// One of the six calls, with the number of slots lent; `Kinds` is the sheet call with a table of kinds.
#[derive(Clone, Copy, Debug)]
pub enum Case<'a> {
    Head { sheet: &'a [u8], offset: usize, flags: HeadFlags, slots: usize },
    Row { sheet: &'a [u8], offset: usize, lazy: bool, slots: usize },
    Resolve { list: &'a [Record], slots: usize },
    Edit { list: &'a [Record], edits: &'a [Five], pool: &'a [Record], slots: usize },
    Align { list: &'a [Record], index: usize, slots: usize },
    Sheet { sheet: &'a [u8], code_indented: bool, slots: [usize; 3] },
    Kinds { kinds: &'a [u8], sheet: &'a [u8], code_indented: bool, slots: [usize; 3] },
}

/// An answer: its number, its counts, and every slot after the call.
#[derive(Debug, Eq, PartialEq)]
pub struct Answer {
    pub number: u8,
    pub counts: Vec<usize>,
    /// Raw slots, result slots, or both, as the call has them.
    pub events: Vec<Vec<Event>>,
    pub alignments: Option<Vec<u8>>,
    pub edits: Option<Vec<Five>>,
    /// Whether something was written that was not lent for an answer.
    pub overrun: bool,
}

impl Case<'_> {
    /// The request of the harness's protocol.
    pub fn request(&self) -> String {
        match *self {
            Case::Head { sheet, offset, flags, slots } => {
                let [code, lazy, pierced] = [flags.code_indented, flags.lazy, flags.pierced].map(u8::from);
                format!("head {offset} {code} {lazy} {pierced} {slots} {}", print::bytes(sheet))
            }
            Case::Row { sheet, offset, lazy, slots } => {
                format!("row {offset} {} {slots} {}", u8::from(lazy), print::bytes(sheet))
            }
            Case::Resolve { list, slots } => format!("resolve {slots}{}", print::events(list)),
            Case::Edit { list, edits, pool, slots } => {
                let numbers = print::numbers(&wide(edits));
                let events = [print::events(list), print::events(pool)].concat();
                format!("edit {slots} {} {} {}{numbers}{events}", edits.len(), list.len(), pool.len())
            }
            Case::Align { list, index, slots } => format!("align {index} {slots}{}", print::events(list)),
            Case::Sheet { sheet, code_indented, slots: [raw, results, alignments] } => {
                let code = u8::from(code_indented);
                format!("sheet {code} {raw} {results} {alignments} {}", print::bytes(sheet))
            }
            Case::Kinds { kinds, sheet, code_indented, slots: [raw, results, alignments] } => {
                let (table, code) = (print::kinds(kinds), u8::from(code_indented));
                format!("kinds {table} {code} {raw} {results} {alignments} {}", print::bytes(sheet))
            }
        }
    }

    /// How large the input is, so that the smallest difference can be kept.
    pub fn size(&self) -> usize {
        match self {
            Case::Head { sheet, .. } | Case::Row { sheet, .. } | Case::Sheet { sheet, .. } => sheet.len(),
            Case::Kinds { kinds, sheet, .. } => sheet.len() + kinds::changes(kinds).len(),
            Case::Resolve { list, .. } | Case::Align { list, .. } => list.len(),
            Case::Edit { list, edits, pool, .. } => list.len() + edits.len() + pool.len(),
        }
    }

    /// The answer where it is refused: counts 0, slots blank, edit slots as they came.
    pub fn refused(&self, number: u8) -> Answer {
        let blank = |slots: usize| vec![Event::default(); slots];
        let (count, events, alignments) = match *self {
            Case::Head { slots, .. } => (3, vec![blank(slots)], None),
            Case::Row { slots, .. } => (2, vec![blank(slots)], None),
            Case::Resolve { slots, .. } | Case::Edit { slots, .. } => (1, vec![blank(slots)], None),
            Case::Align { slots, .. } => (1, vec![], Some(vec![0; slots])),
            Case::Sheet { slots: [raw, results, values], .. } | Case::Kinds { slots: [raw, results, values], .. } => {
                (4, vec![blank(raw), blank(results)], Some(vec![0; values]))
            }
        };
        let edits = match self {
            Case::Edit { edits, .. } => Some(edits.to_vec()),
            _ => None,
        };
        Answer { number, counts: vec![0; count], events, alignments, edits, overrun: false }
    }
}

impl Answer {
    /// The answer as a line of the harness's protocol.
    pub fn line(&self) -> String {
        let mut line = format!("{}{}", self.number, print::numbers(&widened(&self.counts)));
        for group in &self.events {
            let records: Vec<Record> = group.iter().map(to_record).collect();
            line += &print::event_slots(&records, group.len() as u64);
        }
        if let Some(alignments) = &self.alignments {
            let used = alignments.iter().rposition(|&alignment| alignment != 0).map_or(0, |last| last + 1);
            let numbers: Vec<u64> = alignments[..used].iter().map(|&alignment| alignment.into()).collect();
            line += &print::alignment_slots(&numbers, alignments.len() as u64);
        }
        if let Some(edits) = &self.edits {
            line += &format!(" |{}", print::numbers(&wide(edits)));
        }
        line + if self.overrun { " and more was written than lent" } else { "" }
    }
}

fn widened(numbers: &[usize]) -> Vec<u64> {
    numbers.iter().map(|&number| number as u64).collect()
}

fn wide(edits: &[Five]) -> Vec<u64> {
    widened(edits.as_flattened())
}

/// One of our records as the harness has it.
fn to_record(event: &Event) -> Record {
    Record {
        kind: event.kind.into(),
        name: event.name.into(),
        line: event.line.into(),
        column: event.column.into(),
        index: event.index.into(),
        vs: event.vs.into(),
        link: event.link.into(),
    }
}

/// A record of the harness as ours. Its numbers fit: those of a sheet do, and no other is drawn larger.
pub fn to_ours(record: &Record) -> Event {
    let byte = |number: u64| u8::try_from(number).expect("kind, name, vs and link are below 256");
    let word = |number: u64| u32::try_from(number).expect("line, column and index are below 2^32");
    Event {
        kind: byte(record.kind),
        name: byte(record.name),
        line: word(record.line),
        column: word(record.column),
        index: word(record.index),
        vs: byte(record.vs),
        link: byte(record.link),
    }
}
