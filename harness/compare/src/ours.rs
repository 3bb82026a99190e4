//! The answers of our reader. Slots and counts are full of junk before each call, and a few slots behind the lent ones
//! must stay so.

use crate::case::{to_ours, Answer, Case};
use harness::record::Record;
use poolsheet::{Event, Five, SheetSlots};

const JUNK: u8 = 0xa5;
const JUNK_COUNT: usize = 0xa5a5_a5a5_a5a5_a5a5;
const JUNK_EVENT: Event =
    Event { kind: JUNK, name: JUNK, line: 0xa5a5_a5a5, column: 0xa5a5_a5a5, index: 0xa5a5_a5a5, vs: JUNK, link: JUNK };

/// The number of slots behind the lent ones.
const BEHIND: usize = 2;

/// Slots of one kind.
struct Slots<T> {
    all: Vec<T>,
    junk: T,
}

impl<T: Copy + PartialEq> Slots<T> {
    fn new(lent: usize, junk: T) -> Slots<T> {
        Slots { all: vec![junk; lent + BEHIND], junk }
    }

    fn lent(&mut self) -> &mut [T] {
        let lent = self.all.len() - BEHIND;
        &mut self.all[..lent]
    }

    /// The lent slots, and whether one behind them has changed.
    fn after(mut self) -> (Vec<T>, bool) {
        let behind = self.all.split_off(self.all.len() - BEHIND);
        (self.all, behind.iter().any(|slot| *slot != self.junk))
    }
}

fn event_slots(lent: usize) -> Slots<Event> {
    Slots::new(lent, JUNK_EVENT)
}

/// The answer that our reader gives to a case.
pub fn ours(case: &Case) -> Answer {
    match *case {
        Case::Head { sheet, offset, flags, slots } => {
            let (mut raw, mut counts) = (event_slots(slots), [JUNK_COUNT; 3]);
            let number = poolsheet::head(sheet, offset, flags, raw.lent(), &mut counts);
            of_events(number, &counts, raw)
        }
        Case::Row { sheet, offset, lazy, slots } => {
            let (mut raw, mut counts) = (event_slots(slots), [JUNK_COUNT; 2]);
            let number = poolsheet::row(sheet, offset, lazy, raw.lent(), &mut counts);
            of_events(number, &counts, raw)
        }
        Case::Resolve { list, slots } => resolve(list, slots),
        Case::Edit { list, edits, pool, slots } => edit(list, edits, pool, slots),
        Case::Align { list, index, slots } => align(list, index, slots),
        Case::Sheet { sheet, code_indented, slots } => {
            read_sheet(slots, |slots, counts| poolsheet::sheet(sheet, code_indented, slots, counts))
        }
        Case::Kinds { kinds, sheet, code_indented, slots } => read_sheet_with(kinds, sheet, code_indented, slots),
    }
}

/// An answer with one group of event slots.
fn of_events(number: u8, counts: &[usize], slots: Slots<Event>) -> Answer {
    let (events, overrun) = slots.after();
    Answer { number, counts: counts.to_vec(), events: vec![events], alignments: None, edits: None, overrun }
}

fn to_list(records: &[Record]) -> Vec<Event> {
    records.iter().map(to_ours).collect()
}

fn resolve(records: &[Record], slots: usize) -> Answer {
    let list = to_list(records);
    let given = list.clone();
    let (mut results, mut counts) = (event_slots(slots), [JUNK_COUNT]);
    let number = poolsheet::resolve(&list, results.lent(), &mut counts);
    let answer = of_events(number, &counts, results);
    Answer { overrun: answer.overrun || list != given, ..answer }
}

fn edit(records: &[Record], edits: &[Five], pool: &[Record], slots: usize) -> Answer {
    let (list, pool) = (to_list(records), to_list(pool));
    let given = (list.clone(), pool.clone());
    let mut fives = Slots::new(edits.len(), [JUNK_COUNT; 5]);
    fives.lent().copy_from_slice(edits);
    let (mut results, mut counts) = (event_slots(slots), [JUNK_COUNT]);
    let number = poolsheet::edit(&list, fives.lent(), &pool, results.lent(), &mut counts);
    let answer = of_events(number, &counts, results);
    let (edits, beyond) = fives.after();
    let changed = (list, pool) != given;
    Answer { edits: Some(edits), overrun: answer.overrun || beyond || changed, ..answer }
}

fn align(records: &[Record], index: usize, slots: usize) -> Answer {
    let list = to_list(records);
    let given = list.clone();
    let (mut values, mut counts) = (Slots::new(slots, JUNK), [JUNK_COUNT]);
    let number = poolsheet::align(&list, index, values.lent(), &mut counts);
    let (alignments, beyond) = values.after();
    let overrun = beyond || list != given;
    Answer { number, counts: counts.to_vec(), events: vec![], alignments: Some(alignments), edits: None, overrun }
}

/// The sheet call with a table of kinds, behind which junk stands too.
fn read_sheet_with(kinds: &[u8], sheet: &[u8], code_indented: bool, slots: [usize; 3]) -> Answer {
    let mut table = Slots::new(kinds.len(), JUNK);
    table.lent().copy_from_slice(kinds);
    let lent = table.lent();
    let answer = read_sheet(slots, |slots, counts| poolsheet::sheet_with(lent, sheet, code_indented, slots, counts));
    let (left, beyond) = table.after();
    Answer { overrun: answer.overrun || beyond || left != kinds, ..answer }
}

/// The answer of the sheet call.
fn read_sheet(slots: [usize; 3], call: impl Fn(&mut SheetSlots, &mut [usize; 4]) -> u8) -> Answer {
    let (mut raw, mut results) = (event_slots(slots[0]), event_slots(slots[1]));
    let (mut values, mut counts) = (Slots::new(slots[2], JUNK), [JUNK_COUNT; 4]);
    let mut lent = SheetSlots { raw: raw.lent(), results: results.lent(), alignments: values.lent() };
    let number = call(&mut lent, &mut counts);
    let ((raw, one), (results, two), (alignments, three)) = (raw.after(), results.after(), values.after());
    Answer {
        number,
        counts: counts.to_vec(),
        events: vec![raw, results],
        alignments: Some(alignments),
        edits: None,
        overrun: one || two || three,
    }
}
