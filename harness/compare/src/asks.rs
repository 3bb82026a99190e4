//! Each input with several numbers of slots: as many as needed, one too few of each kind, none, and spare ones.

use crate::case::Case;
use crate::expected::{crate_edit, crate_flags, of_sheet};
use crate::tally::Tally;
use harness::calls::{self, Sheet, SheetSlots};
use harness::guard::guarded;
use harness::kept::{slot_choices, PLENTY};
use harness::questions::Edit;
use harness::record::Record;
use poolsheet::{Five, HeadFlags};

/// The slots that an input needs, or its refusal whatever the slots; outside, whether the crate panicked.
type Needed = Result<Result<usize, u8>, String>;

/// Each choice of slots of one kind.
fn each_choice<'a>(tally: &mut Tally, needed: Needed, case: impl Fn(usize) -> Case<'a>) {
    match needed {
        Ok(Ok(count)) => {
            for slots in slot_choices(Some(count as u64), true) {
                tally.ask(&case(slots as usize));
            }
        }
        Ok(Err(number)) => {
            let case = case(2);
            tally.compare(&case, &case.refused(number));
        }
        Err(_) => tally.ask(&case(2)),
    }
}

/// A head at an offset.
pub fn head(tally: &mut Tally, sheet: &[u8], offset: usize, flags: HeadFlags) {
    let needed = guarded(|| {
        let head = calls::head(sheet, offset as u64, flags.code_indented, crate_flags(flags), PLENTY)?;
        Ok(head.events.len())
    });
    each_choice(tally, needed, |slots| Case::Head { sheet, offset, flags, slots });
}

/// A row at an offset.
pub fn row(tally: &mut Tally, sheet: &[u8], offset: usize, lazy: bool) {
    let needed = guarded(|| Ok(calls::row(sheet, offset as u64, lazy, PLENTY)?.events.len()));
    each_choice(tally, needed, |slots| Case::Row { sheet, offset, lazy, slots });
}

/// A list to resolve.
pub fn resolve(tally: &mut Tally, list: &[Record]) {
    let needed = guarded(|| Ok(calls::resolve(list, PLENTY)?.len()));
    each_choice(tally, needed, |slots| Case::Resolve { list, slots });
}

/// A list to edit.
pub fn edit(tally: &mut Tally, list: &[Record], edits: &[Five], pool: &[Record]) {
    let needed = guarded(|| {
        let given: Vec<Edit> = edits.iter().map(crate_edit).collect();
        Ok(calls::edit(list, &given, pool, PLENTY)?.len())
    });
    each_choice(tally, needed, |slots| Case::Edit { list, edits, pool, slots });
}

/// A table to align.
pub fn align(tally: &mut Tally, list: &[Record], index: usize) {
    let needed = guarded(|| Ok(calls::align(list, index as u64, PLENTY)?.len()));
    each_choice(tally, needed, |slots| Case::Align { list, index, slots });
}

/// Slots enough for any sheet.
const PLENTY_OF_EACH: SheetSlots = SheetSlots { raw: PLENTY, results: PLENTY, alignments: PLENTY };

/// A sheet; where it is long, a number that chooses slots.
pub fn sheet(tally: &mut Tally, sheet: &[u8], code_indented: bool, long: Option<usize>) {
    let read = guarded(|| calls::sheet(sheet, code_indented, &PLENTY_OF_EACH));
    each_sheet_choice(tally, read, long, |slots| Case::Sheet { sheet, code_indented, slots });
}

/// A sheet with a table of kinds.
pub fn sheet_with(tally: &mut Tally, kinds: &[u8], sheet: &[u8], code_indented: bool, long: Option<usize>) {
    let read = guarded(|| calls::sheet_with(kinds, sheet, code_indented, &PLENTY_OF_EACH));
    each_sheet_choice(tally, read, long, |slots| Case::Kinds { kinds, sheet, code_indented, slots });
}

/// Each choice of slots. Where nothing is needed, spare slots only; where it is long, exactly enough and one other choice.
fn each_sheet_choice<'a>(
    tally: &mut Tally,
    read: Result<Result<Sheet, u8>, String>,
    long: Option<usize>,
    case: impl Fn([usize; 3]) -> Case<'a>,
) {
    let read = match read {
        Ok(Ok(read)) => read,
        Ok(Err(number)) => return tally.compare(&case([2, 1, 3]), &case([2, 1, 3]).refused(number)),
        Err(_) => return tally.ask(&case([2, 1, 3])),
    };
    let needed = [read.raw.len(), read.results.len(), read.alignments.len()];
    tally.compare(&case(needed), &of_sheet(&read, needed));
    if read.tables == 0 {
        return tally.compare(&case([2, 1, 3]), &of_sheet(&read, [2, 1, 3]));
    }
    let others = other_choices(needed);
    let chosen = long.map_or(&others[..], |place| std::slice::from_ref(&others[place % others.len()]));
    for &slots in chosen {
        tally.ask(&case(slots));
    }
}

/// Choices beside exactly enough.
fn other_choices([raw, results, alignments]: [usize; 3]) -> [[usize; 3]; 8] {
    [
        [raw - 1, results, alignments],
        [raw, results - 1, alignments],
        [raw, results, alignments - 1],
        [raw + 1, results + 2, alignments + 3],
        [raw - 1, results - 1, alignments - 1],
        [raw, results - 1, 0],
        [raw, results, 0],
        [0, 0, 0],
    ]
}
