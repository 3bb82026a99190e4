//! Requests for the sheet call.

use super::random::Random;
use super::{sheet_cases as cases, Kept, PLENTY};
use crate::bom::BOM;
use crate::calls::{self, SheetSlots};
use crate::print;

/// The slots that a sheet needs.
fn needed(sheet: &[u8], code_indented: bool) -> [u64; 3] {
    let slots = SheetSlots { raw: PLENTY, results: PLENTY, alignments: PLENTY };
    let read = calls::sheet(sheet, code_indented, &slots).unwrap_or_else(|number| panic!("refused by {number}"));
    [read.raw.len() as u64, read.results.len() as u64, read.alignments.len() as u64]
}

fn request(sheet: &[u8], code_indented: bool, [raw, results, alignments]: [u64; 3]) -> String {
    format!("sheet {} {raw} {results} {alignments} {}", u8::from(code_indented), print::bytes(sheet))
}

/// With as many slots as needed, one too few of each kind, none, and for some spare ones.
fn add(kept: &mut Kept, sheet: &[u8], code_indented: bool, spare: bool) {
    assert!(calls::resolves_apart(sheet, code_indented), "resolved together and apart differ: {sheet:?}");
    let [raw, results, alignments] = needed(sheet, code_indented);
    let mut ask = |slots| kept.add(request(sheet, code_indented, slots));
    ask([raw, results, alignments]);
    if raw > 0 {
        ask([raw - 1, results, alignments]);
        ask([raw, results - 1, alignments]);
        ask([raw, results, alignments - 1]);
        ask([0, 0, 0]);
    }
    if spare {
        ask([raw + 1, results + 2, alignments + 3]);
        ask([raw, 0, 0]);
        ask([raw, results, 0]);
        ask([raw, results - results.min(1), 0]);
    }
}

pub fn kept() -> Kept {
    let mut kept = Kept::new("sheet");
    add_by_hand(&mut kept);
    add_places(&mut kept);
    add_large(&mut kept);
    add_random(&mut kept);
    add_remarks(&mut kept);
    add_marked(&mut kept);
    kept
}

/// Each sheet chosen by hand; every fifth with further choices of slots.
fn add_by_hand(kept: &mut Kept) {
    for (number, sheet) in cases::by_hand().iter().enumerate() {
        add(kept, sheet, true, number % 5 == 0);
    }
    add(kept, b"a|b\n:-|-\nc", true, true);
    add(kept, b"a\n:-\n\nb\n-:\nc", true, true);
    add(kept, b"    a\n:-", false, true);
    add(kept, b"a\n    :-\n    b", false, true);
}

/// Line ends, tabs and indents in every place.
fn add_places(kept: &mut Kept) {
    for sheet in cases::with_line_ends() {
        add(kept, &sheet, true, false);
    }
    for place in 0..12 {
        add(kept, &cases::with_space(place, "\t"), true, false);
        add(kept, &cases::with_space(place, " \t "), false, false);
    }
    for code_indented in [true, false] {
        for indent in cases::INDENTS {
            for place in 0..3 {
                add(kept, &cases::with_indent(place, indent), code_indented, false);
            }
        }
    }
}

/// A few longer sheets: many columns, many rows, many tables, much prose.
fn add_large(kept: &mut Kept) {
    let columns = format!("{}\n{}\n", "a|".repeat(60), "-|".repeat(60));
    let rows = format!("a|b\n-|-\n{}", "c|d\n".repeat(40));
    let tables = "a\n:-\n\n".repeat(30);
    let prose = format!("{}a\n:-", "p q\n".repeat(900));
    let word = format!("{}|{}\n:-|-:", "w".repeat(2000), "\\|".repeat(900));
    let blank = " \t\n".repeat(1200);
    for text in [columns, rows, tables, prose, word, blank] {
        assert!(text.len() <= 4096);
        let slots = needed(text.as_bytes(), true);
        kept.add(request(text.as_bytes(), true, slots));
    }
}

/// Sheets drawn at random.
fn add_random(kept: &mut Kept) {
    let mut random = Random::new(3);
    for _ in 0..300 {
        let sheet = match random.below(5) {
            0 => cases::scattered(&mut random, 16),
            1 | 2 => cases::tabular(&mut random, 3),
            3 => cases::tabular(&mut random, 6),
            _ => cases::several(&mut random),
        };
        let code_indented = random.percent(70);
        let spare = random.percent(8);
        add(kept, &sheet, code_indented, spare);
    }
}

/// Remarks chosen by hand, and one in every place behind every indent, with both options; line ends and further choices of slots in turn.
fn add_remarks(kept: &mut Kept) {
    for (number, (_, text)) in cases::REMARKS.iter().enumerate() {
        add(kept, text.as_bytes(), true, number % 5 == 0);
    }
    for place in 0..cases::REMARK_PLACES {
        for (number, indent) in cases::REMARK_INDENTS.iter().enumerate() {
            for code_indented in [true, false] {
                let turn = place + number + usize::from(code_indented);
                let sheet = cases::with_remark(place, indent, cases::REMARK_LINE_ENDS[turn % 3]);
                let slots = needed(&sheet, code_indented);
                kept.add(request(&sheet, code_indented, slots));
                if slots[0] > 0 && turn % 4 == 0 {
                    kept.add(request(&sheet, code_indented, [slots[0] - 1, slots[1], slots[2]]));
                    kept.add(request(&sheet, code_indented, [slots[0], slots[1] - 1, slots[2]]));
                    kept.add(request(&sheet, code_indented, [slots[0], slots[1], slots[2] - 1]));
                }
            }
        }
    }
}

/// Sheets with a byte order mark, and sheets of every kind behind one.
fn add_marked(kept: &mut Kept) {
    for (number, (_, sheet)) in cases::MARKED.iter().enumerate() {
        add(kept, sheet, true, number % 5 == 0);
        add(kept, sheet, false, false);
    }
    for (number, sheet) in cases::by_hand().iter().enumerate() {
        let marked = [&BOM[..], sheet].concat();
        let code_indented = number % 2 == 0;
        let slots = needed(&marked, code_indented);
        kept.add(request(&marked, code_indented, slots));
    }
}
