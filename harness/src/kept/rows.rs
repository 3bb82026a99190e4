//! Requests for the row call.

use super::random::Random;
use super::{sheet_cases as cases, slot_choices, Kept, PLENTY};
use crate::calls;
use crate::lines::lines;
use crate::print;

/// With each choice of slots.
fn add(kept: &mut Kept, sheet: &[u8], offset: u64, lazy: bool, spare: bool) {
    let needed = calls::row(sheet, offset, lazy, PLENTY).ok().map(|row| row.events.len() as u64);
    for slots in slot_choices(needed, spare) {
        kept.add(format!("row {offset} {} {slots} {}", u8::from(lazy), print::bytes(sheet)));
    }
}

pub fn kept() -> Kept {
    let mut kept = Kept::new("row");
    add_by_hand(&mut kept);
    add_offsets(&mut kept);
    add_spaces(&mut kept);
    add_random(&mut kept);
    add_remarks(&mut kept);
    add_marked(&mut kept);
    kept
}

/// Sheets chosen by hand, at their last line starts, and lone rows.
fn add_by_hand(kept: &mut Kept) {
    for (number, sheet) in cases::by_hand().iter().enumerate() {
        let all = lines(sheet);
        for line in all.iter().rev().take(3) {
            add(kept, sheet, line.start as u64, false, number % 8 == 0);
        }
    }
    let rows = [
        "a",
        "|",
        "||",
        "|||",
        "|a",
        "a|",
        "|a|",
        "a||b",
        "|a||",
        " | ",
        "| |",
        "\\",
        "\\|",
        "\\\\|",
        "\\\\\\|",
        "a\\",
        "a\\ |",
        "\\|\\",
        "|\\",
        "\\\\",
        "a b",
        " a",
        "a ",
        "\ta",
        "a\t",
        "a\tb",
        "> q",
        "- l",
        ":-",
        "-|-",
        "\u{e9}|\u{e9}",
    ];
    for row in rows {
        add(kept, row.as_bytes(), 0, false, true);
        add(kept, row.as_bytes(), 0, true, false);
    }
    for blank in ["", " ", "\t", " \t ", "\n", "\r\n", " \r", "\t\n"] {
        add(kept, blank.as_bytes(), 0, false, false);
        add(kept, blank.as_bytes(), 0, true, false);
    }
}

/// Line ends behind a row, and every offset.
fn add_offsets(kept: &mut Kept) {
    for text in ["", "a", "a\n", "a\r", "a\r\n", "a\r\r\nb", "a|\r\n|b\n\rc", "\n\r\n \n\tb"] {
        let sheet = text.as_bytes();
        for offset in 0..sheet.len() as u64 + 3 {
            add(kept, sheet, offset, false, false);
        }
        for offset in [1 << 32, u64::MAX] {
            add(kept, sheet, offset, true, false);
        }
    }
    for sheet in cases::with_line_ends().iter().step_by(3) {
        let last = lines(sheet).iter().rfind(|line| !line.is_blank(sheet)).unwrap().start;
        add(kept, sheet, last as u64, false, false);
    }
}

/// Tabs and indents in every place of a row.
fn add_spaces(kept: &mut Kept) {
    for place in 8..12 {
        for space in cases::SPACES {
            let sheet = cases::with_space(place, space);
            add(kept, &sheet, 10, false, false);
        }
    }
    for indent in cases::INDENTS {
        add(kept, &cases::with_indent(2, indent), 5, false, false);
    }
    for columns in ["", "x", "xx", "xxx", "xxxx"] {
        add(kept, format!("{columns}\t|{columns}\t\t{columns} \t").as_bytes(), 0, false, false);
    }
}

/// Sheets drawn at random, at a random line.
fn add_random(kept: &mut Kept) {
    let mut random = Random::new(2);
    for _ in 0..200 {
        let sheet = match random.below(2) {
            0 => cases::scattered(&mut random, 12),
            _ => cases::tabular(&mut random, 2),
        };
        let all = lines(&sheet);
        let offset = random.pick(&all).start as u64;
        let lazy = random.percent(4);
        let spare = random.percent(15);
        add(kept, &sheet, offset, lazy, spare);
    }
}

/// Remarks as rows: this call reads them like any other line.
fn add_remarks(kept: &mut Kept) {
    for (_, text) in cases::REMARKS {
        for line in lines(text.as_bytes()) {
            add(kept, text.as_bytes(), line.start as u64, false, false);
        }
    }
    for indent in cases::REMARK_INDENTS {
        add(kept, &cases::with_remark(3, indent, "\n"), 5, false, false);
    }
}

/// Sheets with a byte order mark, at the first offsets and at all line starts.
fn add_marked(kept: &mut Kept) {
    for (_, sheet) in cases::MARKED {
        for offset in cases::MARKED_OFFSETS {
            add(kept, sheet, offset, false, false);
            add(kept, sheet, offset, true, false);
        }
        for line in lines(sheet) {
            add(kept, sheet, line.start as u64, false, false);
        }
    }
}
