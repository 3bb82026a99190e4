//! Requests for the head call.

use super::random::Random;
use super::{sheet_cases as cases, slot_choices, Kept, PLENTY};
use crate::calls;
use crate::drive::Flags;
use crate::lines::lines;
use crate::print;

/// One head request without its slots.
struct Ask<'a> {
    sheet: &'a [u8],
    offset: u64,
    code_indented: bool,
    lazy: bool,
    pierced: bool,
}

impl Ask<'_> {
    fn at(sheet: &[u8], offset: u64) -> Ask<'_> {
        Ask { sheet, offset, code_indented: true, lazy: false, pierced: false }
    }

    fn request(&self, slots: u64) -> String {
        let [on, lazy, pierced] = [self.code_indented, self.lazy, self.pierced].map(u8::from);
        format!("head {} {on} {lazy} {pierced} {slots} {}", self.offset, print::bytes(self.sheet))
    }

    /// How many slots it needs, if it is accepted.
    fn needed(&self) -> Option<u64> {
        let flags = Flags { lazy: self.lazy, pierced: self.pierced };
        let head = calls::head(self.sheet, self.offset, self.code_indented, flags, PLENTY).ok()?;
        Some(head.events.len() as u64)
    }
}

/// With each choice of slots.
fn add(kept: &mut Kept, ask: &Ask, spare: bool) {
    for slots in slot_choices(ask.needed(), spare) {
        kept.add(ask.request(slots));
    }
}

pub fn kept() -> Kept {
    let mut kept = Kept::new("head");
    add_by_hand(&mut kept);
    add_flags(&mut kept);
    add_offsets(&mut kept);
    add_spaces(&mut kept);
    add_random(&mut kept);
    add_remarks(&mut kept);
    add_marked(&mut kept);
    kept
}

/// Each sheet chosen by hand, at its first line starts.
fn add_by_hand(kept: &mut Kept) {
    for (number, sheet) in cases::by_hand().iter().enumerate() {
        for (place, line) in lines(sheet).iter().take(4).enumerate() {
            add(kept, &Ask::at(sheet, line.start as u64), place == 0 && number % 3 == 0);
        }
    }
    for first in cases::LINE_ENDS {
        for second in [""].iter().chain(&cases::LINE_ENDS) {
            let sheet = format!("a{first}:-{second}").into_bytes();
            for line in lines(&sheet) {
                add(kept, &Ask::at(&sheet, line.start as u64), false);
            }
        }
    }
}

/// Lazy and pierced, on heads that the earlier or later questions refuse too.
fn add_flags(kept: &mut Kept) {
    for text in ["a\n:-", "a|b\n-|-\nc", "a\n", "a", "|\n|-|", "    a\n:-", "a\n-", "a|b\n:-", "\n", ""] {
        for (lazy, pierced) in [(true, false), (false, true), (true, true)] {
            add(kept, &Ask { lazy, pierced, ..Ask::at(text.as_bytes(), 0) }, false);
        }
    }
}

/// Offsets at line starts, inside a line, on the line feed behind a carriage return, at the end, past the end.
fn add_offsets(kept: &mut Kept) {
    for text in ["", "a", "a\n", "a\r", "a\r\n", "p\r\na\r\n:-\r\n", "p\n\ra\r\r\n:-", "\n\n:-\n:-", "ab\n:-\ncd\n:-"] {
        let sheet = text.as_bytes();
        for offset in 0..sheet.len() as u64 + 3 {
            add(kept, &Ask::at(sheet, offset), false);
        }
        for offset in [65_536, 65_537, 1 << 32, (1 << 32) + 1, 1 << 63, u64::MAX] {
            add(kept, &Ask::at(sheet, offset), false);
        }
    }
}

/// Tabs and indents in every place of head and delimiter line, with the option on and off.
fn add_spaces(kept: &mut Kept) {
    for place in 0..8 {
        for space in cases::SPACES {
            add(kept, &Ask::at(&cases::with_space(place, space), 0), false);
        }
    }
    for columns in ["", "x", "xx", "xxx", "xxxx"] {
        let sheet = format!("{columns}\t|{columns} \tb\n:-\t|\t-:\t").into_bytes();
        add(kept, &Ask::at(&sheet, 0), false);
        add(kept, &Ask { code_indented: false, ..Ask::at(&sheet, 0) }, false);
    }
    for code_indented in [true, false] {
        for indent in cases::INDENTS {
            for place in 0..2 {
                let sheet = cases::with_indent(place, indent);
                add(kept, &Ask { code_indented, ..Ask::at(&sheet, 0) }, false);
            }
            let blank = format!("{indent}\n:-").into_bytes();
            add(kept, &Ask { code_indented, ..Ask::at(&blank, 0) }, false);
            let both = format!("{indent}|a\n{indent}|-").into_bytes();
            add(kept, &Ask { code_indented, ..Ask::at(&both, 0) }, false);
        }
    }
}

/// Heads drawn at random, and sheets at a random line start or offset.
fn add_random(kept: &mut Kept) {
    let mut random = Random::new(1);
    for _ in 0..220 {
        let sheet = cases::random_head_lines(&mut random);
        let code_indented = random.percent(70);
        let ask = Ask { sheet: &sheet, offset: 0, code_indented, lazy: random.percent(3), pierced: random.percent(3) };
        add(kept, &ask, false);
    }
    for _ in 0..160 {
        let sheet = match random.below(3) {
            0 => cases::scattered(&mut random, 14),
            _ => cases::tabular(&mut random, 3),
        };
        let starts: Vec<u64> = lines(&sheet).iter().map(|line| line.start as u64).collect();
        let offset = if random.percent(95) { *random.pick(&starts) } else { random.below(12) };
        let code_indented = random.percent(70);
        let spare = random.percent(15);
        add(kept, &Ask { code_indented, ..Ask::at(&sheet, offset) }, spare);
    }
}

/// Heads at remarks, which this call reads like any other line, and above them.
fn add_remarks(kept: &mut Kept) {
    for (_, text) in cases::REMARKS {
        for line in lines(text.as_bytes()) {
            add(kept, &Ask::at(text.as_bytes(), line.start as u64), false);
        }
    }
    for indent in cases::REMARK_INDENTS {
        for code_indented in [true, false] {
            add(kept, &Ask { code_indented, ..Ask::at(&cases::with_remark(1, indent, "\n"), 0) }, false);
        }
        add(kept, &Ask::at(&cases::with_remark(2, indent, "\n"), 0), false);
    }
}

/// Sheets with a byte order mark, at the first offsets, with both options, and with flags.
fn add_marked(kept: &mut Kept) {
    for (_, sheet) in cases::MARKED {
        for offset in cases::MARKED_OFFSETS {
            add(kept, &Ask::at(sheet, offset), false);
            add(kept, &Ask { code_indented: false, ..Ask::at(sheet, offset) }, false);
        }
    }
    for (lazy, pierced) in [(true, false), (false, true)] {
        for offset in cases::MARKED_OFFSETS {
            add(kept, &Ask { lazy, pierced, ..Ask::at(b"\xef\xbb\xbfa\n:-", offset) }, false);
        }
    }
}
