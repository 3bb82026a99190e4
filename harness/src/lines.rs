//! The lines of a sheet. A line ends at a line feed, a carriage return, or the two in this order.

/// A line: its first byte, its end (the first byte of its line end, or the sheet's length), and where the next begins.
#[derive(Clone, Copy, Debug, Eq, PartialEq)]
pub struct Line {
    /// Its number in the sheet, from 1.
    pub number: usize,
    pub start: usize,
    pub end: usize,
    pub next: usize,
}

impl Line {
    /// Nothing but spaces and tabs, or nothing.
    pub fn is_blank(&self, sheet: &[u8]) -> bool {
        sheet[self.start..self.end].iter().all(|byte| matches!(byte, b' ' | b'\t'))
    }

    /// A quoted remark (request U3): at most 3 units of indent, a tab running to the next multiple of 4, then `>`.
    pub fn is_remark(&self, sheet: &[u8]) -> bool {
        let mut units = 0;
        for byte in &sheet[self.start..self.end] {
            match byte {
                b' ' => units += 1,
                b'\t' => units = (units / 4 + 1) * 4,
                _ => return *byte == b'>' && units <= 3,
            }
        }
        false
    }

    /// Whether a line end closes it.
    pub fn is_closed(&self) -> bool {
        self.next > self.end
    }
}

/// All lines; behind a line end at the sheet's end stands one more, empty.
pub fn lines(sheet: &[u8]) -> Vec<Line> {
    let mut all = vec![line_from(sheet, 0, 1)];
    while let Some(line) = all.last().copied().filter(Line::is_closed) {
        all.push(line_from(sheet, line.next, line.number + 1));
    }
    all
}

fn line_from(sheet: &[u8], start: usize, number: usize) -> Line {
    let is_end = |byte: &u8| matches!(byte, b'\n' | b'\r');
    let end = sheet[start..].iter().position(is_end).map_or(sheet.len(), |found| start + found);
    let size = match &sheet[end..] {
        [b'\r', b'\n', ..] => 2,
        [] => 0,
        _ => 1,
    };
    Line { number, start, end, next: end + size }
}
