//! The byte order mark at offset 0 (request U6): the crate is given the sheet without it, and its indices are raised.

use crate::record::Record;

/// Its bytes.
pub const BOM: [u8; 3] = [0xef, 0xbb, 0xbf];

/// A sheet without the mark, and how many bytes stood before: 3 or 0.
#[derive(Clone, Copy)]
pub struct Unmarked<'a> {
    pub text: &'a [u8],
    pub before: usize,
}

/// Takes the mark off; a second one, or a part of one, is text.
pub fn unmarked(sheet: &[u8]) -> Unmarked<'_> {
    match sheet.strip_prefix(&BOM) {
        Some(text) => Unmarked { text, before: BOM.len() },
        None => Unmarked { text: sheet, before: 0 },
    }
}

impl Unmarked<'_> {
    /// Where an offset of the sheet lies in the text, if it does.
    pub fn offset(&self, offset: u64) -> Option<u64> {
        offset.checked_sub(self.before as u64)
    }

    /// Records of the text as they are in the sheet.
    pub fn raised(&self, mut records: Vec<Record>) -> Vec<Record> {
        for record in &mut records {
            record.index += self.before as u64;
        }
        records
    }
}
