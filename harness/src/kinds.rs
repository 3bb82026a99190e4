//! Tables of byte kinds (request U9): the built-in one, and how the crate, which knows no other, reads under one that passes.

use crate::bom::unmarked;

/// How many entries a table has.
pub const ENTRIES: usize = 256;

/// The most entries of a table in a request.
const MOST_ENTRIES: u64 = 300;

/// The bytes of kinds 3 to 6 in the built-in table.
pub const PUNCTUATION: [u8; 4] = [b'|', b'\\', b'-', b':'];

/// The built-in table, from 01.
pub const BUILT_IN: [u8; ENTRIES] = built_in();

const fn built_in() -> [u8; ENTRIES] {
    let mut kinds = [0; ENTRIES];
    kinds[9] = 1;
    kinds[32] = 1;
    kinds[10] = 2;
    kinds[13] = 2;
    kinds[124] = 3;
    kinds[92] = 4;
    kinds[45] = 5;
    kinds[58] = 6;
    kinds
}

/// The table of a request: so many entries of the built-in one, then 0, and in pairs the bytes whose kind is another, with that kind.
pub fn table(entries: u64, changes: &[u8]) -> Option<Vec<u8>> {
    let readable = entries <= MOST_ENTRIES && changes.len() % 2 == 0;
    let mut kinds = readable.then(|| BUILT_IN.to_vec())?;
    kinds.resize(entries as usize, 0);
    for change in changes.chunks(2) {
        *kinds.get_mut(usize::from(change[0]))? = change[1];
    }
    Some(kinds)
}

/// The pairs that make a table out of the built-in one.
pub fn changes(kinds: &[u8]) -> Vec<u8> {
    let all = (0..=u8::MAX).zip(kinds.iter().zip(BUILT_IN));
    all.filter(|(_, (kind, built_in))| **kind != *built_in).flat_map(|(byte, (kind, _))| [byte, *kind]).collect()
}

/// Another byte for each byte, no two alike: the table's byte of each of the kinds 3 to 6 becomes the built-in one.
/// Made by exchanges alone, so that whitespace, line ends and `>`, whose kinds are those of every table that passes, stay.
pub fn to_built_in(kinds: &[u8]) -> [u8; ENTRIES] {
    let mut bytes: [u8; ENTRIES] = std::array::from_fn(|byte| byte as u8);
    for (kind, built_in) in (3..).zip(PUNCTUATION) {
        let here = kinds.iter().position(|&found| found == kind).expect("the table passes");
        let there = bytes.iter().position(|&byte| byte == built_in).expect("no byte is lost");
        bytes.swap(here, there);
    }
    bytes
}

/// The way back.
fn from_built_in(kinds: &[u8]) -> [u8; ENTRIES] {
    let mut back = [0; ENTRIES];
    for (byte, there) in (0..=u8::MAX).zip(to_built_in(kinds)) {
        back[usize::from(there)] = byte;
    }
    back
}

/// Each byte of a text exchanged.
pub fn exchanged(text: &[u8], bytes: &[u8; ENTRIES]) -> Vec<u8> {
    text.iter().map(|&byte| bytes[usize::from(byte)]).collect()
}

/// A sheet with built-in kinds as a firm with this table writes it. A byte order mark stays.
pub fn written(sheet: &[u8], kinds: &[u8]) -> Vec<u8> {
    let text = unmarked(sheet);
    [&sheet[..text.before], &exchanged(text.text, &from_built_in(kinds))].concat()
}
