//! Every input up to a length over a small alphabet. Two threads share them: each takes every second one.

use crate::asks;
use crate::tally::Tally;
use harness::bom::BOM;
use harness::counts;
use harness::kept::lists::{self, pair};
use harness::kinds::{self, BUILT_IN};
use harness::record::{
    Record, DATA, DELIMITER_ROW, DIVIDER, FILLER, HEAD, LINE_ENDING, MARKER, ROW, SPACE_OR_TAB, TABLE, VALUE,
};
use harness::shapes;
use poolsheet::{Five, HeadFlags};

/// The part of the work that a thread does: those whose number leaves this when divided by the number of threads.
#[derive(Clone, Copy)]
pub struct Part {
    pub mine: usize,
    pub of: usize,
}

/// How many bytes a sheet may have.
const LONGEST: usize = 65_536;

/// The bytes of the sheets.
const BYTES: &[u8; 7] = b"a|-:\\ \n";

/// The word with this number among those of a length.
fn word<T: Copy>(alphabet: &[T], mut number: usize, length: usize) -> Vec<T> {
    let mut word = Vec::with_capacity(length);
    for _ in 0..length {
        word.push(alphabet[number % alphabet.len()]);
        number /= alphabet.len();
    }
    word
}

/// Each word of a length in this part.
fn each_word<T: Copy>(alphabet: &[T], length: usize, part: Part, mut take: impl FnMut(&[T])) {
    let count = alphabet.len().pow(length as u32);
    for number in (part.mine..count).step_by(part.of) {
        take(&word(alphabet, number, length));
    }
}

/// Sheets of a length, with both options.
pub fn sheets(tally: &mut Tally, length: usize, part: Part) {
    each_word(BYTES, length, part, |sheet| {
        asks::sheet(tally, sheet, true, None);
        asks::sheet(tally, sheet, false, None);
    });
}

/// What sheets with remarks are made of.
const REMARK_PARTS: [&[u8]; 7] = [b"a", b":-", b">", b" ", b"   ", b"\t", b"\n"];

/// What sheets with a byte order mark, or a part of one, are made of.
const MARK_PARTS: [&[u8]; 9] = [&BOM, b"\xef\xbb", b"\xbf", b"a", b":-", b">", b"  ", b"\n", b"\r\n"];

/// Sheets of so many parts, with both options.
fn sheets_of(parts: &[&[u8]], tally: &mut Tally, length: usize, part: Part) {
    each_word(parts, length, part, |parts| {
        let sheet = parts.concat();
        asks::sheet(tally, &sheet, true, None);
        asks::sheet(tally, &sheet, false, None);
    });
}

/// Sheets of so many parts of those with remarks.
pub fn remarks(tally: &mut Tally, length: usize, part: Part) {
    sheets_of(&REMARK_PARTS, tally, length, part);
}

/// Sheets of so many parts of those with marks.
pub fn marks(tally: &mut Tally, length: usize, part: Part) {
    sheets_of(&MARK_PARTS, tally, length, part);
}

/// The bytes of sheets that are read under other kinds.
const KIND_BYTES: &[u8; 7] = b"a;|-=\\\n";

/// Bytes whose kinds are exchanged in the built-in table, one pair after the other.
const EXCHANGES: [&[[u8; 2]]; 9] = [
    &[[b'|', b';']],
    &[[b'-', b'=']],
    &[[b'|', b';'], [b'-', b'=']],
    &[[b'\\', b';']],
    &[[b'|', b'\\']],
    &[[b'|', b'-']],
    &[[b':', b'a']],
    &[[b'|', b';'], [b':', b'=']],
    &[[b'|', b';'], [b'\\', b'|'], [b'-', b'='], [b':', b'a']],
];

/// Sheets of a length under each of these tables, with both options.
pub fn kinds(tally: &mut Tally, length: usize, part: Part) {
    for pairs in EXCHANGES {
        let mut kinds = BUILT_IN;
        pairs.iter().for_each(|&[one, other]| kinds.swap(one.into(), other.into()));
        each_word(KIND_BYTES, length, part, |sheet| {
            asks::sheet_with(tally, &kinds, sheet, true, None);
            asks::sheet_with(tally, &kinds, sheet, false, None);
        });
    }
}

/// Every table that differs from the built-in one in one entry, or in two that are exchanged, with a sheet in its own bytes where it passes;
/// every number of entries up to 300, also with a sheet that is too long.
pub fn changed_kinds(tally: &mut Tally, part: Part) {
    let sheet = b"a\\|>|b\n:-|-\n> c";
    let bytes: Vec<u8> = (0..=u8::MAX).collect();
    each_word(&bytes, 2, part, |pair| {
        let (byte, other) = (usize::from(pair[0]), usize::from(pair[1]));
        let (mut changed, mut exchanged) = (BUILT_IN, BUILT_IN);
        changed[byte] = pair[1];
        exchanged.swap(byte, other);
        asks::sheet_with(tally, &changed, sheet, true, None);
        if exchanged == BUILT_IN {
            return;
        }
        asks::sheet_with(tally, &exchanged, sheet, true, None);
        if [9, 10, 13, 32, 62].iter().all(|&byte| exchanged[byte] == BUILT_IN[byte]) {
            asks::sheet_with(tally, &exchanged, &kinds::written(sheet, &exchanged), true, None);
        }
    });
    for entries in (part.mine..=300).step_by(part.of) {
        let mut kinds = BUILT_IN.to_vec();
        kinds.resize(entries, 0);
        asks::sheet_with(tally, &kinds, sheet, true, None);
        asks::sheet_with(tally, &kinds, &[b'a'; 65_537], true, None);
    }
}

/// Heads and rows at every offset of such sheets, the lines lazy or not.
pub fn marked_lines(tally: &mut Tally, length: usize, part: Part) {
    each_word(&MARK_PARTS, length, part, |parts| {
        let sheet = parts.concat();
        for offset in 0..=sheet.len() + 1 {
            for (code_indented, lazy) in [(true, false), (false, false), (true, true)] {
                asks::head(tally, &sheet, offset, HeadFlags { code_indented, lazy, pierced: false });
                asks::row(tally, &sheet, offset, lazy);
            }
        }
    });
}

/// The shapes at 65,536 bytes and so many more, with exactly enough slots and one raw slot too few: the crate's
/// resolver takes seconds on some. Also their first line as head and as row. The first shapes also behind a byte order
/// mark, which is among the bytes.
pub fn longest_sheets(tally: &mut Tally, over: usize, part: Part) {
    for (place, shape) in shapes::all().enumerate().filter(|(place, _)| place % part.of == part.mine) {
        longest_sheet(tally, (shape.make)(LONGEST), over);
        if place < 4 {
            longest_sheet(tally, [&BOM, &(shape.make)(LONGEST - BOM.len())[..]].concat(), over);
        }
    }
}

fn longest_sheet(tally: &mut Tally, mut sheet: Vec<u8>, over: usize) {
    sheet.resize(LONGEST + over, b'a');
    asks::sheet(tally, &sheet, true, Some(0));
    for offset in [0, 3] {
        asks::head(tally, &sheet, offset, HeadFlags { code_indented: true, ..HeadFlags::default() });
        asks::row(tally, &sheet, offset, false);
    }
}

/// Head lines by the crate's count: each number up to 1,029, then every tenth multiple of 256 and one more, up to the
/// longest sheet; over one value and over as many as there are cells. The shorter ones also as sheets: the crate's
/// resolver takes seconds on the others.
pub fn counted_heads(tally: &mut Tally, part: Part) {
    let multiples = (5..256).step_by(10).flat_map(|times| [256 * times, 256 * times + 1]);
    for count in (2..1_030).chain(multiples).filter(|count| count / 2 % part.of == part.mine) {
        for line in counts::LINES.map(|line| line(count)) {
            for sheet in [line.over_one(), line.over_all()].iter().filter(|sheet| sheet.len() <= LONGEST) {
                asks::head(tally, sheet, 0, HeadFlags { code_indented: true, ..HeadFlags::default() });
                if count < 600 {
                    asks::sheet(tally, sheet, true, Some(0));
                }
            }
        }
    }
}

/// Heads and rows at every offset up to one behind the end, with all flags.
pub fn heads_and_rows(tally: &mut Tally, length: usize, part: Part) {
    each_word(BYTES, length, part, |sheet| {
        for offset in 0..=length + 1 {
            for bits in 0..8 {
                let [code_indented, lazy, pierced] = [0, 1, 2].map(|bit| bits >> bit & 1 == 1);
                asks::head(tally, sheet, offset, HeadFlags { code_indented, lazy, pierced });
            }
            asks::row(tally, sheet, offset, false);
            asks::row(tally, sheet, offset, true);
        }
    });
}

/// A raw table of these pieces, each record at a point that tells its place.
fn table(head: &[u64], delimiter: &[u64], body: &[&[u64]]) -> Vec<Record> {
    lists::placed(&lists::table(head, delimiter, body))
}

const TEXT_PIECES: [u64; 3] = [SPACE_OR_TAB, DIVIDER, DATA];
const VALUE_PIECES: [u64; 4] = [SPACE_OR_TAB, DIVIDER, MARKER, FILLER];
const ANY_PIECES: [u64; 6] = [SPACE_OR_TAB, DIVIDER, DATA, MARKER, FILLER, LINE_ENDING];

/// Raw tables whose head, delimiter or body row has so many pieces in any order; also two body rows of fewer.
pub fn resolve_tables(tally: &mut Tally, length: usize, part: Part) {
    each_word(&TEXT_PIECES, length, part, |pieces| {
        asks::resolve(tally, &table(pieces, &[FILLER], &[]));
        asks::resolve(tally, &table(&[DATA], &[FILLER], &[pieces]));
        let (one, other) = pieces.split_at(length / 2);
        asks::resolve(tally, &table(&[DIVIDER], &[MARKER], &[one, other]));
    });
    each_word(&VALUE_PIECES, length, part, |pieces| {
        asks::resolve(tally, &table(&[DIVIDER], pieces, &[&[DATA]]));
    });
    each_word(&ANY_PIECES, length.min(4), part, |pieces| {
        asks::resolve(tally, &table(pieces, &[FILLER], &[]));
        asks::resolve(tally, &table(&[DATA], pieces, &[]));
        asks::resolve(tally, &table(&[DATA], &[FILLER], &[pieces]));
    });
}

/// Lists of so many records, entered and left, of the names of raw tables.
pub fn resolve_records(tally: &mut Tally, length: usize, part: Part) {
    let names = [SPACE_OR_TAB, LINE_ENDING, DATA, HEAD, ROW, DIVIDER, DELIMITER_ROW, MARKER, FILLER];
    let records: Vec<Record> = names.iter().flat_map(|&name| pair(name)).collect();
    each_word(&records, length, part, |list| asks::resolve(tally, list));
}

/// Lists of so many records that alignment reads, at index 0, for short ones at each index.
pub fn align_records(tally: &mut Tally, length: usize, part: Part) {
    let blank_value = Record { name: VALUE, ..Record::default() };
    let mut records = vec![blank_value, Record::enter(DATA), Record::exit(MARKER)];
    records.extend([Record::enter(TABLE), Record::enter(MARKER)]);
    records.extend(pair(DELIMITER_ROW));
    records.extend(pair(VALUE));
    each_word(&records, length, part, |list| {
        asks::align(tally, list, 0);
        for index in (1..=length + 1).filter(|_| length < 5) {
            asks::align(tally, list, index);
        }
    });
}

/// Records that tell their place.
pub fn counted(count: u64, kind: u64) -> Vec<Record> {
    (0..count).map(|place| Record { kind, name: 1 + place % 250, index: place, ..Record::default() }).collect()
}

/// So many edits on lists of up to three records with a pool of two.
pub fn edits(tally: &mut Tally, length: usize, part: Part) {
    let mut alphabet: Vec<Five> = vec![];
    for position in 0..5 {
        for removed in 0..4 {
            for [start, count] in [[0, 0], [0, 1], [1, 1]] {
                alphabet.extend([0, 1].map(|before| [position, removed, start, count, before]));
            }
        }
    }
    let pool = counted(2, 2);
    let lists = if length < 3 { 0..=3 } else { 2..=2 };
    for list in lists.map(|count| counted(count, 1)) {
        each_word(&alphabet, length, part, |edits| asks::edit(tally, &list, edits, &pool));
    }
}

/// So many edits on a list of four records. Each tells its place by where the records that it adds start in the pool. Up to five remove,
/// add, do both or nothing, at four positions; six do not do both, at three; more only add, or do nothing behind the list's end.
pub fn edit_orders(tally: &mut Tally, length: usize, part: Part) {
    let (positions, kinds): (usize, &[[usize; 3]]) = match length {
        0..=5 => (4, &[[0, 0, 0], [1, 0, 0], [0, 1, 0], [1, 1, 1]]),
        6 => (3, &[[0, 0, 0], [1, 0, 0], [0, 1, 0]]),
        _ => (4, &[[0, 1, 0]]),
    };
    let mut alphabet: Vec<Five> = vec![];
    for position in 0..positions {
        alphabet.extend(kinds.iter().map(|&[removed, count, before]| [position, removed, 0, count, before]));
    }
    alphabet.push([9, 0, 0, 0, 0]);
    let (list, pool) = (counted(4, 1), counted(8, 2));
    each_word(&alphabet, length, part, |edits| {
        let mut edits = edits.to_vec();
        (0..length).for_each(|place| edits[place][2] = place);
        asks::edit(tally, &list, &edits, &pool);
    });
}
