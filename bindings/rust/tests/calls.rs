//! The six calls: what they accept, and that a refusal blanks every slot.

use poolsheet::{calls, Alignment, Event, Name, Refusal, KINDS};

/// A record that no call leaves in a slot.
const STALE: Event = Event { kind: 9, name: 99, line: 9, column: 9, index: 9, vs: 9, link: 9 };

const SHEET: &[u8] = b"a|b\n:-|-\nc";

/// The built-in table with some bytes of other kinds.
fn changed(changes: &[(u8, u8)]) -> Vec<u8> {
    let mut kinds = KINDS.to_vec();
    for &(byte, kind) in changes {
        kinds[usize::from(byte)] = kind;
    }
    kinds
}

/// The raw events and the result events of a sheet.
fn events(sheet: &[u8]) -> (Vec<Event>, Vec<Event>) {
    let read = poolsheet::read_sheet(sheet, true).unwrap();
    (read.raw().to_vec(), read.results().to_vec())
}

/// Slots that were written before.
fn stale(n: usize) -> Vec<Event> {
    vec![STALE; n]
}

fn all_blank(slots: &[Event]) -> bool {
    slots.iter().all(|slot| *slot == Event::BLANK)
}

#[test]
fn head() {
    let mut raw = stale(24);
    assert_eq!(calls::head(SHEET, 0, true, false, false, &mut raw), Ok(calls::Head { events: 22, end: 8, cells: 2 }));
    assert_eq!(raw[..22], events(SHEET).0[..22]);
    assert!(all_blank(&raw[22..]));
    assert!(raw[0].enters(Name::GfmTableHead) && raw[21].leaves(Name::GfmTableHead));
}

#[test]
fn head_refused() {
    let long = vec![b'a'; 65_537];
    let cases: [(&[u8], usize, bool, usize, Refusal); 9] = [
        (&long, 0, false, 24, Refusal::SheetTooLong),
        (SHEET, 1, false, 24, Refusal::NoLineStart),
        (SHEET, 11, false, 24, Refusal::NoLineStart),
        (b"    a\n:-", 0, false, 24, Refusal::IndentTooWide),
        (b"a", 0, false, 24, Refusal::NoHeadLine),
        (SHEET, 0, true, 24, Refusal::LazyOrPierced),
        (b"a\n-", 0, false, 24, Refusal::NoDelimiterRow),
        (b"a|b\n:-", 0, false, 24, Refusal::ColumnsDiffer),
        (SHEET, 0, false, 21, Refusal::TooFewRawSlots),
    ];
    for (sheet, offset, stray, slots, refusal) in cases {
        for (lazy, pierced) in if stray { vec![(true, false), (false, true)] } else { vec![(false, false)] } {
            let mut raw = stale(slots);
            assert_eq!(calls::head(sheet, offset, true, lazy, pierced, &mut raw), Err(refusal));
            assert!(all_blank(&raw), "{refusal:?}");
        }
    }
}

#[test]
fn row() {
    let mut raw = stale(6);
    assert_eq!(calls::row(SHEET, 9, false, &mut raw), Ok(calls::Row { events: 4, end: 10 }));
    assert_eq!(raw[..4], events(SHEET).0[24..]);
    assert!(all_blank(&raw[4..]));
}

#[test]
fn row_refused() {
    let long = vec![b'a'; 65_537];
    let cases: [(&[u8], usize, bool, usize, Refusal); 5] = [
        (&long, 0, false, 6, Refusal::SheetTooLong),
        (SHEET, 2, false, 6, Refusal::NoLineStart),
        (SHEET, 9, true, 6, Refusal::LazyOrPierced),
        (b"a\n \nb", 2, false, 6, Refusal::BlankRow),
        (SHEET, 9, false, 3, Refusal::TooFewRawSlots),
    ];
    for (sheet, offset, lazy, slots, refusal) in cases {
        let mut raw = stale(slots);
        assert_eq!(calls::row(sheet, offset, lazy, &mut raw), Err(refusal));
        assert!(all_blank(&raw), "{refusal:?}");
    }
}

#[test]
fn head_and_row_behind_a_mark() {
    let sheet = [b"\xef\xbb\xbf", SHEET].concat();
    let mut raw = stale(22);
    assert_eq!(calls::head(&sheet, 3, true, false, false, &mut raw), Ok(calls::Head { events: 22, end: 11, cells: 2 }));
    let moved: Vec<Event> = events(SHEET).0.iter().map(|event| Event { index: event.index + 3, ..*event }).collect();
    assert_eq!(raw, moved[..22]);
    assert_eq!(calls::row(&sheet, 12, false, &mut raw), Ok(calls::Row { events: 4, end: 13 }));
    assert_eq!(raw[..4], moved[24..]);
    for offset in 0..3 {
        assert_eq!(calls::head(&sheet, offset, true, false, false, &mut raw), Err(Refusal::NoLineStart));
        assert!(all_blank(&raw));
        assert_eq!(calls::row(&sheet, offset, false, &mut raw), Err(Refusal::NoLineStart));
    }
    assert_eq!(calls::head(&sheet[..3], 3, true, false, false, &mut raw), Err(Refusal::NoHeadLine));
    assert_eq!(calls::row(&sheet[..3], 3, false, &mut raw), Err(Refusal::BlankRow));
}

#[test]
fn resolve() {
    let (raw, results) = events(SHEET);
    let mut slots = stale(60);
    assert_eq!(calls::resolve(&raw, &mut slots), Ok(52));
    assert_eq!(slots[..52], results);
    assert!(all_blank(&slots[52..]));
    assert_eq!(calls::resolve(&[], &mut []), Ok(0));
}

#[test]
fn resolve_refused() {
    let (raw, _) = events(SHEET);
    for (list, slots, refusal) in [
        (&raw[1..], 60, Refusal::NoRawTables),
        (&raw[..], 51, Refusal::TooFewResultSlots),
        (&raw, 0, Refusal::TooFewResultSlots),
    ] {
        let mut results = stale(slots);
        assert_eq!(calls::resolve(list, &mut results), Err(refusal));
        assert!(all_blank(&results), "{refusal:?}");
    }
}

/// Records that are told apart by their index.
fn numbered(range: std::ops::Range<u32>) -> Vec<Event> {
    range.map(|index| Event { index, ..STALE }).collect()
}

#[test]
fn edit() {
    let (list, pool) = (numbered(0..4), numbered(10..13));
    // Behind record 2 comes record 12; record 1 is removed, and 10 and 11 come there. The last number is no edit.
    let mut edits = [3, 0, 2, 1, 0, 1, 1, 0, 2, 0, 77];
    let mut results = stale(8);
    assert_eq!(calls::edit(&list, &mut edits, &pool, &mut results), Ok(6));
    let indexes: Vec<u32> = results[..6].iter().map(|event| event.index).collect();
    assert_eq!(indexes, [0, 10, 11, 2, 12, 3]);
    assert!(all_blank(&results[6..]));
    assert_eq!(edits, [1, 1, 0, 2, 0, 3, 0, 2, 1, 0, 77]);
}

#[test]
fn edit_refused() {
    let (list, pool) = (numbered(0..4), numbered(10..13));
    for (edit, slots, refusal) in [
        ([4, 1, 0, 0, 0], 8, Refusal::EditsDoNotFit),
        ([0, 0, 2, 2, 0], 8, Refusal::EditsDoNotFit),
        ([0, 0, 0, 1, 0], 4, Refusal::TooFewResultSlots),
    ] {
        let (mut edits, mut results) = (edit, stale(slots));
        assert_eq!(calls::edit(&list, &mut edits, &pool, &mut results), Err(refusal));
        assert!(all_blank(&results), "{refusal:?}");
        assert_eq!(edits, edit);
    }
}

/// An edit that removes and adds nothing stands at its position too, also one beyond the list.
#[test]
fn edit_order_beyond_the_list() {
    let mut edits = [9, 0, 0, 0, 0, 0, 1, 0, 0, 0];
    assert_eq!(calls::edit(&numbered(0..1), &mut edits, &[], &mut []), Ok(0));
    assert_eq!(edits, [0, 1, 0, 0, 0, 9, 0, 0, 0, 0]);
}

/// Edits of a list of four with a pool of three: at positions 1 and 3 they add, remove one, or do nothing; some do nothing elsewhere.
const UNSORTED: [[usize; 5]; 9] = [
    [3, 0, 2, 1, 0],
    [1, 0, 0, 1, 0],
    [usize::MAX, 0, 8, 0, 0],
    [3, 0, 0, 0, 0],
    [1, 1, 7, 0, 0],
    [3, 0, 1, 1, 0],
    [1, 0, usize::MAX, 0, 5],
    [0, 0, 0, 0, 0],
    [1, 0, 1, 1, usize::MAX],
];

#[test]
fn edit_order() {
    let (list, pool) = (numbered(0..4), numbered(10..13));
    // The last numbers are no edit.
    let mut edits = [UNSORTED.as_flattened(), &[77, 5, 0, 9]].concat();
    let mut results = stale(9);
    assert_eq!(calls::edit(&list, &mut edits, &pool, &mut results), Ok(7));
    let indexes: Vec<u32> = results[..7].iter().map(|event| event.index).collect();
    assert_eq!(indexes, [0, 11, 10, 2, 12, 11, 3]);
    assert!(all_blank(&results[7..]));
    let sorted = [7, 1, 4, 6, 8, 0, 3, 5, 2].map(|place| UNSORTED[place]);
    assert_eq!(edits, [sorted.as_flattened(), &[77, 5, 0, 9]].concat());
}

#[test]
fn edit_order_refused() {
    let (list, pool) = (numbered(0..4), numbered(10..13));
    for (last, slots, refusal) in [
        // Position 1 lies inside what it removes; past the list; past the pool; more removed than any list has, twice.
        ([0, 2, 0, 0, 0], 9, Refusal::EditsDoNotFit),
        ([3, 2, 0, 0, 0], 9, Refusal::EditsDoNotFit),
        ([4, 0, 2, 2, 0], 9, Refusal::EditsDoNotFit),
        ([2, 1 << 32, 0, 0, 0], 9, Refusal::EditsDoNotFit),
        ([2, usize::MAX, 0, 0, 0], 9, Refusal::EditsDoNotFit),
        ([2, 1, 0, 1, 0], 6, Refusal::TooFewResultSlots),
        ([2, 1, 0, 1, 0], 0, Refusal::TooFewResultSlots),
    ] {
        let given = [UNSORTED.as_flattened(), &last, &[77, 5, 0, 9]].concat();
        let (mut edits, mut results) = (given.clone(), stale(slots));
        assert_eq!(calls::edit(&list, &mut edits, &pool, &mut results), Err(refusal), "{last:?}");
        assert!(all_blank(&results), "{last:?}");
        assert_eq!(edits, given, "{last:?}");
    }
}

/// How many edits are many.
const MANY: usize = 20_000;

/// Many edits, given in the order of these places: each replaces one of two records by one of the pool.
fn replacing(places: impl Iterator<Item = usize>) -> Vec<usize> {
    places.flat_map(|place| [2 * place, 1, place, 1, 0]).collect()
}

/// Falling, and in no order: 7,919 is prime, so that each place comes once.
fn unsorted_many() -> [Vec<usize>; 2] {
    [replacing((0..MANY).rev()), replacing((0..MANY).map(|place| place * 7_919 % MANY))]
}

#[test]
fn many_edits() {
    let (list, pool) = (numbered(0..2 * MANY as u32), numbered(100_000..100_000 + MANY as u32));
    for mut edits in unsorted_many() {
        let mut results = stale(2 * MANY);
        assert_eq!(calls::edit(&list, &mut edits, &pool, &mut results), Ok(2 * MANY));
        let replaced = (0..2 * MANY).map(|place| if place % 2 == 0 { pool[place / 2] } else { list[place] });
        assert!(results.into_iter().eq(replaced));
        assert!(edits == replacing(0..MANY));
    }
}

#[test]
fn many_edits_refused() {
    let (list, pool) = (numbered(0..2 * MANY as u32), numbered(100_000..100_000 + MANY as u32));
    for given in unsorted_many() {
        for (list, pool, slots, refusal) in [
            // The edit with the highest position reaches past the list, past the pool.
            (&list[..2 * MANY - 2], &pool[..], 2 * MANY, Refusal::EditsDoNotFit),
            (&list[..], &pool[..MANY - 1], 2 * MANY, Refusal::EditsDoNotFit),
            (&list[..], &pool[..], 2 * MANY - 1, Refusal::TooFewResultSlots),
        ] {
            let (mut edits, mut results) = (given.clone(), stale(slots));
            assert_eq!(calls::edit(list, &mut edits, pool, &mut results), Err(refusal));
            assert!(all_blank(&results), "{refusal:?}");
            assert!(edits == given, "{refusal:?}");
        }
    }
}

#[test]
fn align() {
    let (_, results) = events(SHEET);
    let mut alignments = [9; 3];
    assert_eq!(calls::align(&results, 0, &mut alignments), Ok(2));
    assert_eq!(alignments, [Alignment::Left.number(), Alignment::None.number(), 0]);
}

#[test]
fn align_refused() {
    let (_, results) = events(SHEET);
    for (index, slots, refusal) in [(1, 3, Refusal::NoTableToAlign), (0, 1, Refusal::TooFewAlignmentSlots)] {
        let mut alignments = vec![9; slots];
        assert_eq!(calls::align(&results, index, &mut alignments), Err(refusal));
        assert!(alignments.iter().all(|&slot| slot == 0), "{refusal:?}");
    }
}

#[test]
fn sheet() {
    let (mut raw, mut results, mut alignments) = (stale(30), stale(60), [9; 4]);
    assert_eq!(
        calls::sheet(SHEET, true, &mut raw, &mut results, &mut alignments),
        Ok(calls::Sheet { tables: 1, events: 28, results: 52, alignments: 2 })
    );
    assert!(all_blank(&raw[28..]) && all_blank(&results[52..]));
    assert!(raw[..28].iter().chain(&results[..52]).all(|event| event.kind == 1 || event.kind == 2));
    assert_eq!(alignments, [2, 1, 0, 0]);
}

#[test]
fn sheet_refused() {
    let long = vec![b'a'; 65_537];
    let cases: [(&[u8], [usize; 3], Refusal); 4] = [
        (&long, [30, 60, 4], Refusal::SheetTooLong),
        (SHEET, [27, 51, 1], Refusal::TooFewRawSlots),
        (SHEET, [30, 51, 1], Refusal::TooFewResultSlots),
        (SHEET, [30, 60, 1], Refusal::TooFewAlignmentSlots),
    ];
    for (sheet, [n, m, k], refusal) in cases {
        let (mut raw, mut results, mut alignments) = (stale(n), stale(m), vec![9; k]);
        assert_eq!(calls::sheet(sheet, true, &mut raw, &mut results, &mut alignments), Err(refusal));
        assert!(all_blank(&raw) && all_blank(&results) && alignments.iter().all(|&slot| slot == 0), "{refusal:?}");
    }
    assert_eq!(poolsheet::read_sheet(&long, true).unwrap_err(), Refusal::SheetTooLong);
}

#[test]
fn sheet_with_kinds() {
    let of_pipes = events(SHEET);
    for (kinds, sheet) in [
        (KINDS.to_vec(), SHEET),
        (changed(&[(b'|', 3)]), SHEET),
        (changed(&[(b';', 3), (b'|', 0)]), b"a;b\n:-;-\nc"),
        (changed(&[(b';', 3), (b'|', 0)]), b"|;b\n:-;-\n|"),
        (changed(&[(b'=', 5), (b'-', 0), (b',', 6), (b':', 0)]), b"a|b\n,=|=\n-"),
        (changed(&[(b'|', 6), (b':', 3)]), b"a:b\n|-:-\nc"),
        (changed(&[(0, 3), (b'|', 0), (255, 5), (b'-', 0)]), b"a\0b\n:\xff\0\xff\nc"),
        (changed(&[(b'c', 4), (b'\\', 0)]), b"a|\\\n:-|-\nc"),
    ] {
        let (mut raw, mut results, mut alignments) = (stale(30), stale(60), [9; 4]);
        let given = kinds.clone();
        assert_eq!(
            calls::sheet_with(&kinds, sheet, true, &mut raw, &mut results, &mut alignments),
            Ok(calls::Sheet { tables: 1, events: 28, results: 52, alignments: 2 })
        );
        assert_eq!((&raw[..28], &results[..52]), (&of_pipes.0[..], &of_pipes.1[..]));
        assert!(all_blank(&raw[28..]) && all_blank(&results[52..]));
        assert_eq!(alignments, [2, 1, 0, 0]);
        assert_eq!(kinds, given);
    }
}

#[test]
fn kinds_refused() {
    let long = vec![b'a'; 65_537];
    let cases: [(Vec<u8>, Refusal); 20] = [
        (vec![], Refusal::NoKindTable),
        (KINDS[..255].to_vec(), Refusal::NoKindTable),
        ([&KINDS[..], &[0]].concat(), Refusal::NoKindTable),
        (changed(&[(0, 7)]), Refusal::NoKindTable),
        (changed(&[(255, 255)]), Refusal::NoKindTable),
        // All three faults, and two of them.
        (changed(&[(b'z', 7), (b' ', 0), (b'|', 0)]), Refusal::NoKindTable),
        (changed(&[(b' ', 0), (b'|', 0)])[..255].to_vec(), Refusal::NoKindTable),
        (changed(&[(b' ', 0), (b'|', 0)]), Refusal::WhitespaceKindsDiffer),
        (changed(&[(b'\t', 0)]), Refusal::WhitespaceKindsDiffer),
        (changed(&[(b'\r', 1)]), Refusal::WhitespaceKindsDiffer),
        (changed(&[(11, 1)]), Refusal::WhitespaceKindsDiffer),
        (changed(&[(12, 2)]), Refusal::WhitespaceKindsDiffer),
        (changed(&[(b'>', 1)]), Refusal::WhitespaceKindsDiffer),
        (changed(&[(b'|', 0)]), Refusal::PunctuationKindsDiffer),
        (changed(&[(b'/', 4)]), Refusal::PunctuationKindsDiffer),
        (changed(&[(b'-', 0)]), Refusal::PunctuationKindsDiffer),
        (changed(&[(b'-', 6)]), Refusal::PunctuationKindsDiffer),
        (changed(&[(b':', 3)]), Refusal::PunctuationKindsDiffer),
        (changed(&[(b'>', 3), (b'|', 0)]), Refusal::PunctuationKindsDiffer),
        (changed(&[(b'>', 6), (b':', 0)]), Refusal::PunctuationKindsDiffer),
    ];
    for (kinds, refusal) in cases {
        // Before questions 1, 9, 12 and 14.
        for (sheet, [n, m, k]) in [(SHEET, [30, 60, 4]), (SHEET, [0, 0, 0]), (&long, [2, 1, 3])] {
            let (mut raw, mut results, mut alignments) = (stale(n), stale(m), vec![9; k]);
            let given = kinds.clone();
            let answer = calls::sheet_with(&kinds, sheet, true, &mut raw, &mut results, &mut alignments);
            assert_eq!(answer, Err(refusal), "{} entries", kinds.len());
            assert!(all_blank(&raw) && all_blank(&results) && alignments.iter().all(|&slot| slot == 0), "{refusal:?}");
            assert_eq!(kinds, given);
            assert_eq!(poolsheet::read_sheet_with(&kinds, sheet, true).unwrap_err(), refusal);
        }
    }
}

#[test]
fn sheet_with_kinds_refused() {
    let kinds = changed(&[(b';', 3), (b'|', 0)]);
    let long = vec![b';'; 65_537];
    let cases: [(&[u8], [usize; 3], Refusal); 4] = [
        (&long, [30, 60, 4], Refusal::SheetTooLong),
        (b"a;b\n:-;-\nc", [27, 51, 1], Refusal::TooFewRawSlots),
        (b"a;b\n:-;-\nc", [28, 51, 1], Refusal::TooFewResultSlots),
        (b"a;b\n:-;-\nc", [28, 52, 1], Refusal::TooFewAlignmentSlots),
    ];
    for (sheet, [n, m, k], refusal) in cases {
        let (mut raw, mut results, mut alignments) = (stale(n), stale(m), vec![9; k]);
        let answer = calls::sheet_with(&kinds, sheet, true, &mut raw, &mut results, &mut alignments);
        assert_eq!(answer, Err(refusal));
        assert!(all_blank(&raw) && all_blank(&results) && alignments.iter().all(|&slot| slot == 0), "{refusal:?}");
    }
    assert_eq!(poolsheet::read_sheet_with(&kinds, &long, true).unwrap_err(), Refusal::SheetTooLong);
}

/// Heads and rows are read with the built-in table.
#[test]
fn head_and_row_keep_their_kinds() {
    let mut raw = stale(24);
    assert_eq!(calls::head(b"a;b\n:-;-", 0, true, false, false, &mut raw), Err(Refusal::NoDelimiterRow));
    assert_eq!(calls::row(b"a;b", 0, false, &mut raw), Ok(calls::Row { events: 4, end: 3 }));
}
