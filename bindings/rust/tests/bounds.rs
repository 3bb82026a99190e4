//! The slots that are said to suffice do: for the worst sheets of 65,536 bytes, and for every short sheet of the bytes that matter, also
//! under tables of kinds in which these are others.

use poolsheet::{alignment_slots, calls, raw_slots, result_slots, Event, KINDS, SHEET_MAX};

/// Reads sheets into slots that are made once.
struct Reader {
    raw: Vec<Event>,
    results: Vec<Event>,
    alignments: Vec<u8>,
}

impl Reader {
    fn new(n: usize) -> Reader {
        Reader {
            raw: vec![Event::BLANK; raw_slots(n)],
            results: vec![Event::BLANK; result_slots(n)],
            alignments: vec![0; alignment_slots(n)],
        }
    }

    /// Reads a sheet with as many slots as are said to suffice.
    fn read(&mut self, sheet: &[u8]) -> calls::Sheet {
        self.read_with(&KINDS, sheet)
    }

    /// The same with a table of kinds.
    fn read_with(&mut self, kinds: &[u8], sheet: &[u8]) -> calls::Sheet {
        let n = sheet.len();
        let (raw, results) = (&mut self.raw[..raw_slots(n)], &mut self.results[..result_slots(n)]);
        match calls::sheet_with(kinds, sheet, true, raw, results, &mut self.alignments[..alignment_slots(n)]) {
            Ok(counts) => counts,
            Err(refusal) => panic!("{refusal}: {} bytes, {:?}", n, String::from_utf8_lossy(&sheet[..n.min(80)])),
        }
    }
}

/// The built-in table with pairs of bytes exchanged.
fn exchanged(pairs: &[(u8, u8)]) -> [u8; 256] {
    let mut kinds = KINDS;
    pairs.iter().for_each(|&(one, other)| kinds.swap(one.into(), other.into()));
    kinds
}

/// A start, then a text over and over, to the longest sheet.
fn repeated(start: &str, text: &str) -> Vec<u8> {
    start.bytes().chain(text.bytes().cycle()).take(SHEET_MAX).collect()
}

#[test]
fn worst_sheets() {
    let mut reader = Reader::new(SHEET_MAX);
    let most = reader.read(&repeated("a\n:-", "\na"));
    assert_eq!(most, calls::Sheet { tables: 1, events: 196_610, results: 327_686, alignments: 1 });
    assert_eq!(most.events, raw_slots(SHEET_MAX));

    let tables = reader.read("a\n:-\n\n".repeat(SHEET_MAX / 6).as_bytes());
    assert_eq!((tables.tables, tables.events, tables.alignments), (10_922, 152_908, 10_922));

    let columns = "a|".repeat(13_107);
    let wide = reader.read(format!("{columns}\n{}\n", "-|".repeat(13_107)).as_bytes());
    assert_eq!((wide.tables, wide.alignments), (1, 13_107));

    let narrow = reader.read(format!("{}\n{}-\n", "|".repeat(21_845), "-|".repeat(21_843)).as_bytes());
    assert_eq!((narrow.tables, narrow.alignments), (1, 21_844));

    for text in ["|", "a|", "a", "\\", "\t", " ", "\n", "\r\n", "-", ":-|", "|-", "a\n"] {
        assert_eq!(reader.read(&repeated("", text)).tables, 0, "{text:?}");
    }
    for text in ["|", "a|", "|a", "\\|", "\t|", "a\r", "\n|", "\n||", "\n|a", "\r\na", "\n|a|a", "\na|"] {
        assert_eq!(reader.read(&repeated("a\n:-\n", text)).tables, 1, "{text:?}");
    }
    for text in
        ["a\n:-\n\n", "a\n-|\n\n", "||\n:-\n\n", "a|a\n-|-\n\n", "a\n:-\na\n\n", "a\n:-\n>\n", "a\r\n:-\r\n\r\n"]
    {
        let times = SHEET_MAX / text.len();
        assert_eq!(reader.read(text.repeat(times).as_bytes()).tables, times, "{text:?}");
    }
}

#[test]
fn worst_sheets_in_other_bytes() {
    let mut reader = Reader::new(SHEET_MAX);
    let kinds = exchanged(&[(b'|', b';'), (b'-', b'='), (b':', b',')]);
    let most = reader.read_with(&kinds, &repeated("|\n,=", "\n-"));
    assert_eq!(most, calls::Sheet { tables: 1, events: 196_610, results: 327_686, alignments: 1 });

    let narrow = format!("{}\n{}=\n", ";".repeat(21_845), "=;".repeat(21_843));
    let narrow = reader.read_with(&kinds, narrow.as_bytes());
    assert_eq!((narrow.tables, narrow.alignments), (1, 21_844));

    for text in [";", "a;", ";a", "\\;", "\t;", "\n;", "\n;;", "\n;a", "|", "a|", "\na|"] {
        assert_eq!(reader.read_with(&kinds, &repeated("a\n,=\n", text)).tables, 1, "{text:?}");
        assert_eq!(reader.read_with(&kinds, &repeated("a\n:-\n", text)).tables, 0, "{text:?}");
    }
}

/// Reads every sheet of up to so many of these bytes: how many have tables.
fn read_short(kinds: &[u8], bytes: &[u8; 7], longest: u32) -> usize {
    let mut reader = Reader::new(9);
    let mut with_tables = 0;
    for length in 0..=longest {
        let mut sheet = vec![0; length as usize];
        for number in 0..7usize.pow(length) {
            let mut rest = number;
            for byte in &mut sheet {
                *byte = bytes[rest % 7];
                rest /= 7;
            }
            with_tables += usize::from(reader.read_with(kinds, &sheet).tables > 0);
        }
    }
    with_tables
}

#[test]
fn short_sheets() {
    assert!(read_short(&KINDS, b"a|-:\n >", 7) > 1_000);
}

#[test]
fn short_sheets_in_other_bytes() {
    let with_tables = read_short(&KINDS, b"a|-:\n >", 6);
    for (pairs, bytes) in [
        (&[(b'|', b';')][..], b"a;-:\n >"),
        (&[(b'|', b';'), (b'-', b'='), (b':', b'|')], b"-;=|\n >"),
        (&[(b'|', b':')], b"a:-|\n >"),
        (&[(b'|', 0), (b'-', 0xbb), (b':', 0xbf)], b"a\0\xbb\xbf\n >"),
    ] {
        assert_eq!(read_short(&exchanged(pairs), bytes, 6), with_tables, "{pairs:?}");
    }
}

#[test]
fn random_sheets() {
    let mut reader = Reader::new(200);
    let mut state = 7u64;
    let mut tables = 0;
    for _ in 0..50_000 {
        let mut sheet = b"a\n:-\n".to_vec();
        for _ in 0..state >> 57 {
            state = state.wrapping_mul(6_364_136_223_846_793_005).wrapping_add(1_442_695_040_888_963_407);
            sheet.push(b"aa||-:\n\n\r\t \\>"[(state >> 33) as usize % 13]);
        }
        state = state.wrapping_mul(6_364_136_223_846_793_005).wrapping_add(1_442_695_040_888_963_407);
        tables += reader.read(&sheet).tables;
    }
    assert!(tables > 50_000);
}
