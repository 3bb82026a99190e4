//! Tests of the harness itself: the example of 01, its table of readings, and the order of refusals.

use crate::bom::BOM;
use crate::calls::{self, SheetSlots};
use crate::counts;
use crate::drive::Flags;
use crate::kept::random::Random;
use crate::kept::{self, sheet_cases};
use crate::kinds::{self, BUILT_IN};
use crate::orders::{fitting, Many, Wanted, FAULTS, ORDERS};
use crate::print;
use crate::protocol::answer;
use crate::questions;
use crate::read;
use crate::record::{self, Record};
use crate::watch;
use std::path::Path;

const MANY: SheetSlots = SheetSlots { raw: 1024, results: 1024, alignments: 1024 };

/// A head at offset 0: its refusal, or the alignments of the sheet.
fn reading(text: &str, code_indented: bool) -> Result<Vec<u64>, u8> {
    calls::head(text.as_bytes(), 0, code_indented, Flags::default(), 1024)?;
    Ok(calls::sheet(text.as_bytes(), code_indented, &MANY)?.alignments)
}

#[test]
fn example_sheet() {
    let sheet = calls::sheet(b"a|b\n:-|-\nc", true, &MANY).ok().unwrap();
    assert_eq!((sheet.tables, sheet.raw.len(), sheet.results.len()), (1, 28, 52));
    assert_eq!(sheet.alignments, [2, 1]);
}

#[test]
fn known_readings() {
    let readings: [(&str, bool, Result<Vec<u64>, u8>); 14] = [
        ("|\n|-|", true, Err(4)),
        ("||\n|-|", true, Ok(vec![1])),
        ("a\n-", true, Err(6)),
        ("a\n:-", true, Ok(vec![2])),
        ("a\n-|", true, Ok(vec![1])),
        ("a|b\n:-", true, Err(7)),
        ("a|b\n-|-:", true, Ok(vec![1, 3])),
        ("a\n:", true, Err(6)),
        ("a\n- -", true, Err(6)),
        ("   a\n:-", true, Ok(vec![2])),
        ("    a\n:-", true, Err(3)),
        ("    a\n:-", false, Ok(vec![2])),
        ("a\\|b\n:-:", true, Ok(vec![4])),
        ("a\\\\|b\n-|-", true, Ok(vec![1, 1])),
    ];
    for (text, code_indented, expected) in readings {
        assert_eq!(reading(text, code_indented), expected, "{text:?}");
    }
}

/// The answer to a request whose last word is a text.
fn asked(request: &str, text: &str) -> String {
    answer(&format!("{request} {}", print::bytes(text.as_bytes())))
}

#[test]
fn head_refusals_in_order() {
    assert_eq!(asked("head 1 1 1 1 0", "    a"), "2 0 0 0 | +0");
    assert_eq!(asked("head 0 1 1 1 0", "    a"), "3 0 0 0 | +0");
    assert_eq!(asked("head 0 1 1 1 0", "a"), "4 0 0 0 | +0");
    assert_eq!(asked("head 0 1 1 0 0", "a\n"), "5 0 0 0 | +0");
    assert_eq!(asked("head 0 1 0 1 0", "a\n-"), "5 0 0 0 | +0");
    assert_eq!(asked("head 0 1 0 0 0", "a\n"), "6 0 0 0 | +0");
    assert_eq!(asked("head 0 1 0 0 0", "a|b\n|"), "6 0 0 0 | +0");
    assert_eq!(asked("head 0 1 0 0 0", "a|b\n-|"), "7 0 0 0 | +0");
    assert_eq!(asked("head 0 1 0 0 13", "a\n:-"), "9 0 0 0 | +13");
    assert!(asked("head 0 1 0 0 14", "a\n:-").starts_with("0 14 4 1 | 1,6,"));
}

#[test]
fn row_refusals_in_order() {
    assert_eq!(asked("row 2 1 0", "a\r\nb"), "2 0 0 | +0");
    assert_eq!(asked("row 0 1 0", " "), "5 0 0 | +0");
    assert_eq!(asked("row 0 0 0", " \t"), "8 0 0 | +0");
    assert_eq!(asked("row 0 0 3", "a"), "9 0 0 | +3");
    assert!(asked("row 0 0 4", "a").starts_with("0 4 1 | 1,7,"));
}

#[test]
fn sheet_refusals_in_order() {
    let text = "a\n:-";
    assert_eq!(asked("sheet 1 13 0 0", text), "9 0 0 0 0 | +13 | +0 | +0");
    assert_eq!(asked("sheet 1 14 23 0", text), "12 0 0 0 0 | +14 | +23 | +0");
    assert_eq!(asked("sheet 1 14 24 0", text), "14 0 0 0 0 | +14 | +24 | +0");
    assert_eq!(asked("sheet 1 0 0 0", &"a".repeat(65_537)), "1 0 0 0 0 | +0 | +0 | +0");
    assert_eq!(asked("sheet 1 0 0 0", &"a".repeat(65_536)), "0 0 0 0 0 | +0 | +0 | +0");
}

/// The numbers of tables and of body rows: of the rows entered in the raw events, those that are no head rows.
fn shape_of(sheet: &[u8], code_indented: bool) -> (usize, usize) {
    let read = calls::sheet(sheet, code_indented, &MANY).ok().unwrap();
    let rows = read.raw.iter().filter(|record| record.enters(record::ROW)).count();
    (read.tables, rows - read.tables)
}

#[test]
fn remarks_close_tables() {
    for line_end in sheet_cases::REMARK_LINE_ENDS {
        for (place, closed) in [(1, 2), (0, 0), (0, 0), (1, 0), (1, 1), (1, 2), (2, 1)].iter().enumerate() {
            for indent in ["", " ", "  ", "   "] {
                let sheet = sheet_cases::with_remark(place, indent, line_end);
                assert_eq!(shape_of(&sheet, true), *closed, "{place} {indent:?} {line_end:?}");
                assert_eq!(shape_of(&sheet, false), *closed, "{place} {indent:?} {line_end:?}");
            }
        }
        // With 4 units of indent it is a line like any other.
        for indent in ["    ", "\t", " \t", "  \t", "   \t"] {
            let first = sheet_cases::with_remark(3, indent, line_end);
            assert_eq!((shape_of(&first, true), shape_of(&first, false)), ((1, 3), (1, 3)), "{indent:?}");
            let head = sheet_cases::with_remark(1, indent, line_end);
            assert_eq!((shape_of(&head, true), shape_of(&head, false)), ((0, 0), (1, 2)), "{indent:?}");
        }
    }
}

#[test]
fn mark_is_passed_over() {
    for offset in [0, 1, 2, 4] {
        assert_eq!(asked(&format!("head {offset} 1 0 0 14"), "\u{feff}a\n:-"), "2 0 0 0 | +14");
        assert_eq!(asked(&format!("row {offset} 0 4"), "\u{feff}a\n:-"), "2 0 0 | +4");
    }
    assert!(asked("head 3 1 0 0 14", "\u{feff}a\n:-").starts_with("0 14 7 1 | 1,6,1,1,3,0,0 1,7,1,1,3,0,0 "));
    assert!(asked("row 3 0 4", "\u{feff}a\n:-").starts_with("0 4 4 | 1,7,1,1,3,0,0 "));
    assert_eq!(asked("head 3 1 0 0 1", "\u{feff}"), "4 0 0 0 | +1");
    assert_eq!(asked("row 3 0 1", "\u{feff}"), "8 0 0 | +1");
    assert_eq!(asked("sheet 1 1 1 1", "\u{feff}"), "0 0 0 0 0 | +1 | +1 | +1");
    // The second of two is text, as wide as its bytes.
    assert!(asked("row 3 0 4", "\u{feff}\u{feff}").starts_with("0 4 6 | 1,7,1,1,3,0,0 1,3,1,1,3,0,0 2,3,1,4,6,0,0 "));
    // Question 1 counts it.
    assert_eq!(asked("sheet 1 0 0 0", &("\u{feff}".to_string() + &"a".repeat(65_533))), "0 0 0 0 0 | +0 | +0 | +0");
    assert_eq!(asked("sheet 1 0 0 0", &("\u{feff}".to_string() + &"a".repeat(65_534))), "1 0 0 0 0 | +0 | +0 | +0");
}

#[test]
fn mark_moves_indices_alone() {
    for sheet in sheet_cases::by_hand().iter().filter(|sheet| !sheet.starts_with(&BOM)) {
        let plain = calls::sheet(sheet, true, &MANY).ok().unwrap();
        let marked = calls::sheet(&[&BOM[..], sheet].concat(), true, &MANY).ok().unwrap();
        assert_eq!((plain.tables, &plain.alignments), (marked.tables, &marked.alignments));
        for (one, other) in [(plain.raw, marked.raw), (plain.results, marked.results)] {
            let moved: Vec<Record> = one.iter().map(|record| Record { index: record.index + 3, ..*record }).collect();
            assert_eq!(moved, other, "{sheet:?}");
        }
    }
}

/// A line without a line end is refused by 4, and then the crate's counter is still there.
#[test]
fn counted_lines_are_counted_so() {
    for line in counts::LINES {
        for count in (2..600).chain([32_512, 32_513]) {
            let head = calls::head(&line(count).text, 0, true, Flags::default(), 1024);
            assert_eq!(head.err(), Some(4));
            assert_eq!(watch::last_size_b(), Some(count));
        }
        for count in 2..60 {
            let head = calls::head(&line(count).over_all(), 0, true, Flags::default(), 1024);
            assert_eq!(head.map(|head| head.cells as usize).ok(), Some(line(count).cells));
        }
    }
}

#[test]
fn tables_of_kinds_refused() {
    for (label, number, entries, changes) in kept::kinds::REFUSED {
        let changes: Vec<u8> = changes.iter().flat_map(|&(byte, kind)| [byte, kind]).collect();
        let table = format!("{entries} {}", print::bytes(&changes));
        let refused = |slots: &str| format!("{number} 0 0 0 0{slots}");
        assert_eq!(asked(&format!("kinds {table} 1 2 1 3"), "a\n:-"), refused(" | +2 | +1 | +3"), "{label}");
        assert_eq!(asked(&format!("kinds {table} 1 0 0 0"), "a\n:-"), refused(" | +0 | +0 | +0"), "{label}");
        // Before question 1.
        assert_eq!(
            asked(&format!("kinds {table} 1 0 0 0"), &"a".repeat(65_537)),
            refused(" | +0 | +0 | +0"),
            "{label}"
        );
    }
    assert_eq!(asked("kinds 256 - 1 0 0 0", &"a".repeat(65_537)), "1 0 0 0 0 | +0 | +0 | +0");
    assert_eq!(asked("kinds 256 7c003b03 1 13 0 0", "a\n-;"), "9 0 0 0 0 | +13 | +0 | +0");
}

/// Every single change of the built-in table, by 02's words.
#[test]
fn single_changes_of_kinds() {
    for (byte, kind) in (0..256).flat_map(|byte| (0..=u8::MAX).map(move |kind| (byte, kind))) {
        let mut kinds = BUILT_IN;
        kinds[byte] = kind;
        let expected = match (BUILT_IN[byte], kind) {
            (old, new) if old == new => None,
            (_, 7..) => Some(20),
            (1 | 2, _) | (_, 1 | 2) => Some(21),
            _ => Some(22),
        };
        assert_eq!(calls::sheet_with(&kinds, b"", true, &MANY).err(), expected, "{byte} {kind}");
    }
}

#[test]
fn kinds_in_own_bytes() {
    let read = |kinds: &[u8], text: &str| calls::sheet_with(kinds, text.as_bytes(), true, &MANY).unwrap();
    for (label, own, built_in, tables) in [
        ("builtin", "a|b\n-|-\nc", "a|b\n-|-\nc", 1),
        ("semicolon", "a;b\n-;-\nc|d", "a|b\n-|-\ncxd", 1),
        ("semicolon", "a|b\n-|-", "axb\n-x-", 0),
        ("semicolon", "a\\;b\n:-\n\\|;", "a\\|b\n:-\n\\x|", 1),
        ("semicolon", "\u{feff}a;b\r\n-;-\r\n> c;\r\nd", "\u{feff}a|b\r\n-|-\r\n> c|\r\nd", 1),
        ("equals", "a|-\n=|:=", "a|x\n-|:-", 1),
        ("slash", "a\\|b/|\n-|-", "ax|b\\|\n-|-", 1),
        ("allfour", "a;b\n=;,=\nc/;|:-\\", "a|b\n-|:-\nc\\|xxxx", 1),
        ("letters", "axb\nkmxm\ncexd-", "a|b\n:-|-\nc\\|dy", 1),
        ("round", "a:b\n-\\:\\-\n|:c:d", "a|b\n:-|-:\n\\|c|d", 1),
        ("zeropipe", "a\0b\n-\0-\n|\0", "a|b\n-|-\nx|", 1),
    ] {
        let kinds = kept::kinds::passing_of(label);
        assert_eq!(read(&kinds, own), read(&BUILT_IN, built_in), "{label} {own:?}");
        assert_eq!(read(&kinds, own).tables, tables, "{label} {own:?}");
    }
    // The mark's bytes as pipe, hyphen and colon: the first three are passed over.
    let mark = calls::sheet_with(&kept::kinds::passing_of("mark"), &BOM.repeat(2), true, &MANY).unwrap();
    assert_eq!(mark.tables, 0);
    let sheet = [&BOM[..], &BOM, b"\n", &BOM].concat();
    let mark = calls::sheet_with(&kept::kinds::passing_of("mark"), &sheet, true, &MANY).unwrap();
    assert_eq!(mark, read(&BUILT_IN, "\u{feff}|-:\n|-:"));
    assert_eq!((mark.tables, mark.alignments), (1, vec![3]));
}

#[test]
fn built_in_kinds_change_nothing() {
    for sheet in sheet_cases::by_hand().iter().chain(&sheet_cases::MARKED.map(|(_, sheet)| sheet.to_vec())) {
        for code_indented in [true, false] {
            let with = calls::sheet_with(&BUILT_IN, sheet, code_indented, &MANY);
            assert_eq!(with, calls::sheet(sheet, code_indented, &MANY), "{sheet:?}");
        }
    }
}

/// Each byte becomes one whose built-in kind is the kind that it has, no two the same, and what the table cannot name stays.
#[test]
fn exchange_keeps_kinds() {
    let mut random = Random::new(11);
    let by_hand = kept::kinds::PASSING.iter().map(|(label, _)| kept::kinds::passing_of(label));
    let drawn: Vec<Vec<u8>> = (0..500).map(|_| kept::kinds::passing(&mut random)).collect();
    for table in by_hand.chain(drawn) {
        let bytes = kinds::to_built_in(&table);
        assert!((0..256).all(|byte| BUILT_IN[usize::from(bytes[byte])] == table[byte]), "{table:?}");
        assert!([9, 10, 13, 32, 62].iter().all(|&byte| usize::from(bytes[byte]) == byte), "{table:?}");
        let mut sorted = bytes;
        sorted.sort_unstable();
        assert!((0..256).all(|byte| usize::from(sorted[byte]) == byte), "{table:?}");
        let sheet = sheet_cases::tabular(&mut random, 4);
        let written = kinds::written(&sheet, &table);
        assert_eq!(kinds::exchanged(&written, &bytes), sheet);
        assert_eq!(kinds::table(256, &kinds::changes(&table)), Some(table));
    }
}

#[test]
fn list_refusals_in_order() {
    let list = "1,1,0,0,0,0,0";
    assert_eq!(answer(&format!("resolve 0 {list}")), "10 0 | +0");
    assert_eq!(answer("resolve 0"), "0 0 | +0");
    assert_eq!(answer(&format!("edit 0 1 1 0 1 1 0 0 0 {list}")), "11 0 | +0 | 1 1 0 0 0");
    assert_eq!(answer(&format!("edit 0 1 1 0 9 0 7 0 0 {list}")), "12 0 | +0 | 9 0 7 0 0");
    assert_eq!(answer(&format!("edit 1 1 1 0 9 0 7 0 0 {list}")), format!("0 1 | {list} +0 | 9 0 7 0 0"));
    assert_eq!(answer(&format!("align 0 0 {list}")), "13 0 | +0");
    let table = "1,4,0,0,0,0,0 1,11,0,0,0,0,0 1,14,0,0,0,0,0 1,12,0,0,0,0,0 2,14,0,0,0,0,0 2,11,0,0,0,0,0";
    assert_eq!(answer(&format!("align 0 0 {table}")), "14 0 | +0");
    assert_eq!(answer(&format!("align 0 2 {table}")), "0 1 | 4 +1");
}

#[test]
fn orders_take_each_place_once() {
    for order in &ORDERS {
        for count in (2..70).chain([1_000]) {
            let mut places = (order.places)(count, &mut Random::new(count as u64));
            assert!(places.is_sorted() == (order.name == "rising") || count < 8, "{} {count}", order.name);
            places.sort_unstable();
            assert!(places.into_iter().eq(0..count), "{} {count}", order.name);
        }
    }
}

#[test]
fn many_edits_fit_but_for_a_fault() {
    let fit = |many: &Many| {
        let edits: Vec<_> = many.fives.iter().map(read::edit).collect();
        questions::edits_fit(many.list as usize, many.pool as usize, &edits)
    };
    for (count, equal) in (2..60).flat_map(|count| [0, 50, 100].map(|equal| (count, equal))) {
        let many = || fitting(&mut Random::new(count as u64), &Wanted { count, pool: 7, equal });
        assert!(fit(&many()) && many().fives.is_sorted_by_key(|five| five[0]), "{count} {equal}");
        for fault in FAULTS {
            let many = many().with(fault);
            assert!(!fit(&many) && many.fives.len() == count, "{count} {equal} {fault:?}");
        }
    }
}

#[test]
fn unreadable_requests() {
    for request in [
        "",
        "head",
        "head 0 1 0 0 3",
        "head 0 2 0 0 3 61",
        "head 0 1 0 0 3 6",
        "head 0 1 0 0 3 6A",
        "row -1 0 3 61",
        "resolve 1 1,2,3",
        "resolve 1 ",
        "sheet 1 1 1 1 61 ",
        "edit 1 1 0 0 1 1",
        "align 18446744073709551616 0",
        "kinds 256 - 1 1 1 1",
        "kinds 256 1 1 1 1 61",
        "kinds 256 7c 1 1 1 1 61",
        "kinds 256 7C00 1 1 1 1 61",
        "kinds 256 7c003b 1 1 1 1 61",
        "kinds 255 ff00 1 1 1 1 61",
        "kinds 0 0000 1 1 1 1 61",
        "kinds 301 - 1 1 1 1 61",
    ] {
        assert_eq!(answer(request), "?", "{request}");
    }
}

#[test]
fn tables_resolve_together_as_alone() {
    let mut random = Random::new(9);
    for _ in 0..2_000 {
        let sheet = sheet_cases::several(&mut random);
        assert!(calls::resolves_apart(&sheet, random.percent(50)), "{sheet:?}");
    }
}

#[test]
fn kept_answers_are_those_made_now() {
    let folder = Path::new(env!("CARGO_MANIFEST_DIR")).join("../vectors");
    for kept in kept::all() {
        for (lines, ending) in [(&kept.requests, "requests"), (&kept.answers, "answers")] {
            let file = std::fs::read_to_string(folder.join(format!("{}.{ending}", kept.name))).unwrap();
            assert!(file.lines().eq(lines.iter().map(String::as_str)), "{}.{ending}", kept.name);
        }
    }
}
