//! Whole sheets: the example of the scope document, the repository's sheets against their listings.

use std::fmt::Write;
use std::fs;
use std::path::Path;

use poolsheet::{read_sheet, read_sheet_with, Alignment, Row, Sheet, KINDS};

/// The lines of a row's cells: the letter, the line, and offset and length of the text.
fn list_row(out: &mut String, letter: char, row: &Row) {
    for cell in row.cells() {
        let range = cell.range().unwrap_or(0..0);
        writeln!(out, "{letter} {} {} {}", row.line(), range.start, range.len()).unwrap();
    }
}

/// A sheet's listing, as `sheets/` keeps it.
fn listing(sheet: &Sheet) -> String {
    let mut out = format!("tables {}\n", sheet.tables().len());
    for (i, table) in sheet.tables().iter().enumerate() {
        let letters: String = table
            .alignments()
            .iter()
            .map(|alignment| match alignment {
                Alignment::None => 'N',
                Alignment::Left => 'L',
                Alignment::Right => 'R',
                Alignment::Centre => 'C',
            })
            .collect();
        writeln!(out, "T {} {} {} {letters}", i + 1, table.header().line(), table.header().cells().len()).unwrap();
        list_row(&mut out, 'H', table.header());
        for row in table.rows() {
            list_row(&mut out, 'B', row);
        }
    }
    out
}

#[test]
fn example() {
    let sheet = read_sheet(b"a|b\n:-|-\nc", true).unwrap();
    assert_eq!(listing(&sheet), "tables 1\nT 1 1 2 LN\nH 1 0 1\nH 1 2 1\nB 3 9 1\n");
    assert_eq!((sheet.raw().len(), sheet.results().len()), (28, 52));
    let table = &sheet.tables()[0];
    assert_eq!(table.alignments(), [Alignment::Left, Alignment::None]);
    assert_eq!((table.position(b"a"), table.position(b"b"), table.position(b"c")), (Some(0), Some(1), None));
    assert_eq!(table.column(0).collect::<Vec<_>>(), [b"c"]);
    assert_eq!(table.column(1).collect::<Vec<_>>(), [b""]);
    assert_eq!(table.rows()[0].cells().len(), 1);
}

#[test]
fn kept_listings() {
    let folder = Path::new(env!("CARGO_MANIFEST_DIR")).join("../../sheets");
    let mut compared = 0;
    for entry in fs::read_dir(&folder).unwrap() {
        let path = entry.unwrap().path();
        if path.extension().is_some_and(|extension| extension == "md") {
            let bytes = fs::read(&path).unwrap();
            let kept = fs::read_to_string(path.with_extension("roster")).unwrap();
            assert_eq!(listing(&read_sheet(&bytes, true).unwrap()), kept, "{}", path.display());
            compared += 1;
        }
    }
    assert!(compared >= 3);
}

#[test]
fn columns_of_checkout() {
    let bytes = fs::read(Path::new(env!("CARGO_MANIFEST_DIR")).join("../../sheets/checkout.md")).unwrap();
    let sheet = read_sheet(&bytes, true).unwrap();
    let column = |table: usize, name: &[u8]| -> Vec<&[u8]> {
        let table = &sheet.tables()[table];
        table.column(table.position(name).unwrap()).collect()
    };
    assert_eq!(column(0, b"state"), [&b"up"[..], b"up", b"down", b"drain", b"up"]);
    assert_eq!(column(0, b"weight"), [&b"1.00"[..], b"1.00", b"0.50", b"", b"0.25"]);
    assert_eq!(column(1, b"server"), [b"spare-01", b"spare-02"]);
    assert_eq!(sheet.tables()[0].rows()[4].cells()[4].text(), b"since Monday");
    assert_eq!(sheet.bytes(), bytes);
}

#[test]
fn dense_sheets() {
    for (start, row) in [("a\n:-", "\na"), ("a|b\n:-|-", "\n|"), ("a\n:-", "\r\na|a"), ("||\n:-", "\n||||||||")] {
        let times = (poolsheet::SHEET_MAX - start.len()) / row.len();
        let text = start.to_string() + &row.repeat(times);
        let sheet = read_sheet(text.as_bytes(), true).unwrap();
        assert_eq!(sheet.tables().len(), 1);
        assert_eq!(sheet.tables()[0].rows().len(), times, "{row:?}");
    }
}

/// The line of each table's header, and the lines of its body rows.
fn lines_of(text: &str, code_indented: bool) -> Vec<(usize, Vec<usize>)> {
    let sheet = read_sheet(text.as_bytes(), code_indented).unwrap();
    let rows = |rows: &[Row]| rows.iter().map(Row::line).collect();
    sheet.tables().iter().map(|table| (table.header().line(), rows(table.rows()))).collect()
}

#[test]
fn remarks() {
    for code_indented in [true, false] {
        let lines_of = |text: &str| lines_of(text, code_indented);
        assert_eq!(lines_of("server|state\n-|-\nweb-1|up\n> on call: desk 2"), [(1, vec![3])]);
        assert_eq!(lines_of("a\n:-\nb\n   > c\nd\n\ne"), [(1, vec![3])]);
        assert_eq!(lines_of("a\r\n:-\r\n> b\r\nc\r\n-:\r\nd"), [(1, vec![]), (4, vec![6])]);
        assert_eq!(lines_of("> a\n:-\nb"), []);
        assert_eq!(lines_of("a\n:-\nb\n    > c\n\t> d\ne"), [(1, vec![3, 4, 5, 6])]);
        assert_eq!(lines_of("a\n:-\n| > b\n\\> c"), [(1, vec![3, 4])]);
    }
    assert_eq!(lines_of("    > a\n:-", true), []);
    assert_eq!(lines_of("    > a\n:-", false), [(1, vec![])]);
}

#[test]
fn marked_sheet() {
    let bytes = fs::read(Path::new(env!("CARGO_MANIFEST_DIR")).join("../../sheets/mail.md")).unwrap();
    assert!(bytes.starts_with(b"\xef\xbb\xbfhost"));
    let sheet = read_sheet(&bytes, true).unwrap();
    let table = &sheet.tables()[0];
    assert_eq!(table.position(b"host"), Some(0));
    assert_eq!((table.header().line(), table.header().cells()[0].range()), (1, Some(3..7)));
    assert_eq!(table.column(0).take(2).collect::<Vec<_>>(), [b"mx-1", b"mx-2"]);

    // The same tables as without the mark; twice, or later on, it is text.
    let plain = read_sheet(&bytes[3..], true).unwrap();
    assert!(plain.tables()[0].column(0).eq(table.column(0)));
    for text in ["\u{feff}\u{feff}host\n:-", "\n\u{feff}host\n:-"] {
        let sheet = read_sheet(text.as_bytes(), true).unwrap();
        assert_eq!(sheet.tables()[0].header().cells()[0].text(), "\u{feff}host".as_bytes(), "{text:?}");
    }
    assert_eq!(read_sheet("\u{feff}".as_bytes(), true).unwrap().tables().len(), 0);
}

#[test]
fn indented_head() {
    assert_eq!(read_sheet(b"    a\n:-", true).unwrap().tables().len(), 0);
    assert_eq!(read_sheet(b"    a\n:-", false).unwrap().tables().len(), 1);
}

/// A table of kinds in which pairs of bytes are exchanged, and a sheet in which they are; a byte order mark stays.
fn exchanged(sheet: &[u8], pairs: &[(u8, u8)]) -> (Vec<u8>, Vec<u8>) {
    let (mut kinds, mut sheet) = (KINDS.to_vec(), sheet.to_vec());
    let start = if sheet.starts_with(b"\xef\xbb\xbf") { 3 } else { 0 };
    for &(one, other) in pairs {
        kinds.swap(one.into(), other.into());
        for byte in &mut sheet[start..] {
            *byte = match *byte {
                byte if byte == one => other,
                byte if byte == other => one,
                byte => byte,
            };
        }
    }
    (kinds, sheet)
}

/// The repository's sheets with other bytes for pipe, backslash, hyphen and colon have the listings that are kept.
#[test]
fn kept_listings_in_other_bytes() {
    let folder = Path::new(env!("CARGO_MANIFEST_DIR")).join("../../sheets");
    for name in ["mail", "checkout", "images"] {
        let bytes = fs::read(folder.join(name).with_extension("md")).unwrap();
        let kept = fs::read_to_string(folder.join(name).with_extension("roster")).unwrap();
        let choices: [&[(u8, u8)]; 6] = [
            &[],
            &[(b'|', b';')],
            &[(b'|', b';'), (b'\\', b'/'), (b'-', b'='), (b':', b',')],
            &[(b'|', b':'), (b'\\', b'-')],
            &[(b'|', 0), (b'-', 255)],
            &[(b'|', 0xef), (b'-', 0xbb), (b':', 0xbf)],
        ];
        for pairs in choices {
            let (kinds, sheet) = exchanged(&bytes, pairs);
            assert_eq!(listing(&read_sheet_with(&kinds, &sheet, true).unwrap()), kept, "{name} {pairs:?}");
        }
    }
}

#[test]
fn own_kinds() {
    let (kinds, _) = exchanged(b"", &[(b'|', b';')]);
    let sheet = read_sheet_with(&kinds, b"server;state\n-;-\nweb|1;up\nweb\\;2;down\n> a;b\nc", true).unwrap();
    assert_eq!(sheet.tables().len(), 1);
    assert_eq!(sheet.tables()[0].column(0).collect::<Vec<_>>(), [&b"web|1"[..], b"web\\;2"]);
    assert_eq!(sheet.tables()[0].column(1).collect::<Vec<_>>(), [&b"up"[..], b"down"]);
    assert_eq!(read_sheet_with(&kinds, b"server|state\n-|-", true).unwrap().tables().len(), 0);

    // A backslash of kind 0 is text; the byte of kind 4 escapes.
    let (kinds, _) = exchanged(b"", &[(b'\\', b'/')]);
    let sheet = read_sheet_with(&kinds, b"a\\|b/|c\n-|-", true).unwrap();
    let header: Vec<&[u8]> = sheet.tables()[0].header().cells().iter().map(|cell| cell.text()).collect();
    assert_eq!(header, [&b"a\\"[..], b"b/|c"]);

    // The mark is passed over though its first byte is the pipe.
    let (kinds, _) = exchanged(b"", &[(b'|', 0xef)]);
    let sheet = read_sheet_with(&kinds, b"\xef\xbb\xbfa\xefb\n-\xef-", true).unwrap();
    assert_eq!(sheet.tables()[0].header().cells()[0].range(), Some(3..4));
    assert_eq!(sheet.tables()[0].header().cells().len(), 2);
}
