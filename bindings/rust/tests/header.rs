//! The header for C says the same as this crate.

use std::collections::HashMap;
use std::mem::{align_of, offset_of, size_of};

use poolsheet::{alignment_slots, raw_slots, result_slots, Alignment, Event, Name, Refusal, KINDS, SHEET_MAX};

const HEADER: &str = include_str!("../../../include/poolsheet.h");
const DECLARATIONS: &str = include_str!("../src/ffi.rs");

/// The constants of the header's enumerations, by name.
fn constants() -> HashMap<&'static str, u8> {
    HEADER
        .lines()
        .filter_map(|line| line.trim().trim_end_matches(',').split_once(" = "))
        .filter(|(name, _)| name.starts_with("POOLSHEET_"))
        .map(|(name, number)| (name, number.parse().unwrap()))
        .collect()
}

/// The texts of `poolsheet_text`, by the name of the number's constant.
fn texts() -> HashMap<&'static str, &'static str> {
    HEADER
        .lines()
        .filter_map(|line| line.trim().strip_prefix("case ")?.strip_suffix("\";")?.split_once(": return \""))
        .collect()
}

/// `NoLineStart` as a constant: `NO_LINE_START`.
fn upper(name: &str) -> String {
    let mut upper = String::new();
    for c in name.chars() {
        if c.is_uppercase() && !upper.is_empty() {
            upper.push('_');
        }
        upper.extend(c.to_uppercase());
    }
    upper
}

#[test]
fn record() {
    assert_eq!(size_of::<Event>(), 20);
    assert_eq!(align_of::<Event>(), 4);
    assert_eq!(
        [
            offset_of!(Event, kind),
            offset_of!(Event, name),
            offset_of!(Event, line),
            offset_of!(Event, column),
            offset_of!(Event, index),
            offset_of!(Event, vs),
            offset_of!(Event, link),
        ],
        [0, 1, 4, 8, 12, 16, 17]
    );
    let start = HEADER.find("typedef struct poolsheet_event {").unwrap();
    let fields: Vec<&str> = HEADER[start..]
        .lines()
        .skip(1)
        .take_while(|line| !line.starts_with('}'))
        .map(|line| line.split(';').next().unwrap().trim())
        .collect();
    assert_eq!(
        fields,
        [
            "uint8_t kind",
            "uint8_t name",
            "uint32_t line",
            "uint32_t column",
            "uint32_t index",
            "uint8_t vs",
            "uint8_t link"
        ]
    );
}

#[test]
fn refusals() {
    let (constants, texts) = (constants(), texts());
    assert_eq!(texts.len(), 18);
    assert_eq!(texts["POOLSHEET_ACCEPTED"], "accepted");
    assert_eq!(constants["POOLSHEET_ACCEPTED"], 0);
    for refusal in Refusal::ALL {
        let constant = format!("POOLSHEET_{}", upper(&format!("{refusal:?}")));
        assert_eq!(constants[constant.as_str()], refusal.number(), "{constant}");
        assert_eq!(texts[constant.as_str()], refusal.text(), "{constant}");
        assert_eq!(refusal.to_string(), refusal.text());
        assert_eq!(Refusal::from_number(refusal.number()), Some(refusal));
    }
    assert_eq!(Refusal::ALL.map(Refusal::number), [1, 2, 3, 4, 5, 6, 7, 8, 9, 10, 11, 12, 13, 14, 20, 21, 22]);
    for number in [0, 15, 16, 17, 18, 19, 23, 255] {
        assert_eq!(Refusal::from_number(number), None);
    }
}

#[test]
fn names_and_alignments() {
    let constants = constants();
    for name in Name::ALL {
        let rust = format!("{name:?}");
        let short = rust.strip_prefix("GfmTable").filter(|rest| !rest.is_empty());
        let constant = match rust.as_str() {
            "GfmTable" => "POOLSHEET_TABLE".to_string(),
            _ => format!("POOLSHEET_{}", upper(short.unwrap_or(&rust))),
        };
        assert_eq!(constants[constant.as_str()], name.number(), "{constant}");
        assert_eq!(Name::from_number(name.number()), Some(name));
    }
    assert_eq!(Name::ALL.map(Name::number), [1, 2, 3, 4, 5, 6, 7, 8, 9, 10, 11, 12, 13, 14, 15]);
    for alignment in Alignment::ALL {
        let constant = format!("POOLSHEET_ALIGN_{}", upper(&format!("{alignment:?}")));
        assert_eq!(constants[constant.as_str()], alignment.number(), "{constant}");
    }
    assert_eq!(constants["POOLSHEET_ALIGN_UNUSED"], 0);
    assert_eq!([constants["POOLSHEET_BLANK"], constants["POOLSHEET_ENTER"], constants["POOLSHEET_EXIT"]], [0, 1, 2]);
    assert_eq!([constants["POOLSHEET_LINK_NONE"], constants["POOLSHEET_LINK_TEXT"]], [0, 1]);
}

#[test]
fn slots() {
    let defined = |line: &str| assert!(HEADER.lines().any(|l| l == line), "{line}");
    defined(&format!("#define POOLSHEET_SHEET_MAX {SHEET_MAX}"));
    defined("#define POOLSHEET_RAW_SLOTS(n) (3 * (size_t)(n) + 2)");
    defined("#define POOLSHEET_RESULT_SLOTS(n) (5 * (size_t)(n) + 8)");
    defined("#define POOLSHEET_ALIGNMENT_SLOTS(n) ((size_t)(n) / 3)");
    assert_eq!([raw_slots(0), raw_slots(SHEET_MAX)], [2, 196_610]);
    assert_eq!([result_slots(0), result_slots(SHEET_MAX)], [8, 327_688]);
    assert_eq!([alignment_slots(2), alignment_slots(SHEET_MAX)], [0, 21_845]);
}

#[test]
fn kinds() {
    let (_, list) = HEADER.split_once("static const uint8_t poolsheet_kinds[256] = {\n").unwrap();
    let (list, _) = list.split_once("\n};").unwrap();
    assert!(list.lines().all(|line| line.split_terminator(',').count() == 16));
    let kinds: Vec<u8> = list.split(',').map(|number| number.trim().parse().unwrap()).collect();
    assert_eq!(kinds, KINDS);
    // Document 01 gives these bytes in decimal.
    let others = [(9, 1), (32, 1), (10, 2), (13, 2), (124, 3), (92, 4), (45, 5), (58, 6)];
    for (byte, kind) in KINDS.into_iter().enumerate() {
        assert_eq!(kind, others.iter().find(|other| other.0 == byte).map_or(0, |other| other.1), "{byte}");
    }
}

/// The words of a text, one space between them.
fn joined(text: &str) -> String {
    text.split_whitespace().collect::<Vec<_>>().join(" ")
}

/// The parameters between a function's name and the end of its declaration.
fn parameters(text: &str, name: &str, end: &str) -> Vec<String> {
    let (_, rest) = text.split_once(&format!("{name}(")).unwrap();
    let (list, _) = rest.split_once(end).unwrap();
    list.trim().trim_end_matches(',').split(", ").flat_map(|part| part.split(",\n")).map(joined).collect()
}

/// A parameter of the crate as the header has it.
fn in_c(parameter: &str) -> String {
    let (name, of_type) = parameter.split_once(": ").unwrap();
    match of_type {
        "*const u8" => format!("const uint8_t *{name}"),
        "*mut u8" => format!("uint8_t *{name}"),
        "*const Event" => format!("const poolsheet_event *{name}"),
        "*mut Event" => format!("poolsheet_event *{name}"),
        "*mut usize" => format!("size_t *{name}"),
        "usize" => format!("size_t {name}"),
        "bool" => format!("bool {name}"),
        counts => format!("size_t {name}{}", counts.strip_prefix("*mut ").unwrap().replace("usize; ", "")),
    }
}

#[test]
fn functions() {
    let names: Vec<&str> =
        DECLARATIONS.lines().filter_map(|line| line.trim().strip_prefix("pub fn ")?.strip_suffix('(')).collect();
    assert_eq!(names.len(), HEADER.lines().filter(|line| line.starts_with("uint8_t poolsheet_")).count());
    for name in names {
        let ours = parameters(DECLARATIONS, &format!("pub fn {name}"), ") -> u8;");
        let ours: Vec<String> = ours.iter().map(|parameter| in_c(parameter)).collect();
        assert_eq!(parameters(HEADER, &format!("\nuint8_t {name}"), ");"), ours, "{name}");
    }
    let sheet = parameters(HEADER, "\nuint8_t poolsheet_sheet", ");");
    assert_eq!(
        sheet[..5],
        ["const uint8_t *sheet", "size_t sheet_len", "const uint8_t *kinds", "size_t kinds_len", "bool code_indented"]
    );
    assert_eq!(sheet.len(), 12);
}
