//! Writes requests and answers.

use crate::kinds;
use crate::record::Record;
use std::fmt::Write;

/// An event: seven numbers joined by commas.
pub fn event(record: &Record) -> String {
    let Record { kind, name, line, column, index, vs, link } = record;
    format!("{kind},{name},{line},{column},{index},{vs},{link}")
}

/// Events, each with a space before it.
pub fn events(records: &[Record]) -> String {
    records.iter().fold(String::new(), |mut text, record| {
        write!(text, " {}", event(record)).unwrap();
        text
    })
}

/// Numbers, each with a space before it.
pub fn numbers(numbers: &[u64]) -> String {
    numbers.iter().fold(String::new(), |mut text, number| {
        write!(text, " {number}").unwrap();
        text
    })
}

/// Bytes in lowercase hex, `-` for none.
pub fn bytes(bytes: &[u8]) -> String {
    if bytes.is_empty() {
        return "-".to_string();
    }
    bytes.iter().map(|byte| format!("{byte:02x}")).collect()
}

/// A table of kinds: its number of entries, and its changes to the built-in one. Entries behind the 256th must be 0.
pub fn kinds(kinds: &[u8]) -> String {
    format!("{} {}", kinds.len(), bytes(&kinds::changes(kinds)))
}

/// A group of event slots: the records up to the last that is not blank, then how many blank slots follow.
pub fn event_slots(records: &[Record], slots: u64) -> String {
    let used = records.iter().rposition(|record| !record.is_blank()).map_or(0, |last| last + 1);
    format!(" |{} +{}", events(&records[..used]), slots - used as u64)
}

/// A group of alignment slots, in the same form.
pub fn alignment_slots(alignments: &[u64], slots: u64) -> String {
    format!(" |{} +{}", numbers(alignments), slots - alignments.len() as u64)
}
