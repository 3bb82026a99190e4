//! The kept answers of `vectors/`, given again by the library. harness/README.md has the form of requests and answers.

use std::fmt::{Display, Write};
use std::fs;
use std::path::Path;
use std::str::{FromStr, SplitAsciiWhitespace};

use poolsheet::{calls, Event, Refusal, KINDS};

/// A record that no call leaves in a slot.
const STALE: Event = Event { kind: 9, name: 99, line: 9, column: 9, index: 9, vs: 9, link: 9 };

/// The words of a request.
struct Words<'r>(SplitAsciiWhitespace<'r>);

impl Words<'_> {
    fn word(&mut self) -> &str {
        self.0.next().unwrap()
    }

    fn number(&mut self) -> usize {
        self.word().parse().unwrap()
    }

    fn yes(&mut self) -> bool {
        self.number() != 0
    }

    fn slots(&mut self) -> Vec<Event> {
        vec![STALE; self.number()]
    }

    fn bytes(&mut self) -> Vec<u8> {
        let hex = self.word().trim_start_matches('-').as_bytes();
        hex.chunks(2).map(|pair| u8::from_str_radix(std::str::from_utf8(pair).unwrap(), 16).unwrap()).collect()
    }

    /// So many entries of the built-in table and then 0, with the bytes changed that follow in pairs with their kinds.
    fn kinds(&mut self) -> Vec<u8> {
        let mut kinds = KINDS.to_vec();
        kinds.resize(self.number(), 0);
        for change in self.bytes().chunks(2) {
            kinds[usize::from(change[0])] = change[1];
        }
        kinds
    }

    fn events(&mut self, n: usize) -> Vec<Event> {
        self.0.by_ref().take(n).map(event).collect()
    }
}

/// An event of a request.
fn event(word: &str) -> Event {
    let mut fields = word.split(',');
    fn next<T: FromStr>(fields: &mut dyn Iterator<Item = &str>) -> T {
        fields.next().and_then(|field| field.parse().ok()).unwrap()
    }
    Event {
        kind: next(&mut fields),
        name: next(&mut fields),
        line: next(&mut fields),
        column: next(&mut fields),
        index: next(&mut fields),
        vs: next(&mut fields),
        link: next(&mut fields),
    }
}

/// The number and the counts of an answer.
fn said<const N: usize>(answer: Result<[usize; N], Refusal>) -> String {
    let number = answer.map_or_else(Refusal::number, |_| 0);
    let counts = answer.unwrap_or([0; N]);
    counts.iter().fold(number.to_string(), |out, count| out + &format!(" {count}"))
}

/// Slots up to the last that is not blank, and how many follow.
fn shown<T: PartialEq>(out: &mut String, slots: &[T], blank: T, show: impl Fn(&T) -> String) {
    let used = slots.iter().rposition(|slot| *slot != blank).map_or(0, |last| last + 1);
    out.push_str(" |");
    for slot in &slots[..used] {
        write!(out, " {}", show(slot)).unwrap();
    }
    write!(out, " +{}", slots.len() - used).unwrap();
}

fn show_events(out: &mut String, slots: &[Event]) {
    shown(out, slots, Event::BLANK, |e| {
        format!("{},{},{},{},{},{},{}", e.kind, e.name, e.line, e.column, e.index, e.vs, e.link)
    });
}

fn show_numbers(out: &mut String, numbers: &[impl Display]) {
    out.push_str(" |");
    for number in numbers {
        write!(out, " {number}").unwrap();
    }
}

fn head(words: &mut Words) -> String {
    let (offset, on, lazy, pierced) = (words.number(), words.yes(), words.yes(), words.yes());
    let (mut raw, sheet) = (words.slots(), words.bytes());
    let answer = calls::head(&sheet, offset, on, lazy, pierced, &mut raw);
    let mut out = said(answer.map(|head| [head.events, head.end, head.cells]));
    show_events(&mut out, &raw);
    out
}

fn row(words: &mut Words) -> String {
    let (offset, lazy) = (words.number(), words.yes());
    let (mut raw, sheet) = (words.slots(), words.bytes());
    let mut out = said(calls::row(&sheet, offset, lazy, &mut raw).map(|row| [row.events, row.end]));
    show_events(&mut out, &raw);
    out
}

fn resolve(words: &mut Words) -> String {
    let (mut results, list) = (words.slots(), words.events(usize::MAX));
    let mut out = said(calls::resolve(&list, &mut results).map(|n| [n]));
    show_events(&mut out, &results);
    out
}

fn edit(words: &mut Words) -> String {
    let mut results = words.slots();
    let (e, l, p) = (words.number(), words.number(), words.number());
    let mut edits: Vec<usize> = (0..5 * e).map(|_| words.number()).collect();
    let (list, pool) = (words.events(l), words.events(p));
    let mut out = said(calls::edit(&list, &mut edits, &pool, &mut results).map(|n| [n]));
    show_events(&mut out, &results);
    show_numbers(&mut out, &edits);
    out
}

fn align(words: &mut Words) -> String {
    let (index, mut alignments) = (words.number(), vec![9; words.number()]);
    let list = words.events(usize::MAX);
    let mut out = said(calls::align(&list, index, &mut alignments).map(|n| [n]));
    shown(&mut out, &alignments, 0, u8::to_string);
    out
}

fn sheet(words: &mut Words) -> String {
    read(words, calls::sheet)
}

fn kinds(words: &mut Words) -> String {
    let kinds = words.kinds();
    read(words, |sheet, on, raw, results, alignments| calls::sheet_with(&kinds, sheet, on, raw, results, alignments))
}

fn read(
    words: &mut Words,
    call: impl Fn(&[u8], bool, &mut [Event], &mut [Event], &mut [u8]) -> Result<calls::Sheet, Refusal>,
) -> String {
    let (on, mut raw, mut results, mut alignments) =
        (words.yes(), words.slots(), words.slots(), vec![9; words.number()]);
    let sheet = words.bytes();
    let answer = call(&sheet, on, &mut raw, &mut results, &mut alignments);
    let mut out = said(answer.map(|sheet| [sheet.tables, sheet.events, sheet.results, sheet.alignments]));
    show_events(&mut out, &raw);
    show_events(&mut out, &results);
    shown(&mut out, &alignments, 0, u8::to_string);
    out
}

/// Answers each kept request of a call.
fn replay(name: &str, call: fn(&mut Words) -> String) {
    let path = Path::new(env!("CARGO_MANIFEST_DIR")).join("../../vectors").join(name);
    let requests = fs::read_to_string(path.with_extension("requests")).unwrap();
    let answers = fs::read_to_string(path.with_extension("answers")).unwrap();
    assert_eq!(requests.lines().count(), answers.lines().count());
    assert!(requests.lines().count() > 300);
    for (request, kept) in requests.lines().zip(answers.lines()) {
        let mut words = Words(request.split_ascii_whitespace());
        assert_eq!(words.word(), name);
        assert_eq!(call(&mut words), kept, "{request}");
    }
}

#[test]
fn heads() {
    replay("head", head);
}

#[test]
fn rows() {
    replay("row", row);
}

#[test]
fn resolved() {
    replay("resolve", resolve);
}

#[test]
fn edited() {
    replay("edit", edit);
}

#[test]
fn aligned() {
    replay("align", align);
}

#[test]
fn sheets() {
    replay("sheet", sheet);
}

#[test]
fn sheets_with_kinds() {
    replay("kinds", kinds);
}
