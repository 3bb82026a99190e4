//! Requests that run the crate even where document 01 refuses, for docs/DIFFERENCES.md.

use crate::drive::{self, Flags};
use crate::guard::guarded;
use crate::lines::lines;
use crate::print;
use crate::questions::{self, Edit};
use crate::read::{self, Words};
use crate::record::{self, Record};
use crate::run;
use crate::watch::Outcome;

/// The answer to a `crate-...` request; `panic MESSAGE` if the crate panicked.
pub fn answer(name: &str, words: Words) -> Option<String> {
    match name {
        "crate-row" => row(words),
        "crate-resolve" => resolve(words),
        "crate-edit" => edit(words),
        "crate-align" => align(words),
        "crate-head-twice" => head_twice(words),
        _ => None,
    }
}

fn or_panic(run: impl FnOnce() -> String) -> String {
    guarded(run).unwrap_or_else(|message| format!("panic {message}"))
}

fn list_answer(records: &[Record]) -> String {
    format!("ok {}{}", records.len(), print::events(records))
}

/// `crate-row OFFSET LAZY HEX`: any line start, also of a blank line.
fn row(mut words: Words) -> Option<String> {
    let offset = words.number()?;
    let lazy = words.flag()?;
    let sheet = words.bytes()?;
    words.end()?;
    let all = lines(&sheet);
    let line = questions::lines_from(&all, offset)?[0];
    Some(or_panic(|| match drive::row(&sheet, line, lazy) {
        Ok(events) => list_answer(&record::from_events(&events)),
        Err(_) => "nok".to_string(),
    }))
}

/// `crate-resolve EVENT..`: any list of records with 01's names and kinds 1 and 2.
fn resolve(mut words: Words) -> Option<String> {
    let list = words.events()?;
    let known = |record: &Record| matches!(record.kind, 1 | 2) && (1..=15).contains(&record.name);
    list.iter().all(known).then_some(())?;
    Some(or_panic(|| list_answer(&run::resolve(&list))))
}

/// `crate-edit E L P ..`: as `edit`, without slots. The pool's stretches must lie in it.
fn edit(mut words: Words) -> Option<String> {
    let (edit_count, list_count, pool_count) = (words.number()?, words.number()?, words.number()?);
    let fives = words.edits(edit_count)?;
    let list = words.some_events(list_count)?;
    let pool = words.some_events(pool_count)?;
    words.end()?;
    let edits: Vec<_> = fives.iter().map(read::edit).collect();
    let in_pool = |edit: &Edit| edit.count == 0 || edit.start.saturating_add(edit.count) <= pool_count;
    edits.iter().all(in_pool).then_some(())?;
    Some(or_panic(|| list_answer(&run::edit(&list, &edits, &pool))))
}

/// `crate-align INDEX EVENT..`: any index.
fn align(mut words: Words) -> Option<String> {
    let index = words.number()?;
    let list = words.events()?;
    Some(or_panic(|| format!("ok{}", print::numbers(&run::align(&list, index as usize)))))
}

/// `crate-head-twice CODE_INDENTED HEX`: a head at the first line whose second line is lazy, then a head at the
/// second line, in the same tokenizer and in a new one.
fn head_twice(mut words: Words) -> Option<String> {
    let code_indented = words.flag()?;
    let sheet = words.bytes()?;
    words.end()?;
    let all = lines(&sheet);
    all.get(1).filter(|line| line.next > line.start)?;
    Some(or_panic(|| {
        let same = drive::head_twice(&sheet, &all, code_indented);
        let same: Vec<String> = same.iter().map(outcome).collect();
        let new = match drive::head(&sheet, &all[1..], code_indented, Flags::default()) {
            Ok(driven) => outcome(&Outcome::Accepted(driven.cells)),
            Err(number) => outcome(&Outcome::Refused(number)),
        };
        format!("same {} new {new}", same.join(" then "))
    }))
}

fn outcome(outcome: &Outcome) -> String {
    match outcome {
        Outcome::Accepted(cells) => format!("accepted:{cells}"),
        Outcome::Refused(number) => format!("refused:{number}"),
    }
}
