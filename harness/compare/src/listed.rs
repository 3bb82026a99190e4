//! The differences that docs/DIFFERENCES.md lists: its requests, asked of the crate and of our reader.

use crate::case::{Answer, Case};
use crate::expected::expected;
use crate::ours::ours;
use harness::lines::lines;
use harness::print;
use harness::protocol;
use harness::read::Words;
use harness::record::{ENTER, ROW};
use poolsheet::{Five, HeadFlags};

const DOCUMENT: &str = include_str!("../../../docs/DIFFERENCES.md");

/// The name of a cell.
const CELL: u64 = 8;

/// The slots lent to our reader, more than any of these needs.
const SLOTS: usize = 99;

/// A label of the document, how the crate's answer begins, and how ours does. Of a sheet, the cells by row are told.
type Listed = (&'static str, &'static str, &'static str);

const LISTED: [Listed; 37] = [
    ("B1", "panic expected non-empty event", "8"),
    ("B2", "ok 4 1,7,1,1,0,0,0 1,1,1,1,0,0,0 2,1,1,2,1,0,0 2,7,1,2,1,0,0", "8"),
    ("B3", "ok 4 1,7,", "1"),
    ("T1", "same refused:5 then refused:7 new accepted:1", "0 16 8 1"),
    ("T2", "same refused:5 then accepted:2 new refused:7", "7"),
    ("R1", "ok 1 1,3,1,1,0,0,0", "10"),
    ("R2", "ok 2 1,4,1,1,0,0,0 1,6,1,1,0,0,0", "10"),
    ("R3", "ok 5 1,7,1,1,0,0,0 1,8,1,1,0,0,0 2,8,1,1,0,0,0 2,7,1,1,0,0,0 2,4,1,1,0,0,0", "10"),
    ("R4", "panic assertion `left != right` failed", "10"),
    ("R5", "panic `at` split index", "10"),
    ("E1", "panic `at` split index", "11"),
    ("E2", "panic `at` split index", "11"),
    ("E3", "panic `at` split index", "11"),
    ("E4", "panic `at` split index", "11"),
    ("E5", "panic attempt to add with overflow", "11"),
    ("E6", "panic attempt to add with overflow", "11"),
    ("A1", "panic index out of bounds:", "13"),
    ("A2", "panic expected table", "13"),
    ("A3", "ok", "13"),
    ("A4", "ok", "13"),
    ("A5", "ok", "13"),
    ("A6", "panic index out of bounds:", "13"),
    ("A7", "ok 1", "13"),
    ("A8", "ok", "13"),
    ("A9", "panic attempt to subtract with overflow", "13"),
    ("A10", "ok 1 1", "13"),
    ("G1", "cells by row 1", "cells by row 1"),
    ("G2", "cells by row 1 1", "cells by row 1 1"),
    ("G3", "cells by row 2 1", "cells by row 2 1"),
    ("G4", "cells by row 1 2", "cells by row 1 2"),
    // One piece of data, both bytes of it.
    ("G5", "0 14 5 1 | 1,6,1,1,0,0,0 1,7,1,1,0,0,0 1,3,1,1,0,0,0 2,3,1,3,2,0,0", "0 14 5 1"),
    ("G6", "0 20 8 2", "0 20 8 2"),
    ("G7", "ok 4 1,7,3,1,5,0,0 1,3,3,1,5,0,0 2,3,3,2,6,0,0 2,7,3,2,6,0,0", "0 4 6"),
    ("G8", "cells by row 1 1", "cells by row 1 1"),
    ("G9", "cells by row 1 1", "cells by row 1 1"),
    ("G10", "cells by row", "cells by row"),
    // One piece of data, four bytes and columns of it.
    ("G11", "ok 4 1,7,1,1,0,0,0 1,3,1,1,0,0,0 2,3,1,5,4,0,0", "2"),
];

/// The words of the request that the document gives under a label, without the string before it.
fn request_of(label: &str) -> Option<String> {
    let line = DOCUMENT.lines().find(|line| line.split(' ').next() == Some(label))?;
    let from = ["crate-", "sheet ", "head "].iter().filter_map(|start| line.find(start)).min()?;
    Some(line[from..].replace("6161...", &"61".repeat(65_537)))
}

/// The document's last column in the table row of a label.
fn ours_documented(label: &str) -> Option<&'static str> {
    let row = DOCUMENT.lines().find(|line| line.starts_with(&format!("| {label}: ")))?;
    row.trim_end_matches(" |").rsplit("| ").next()
}

/// Our answer to what a request asks, and the harness's where it is one of the six calls.
fn asked(request: &str) -> Option<(Answer, Option<Answer>)> {
    let mut words = Words::new(request);
    let alone = |case: &Case| Some((ours(case), None));
    match words.word()? {
        "crate-row" => {
            let (offset, lazy, sheet) = (words.number()? as usize, words.flag()?, words.bytes()?);
            alone(&Case::Row { sheet: &sheet, offset, lazy, slots: SLOTS })
        }
        "crate-head-twice" => {
            let (code_indented, sheet) = (words.flag()?, words.bytes()?);
            alone(&second_head(&sheet, code_indented)?)
        }
        "crate-resolve" => alone(&Case::Resolve { list: &words.events()?, slots: SLOTS }),
        "crate-edit" => Some((edited(words)?, None)),
        "crate-align" => {
            let (index, list) = (words.number()? as usize, words.events()?);
            alone(&Case::Align { list: &list, index, slots: SLOTS })
        }
        "head" => {
            let offset = words.number()? as usize;
            let flags = HeadFlags { code_indented: words.flag()?, lazy: words.flag()?, pierced: words.flag()? };
            let (slots, sheet) = (words.number()? as usize, words.bytes()?);
            Some(both(&Case::Head { sheet: &sheet, offset, flags, slots }))
        }
        "sheet" => {
            let code_indented = words.flag()?;
            let slots = [words.number()?, words.number()?, words.number()?].map(|number| number as usize);
            let sheet = words.bytes()?;
            Some(both(&Case::Sheet { sheet: &sheet, code_indented, slots }))
        }
        _ => None,
    }
}

fn both(case: &Case) -> (Answer, Option<Answer>) {
    (ours(case), Some(expected(case)))
}

/// A head at the second line, after one at the first was refused since its second line is lazy.
fn second_head(sheet: &[u8], code_indented: bool) -> Option<Case<'_>> {
    let lines = lines(sheet);
    let lazy = HeadFlags { code_indented, lazy: true, ..HeadFlags::default() };
    let first = ours(&Case::Head { sheet, offset: 0, flags: lazy, slots: SLOTS });
    let flags = HeadFlags { lazy: false, ..lazy };
    (first.number == 5).then_some(Case::Head { sheet, offset: lines.get(1)?.start, flags, slots: SLOTS })
}

fn edited(mut words: Words) -> Option<Answer> {
    let (edit_count, list_count, pool_count) = (words.number()?, words.number()?, words.number()?);
    let edits: Vec<Five> = words.edits(edit_count)?.iter().map(|five| five.map(|number| number as usize)).collect();
    let (list, pool) = (words.some_events(list_count)?, words.some_events(pool_count)?);
    Some(ours(&Case::Edit { list: &list, edits: &edits, pool: &pool, slots: SLOTS }))
}

/// What is stated of an answer: of a sheet the cells of each row, of another call the answer itself.
fn stated(answer: &Answer) -> String {
    let [_, results] = &answer.events[..] else {
        return answer.line();
    };
    let mut rows: Vec<u64> = vec![];
    for event in results.iter().filter(|event| u64::from(event.kind) == ENTER) {
        match u64::from(event.name) {
            ROW => rows.push(0),
            CELL => *rows.last_mut().expect("a cell is in a row") += 1,
            _ => {}
        }
    }
    format!("cells by row{}", print::numbers(&rows))
}

/// Whether a text begins with another, and a word ends there.
fn begins(text: &str, start: &str) -> bool {
    text.strip_prefix(start).is_some_and(|rest| rest.is_empty() || rest.starts_with(' ') || start.ends_with(','))
}

/// What is not as documented under a label, if anything.
fn fault((label, of_crate, of_ours): Listed) -> Option<String> {
    let Some((request, column)) = request_of(label).zip(ours_documented(label)) else {
        return Some(format!("{label}: not in the document"));
    };
    let Some((answer, from_harness)) = asked(&request) else {
        return Some(format!("{label}: unreadable request"));
    };
    let from_crate = from_harness.as_ref().map_or_else(|| protocol::answer(&request), stated);
    let ours_now = stated(&answer);
    let documented = answer.number == 0 || begins(column, of_ours);
    let agree = from_harness.is_none_or(|from_harness| from_harness == answer);
    let as_listed = begins(&from_crate, of_crate) && begins(&ours_now, of_ours) && documented && agree;
    (!as_listed).then(|| format!("{label}: crate {from_crate:.80}, ours {ours_now:.80}, documented {column}"))
}

/// All that is not as documented.
pub fn faults() -> Vec<String> {
    LISTED.into_iter().filter_map(fault).collect()
}

/// How many differences are listed.
pub const COUNT: usize = LISTED.len();

#[cfg(test)]
mod tests {
    use super::*;

    /// Every label of the document stands here, and no other.
    #[test]
    fn all_labels() {
        let is_label = |word: &&str| word.len() > 1 && word[1..].parse::<u8>().is_ok();
        let rows = DOCUMENT.lines().filter_map(|line| line.strip_prefix("| ")?.split_once(": "));
        let labels: Vec<&str> = rows.map(|(label, _)| label).filter(is_label).collect();
        assert_eq!(labels, LISTED.map(|(label, ..)| label));
    }

    #[test]
    fn as_documented() {
        harness::guard::silence();
        assert_eq!(faults(), Vec::<String>::new());
    }
}
