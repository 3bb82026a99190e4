//! Counts the kept answers by kind and refusal.

use super::Kept;
use std::collections::BTreeMap;
use std::fmt::Write;

/// The numbers of refusals that are kept, a column each.
const NUMBERS: [u8; 16] = [2, 3, 4, 5, 6, 7, 8, 9, 10, 11, 12, 13, 14, 20, 21, 22];

/// How many answers have each number.
fn by_number(kept: &Kept) -> BTreeMap<u8, usize> {
    let mut counts = BTreeMap::new();
    for answer in &kept.answers {
        let number = answer.split(' ').next().and_then(|word| word.parse().ok()).expect("an answer's number");
        *counts.entry(number).or_insert(0) += 1;
    }
    counts
}

/// A Markdown table: a row for each kind, a column for each number.
pub fn table(all: &[Kept]) -> String {
    let counts: Vec<_> = all.iter().map(by_number).collect();
    let mut text = "| call | requests | accepted |".to_string();
    NUMBERS.iter().for_each(|number| write!(text, " {number} |").unwrap());
    text.push_str("\n|---|---|---|");
    text.push_str(&"---|".repeat(NUMBERS.len()));
    for (kept, counts) in all.iter().zip(&counts) {
        write!(text, "\n| {} | {} |", kept.name, kept.requests.len()).unwrap();
        for number in [0].into_iter().chain(NUMBERS) {
            let count = counts.get(&number).map_or(String::new(), ToString::to_string);
            write!(text, " {count} |").unwrap();
        }
    }
    let total: usize = all.iter().map(|kept| kept.requests.len()).sum();
    let accepted: usize = counts.iter().filter_map(|counts| counts.get(&0)).sum();
    write!(text, "\n| all | {total} | {accepted} |{}\n", " |".repeat(NUMBERS.len())).unwrap();
    text
}
