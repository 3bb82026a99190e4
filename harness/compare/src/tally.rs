//! Counts what was compared, and keeps the smallest difference.

use crate::case::{Answer, Case};
use crate::expected::expected;
use crate::ours::ours;
use harness::guard::guarded;

/// What was compared so far.
#[derive(Default)]
pub struct Tally {
    pub compared: u64,
    pub differ: u64,
    /// How often each number was the harness's answer, 0 for accepted.
    pub by_number: [u64; 23],
    smallest: Option<Difference>,
}

/// A case on which the readers differ, with both answers.
struct Difference {
    size: usize,
    text: String,
}

impl Tally {
    /// Compares both answers to a case. A panic of the crate is a difference.
    pub fn ask(&mut self, case: &Case) {
        match guarded(|| expected(case)) {
            Ok(answer) => self.compare(case, &answer),
            Err(message) => self.differ(case, &format!("panic {message}"), &ours(case)),
        }
    }

    /// Compares our answer to a case with one known already.
    pub fn compare(&mut self, case: &Case, expected: &Answer) {
        let answer = ours(case);
        self.by_number[usize::from(expected.number)] += 1;
        if answer == *expected {
            self.compared += 1;
        } else {
            self.differ(case, &expected.line(), &answer);
        }
    }

    fn differ(&mut self, case: &Case, expected: &str, answer: &Answer) {
        self.compared += 1;
        self.differ += 1;
        let size = case.size();
        if self.smallest.as_ref().is_none_or(|smallest| size < smallest.size) {
            let text = format!("request {}\nharness {expected}\nours    {}", case.request(), answer.line());
            self.smallest = Some(Difference { size, text });
        }
    }

    /// Takes over what another has counted.
    pub fn add(&mut self, other: Tally) {
        self.compared += other.compared;
        self.differ += other.differ;
        for (here, there) in self.by_number.iter_mut().zip(other.by_number) {
            *here += there;
        }
        let is_smaller = |found: &Difference| self.smallest.as_ref().is_none_or(|smallest| found.size < smallest.size);
        if other.smallest.as_ref().is_some_and(is_smaller) {
            self.smallest = other.smallest;
        }
    }

    /// The smallest difference, if there is one.
    pub fn smallest(&self) -> Option<&str> {
        self.smallest.as_ref().map(|smallest| smallest.text.as_str())
    }
}
