//! Makes the kept answers: requests, chosen by hand or drawn by a fixed seed, with the harness's answers.

pub mod aligns;
pub mod edits;
pub mod heads;
pub mod kinds;
pub mod lists;
pub mod random;
pub mod rows;
pub mod sheet_cases;
pub mod sheets;
pub mod statistics;

use crate::protocol;
use std::collections::HashSet;

/// Slots enough for any answer here, used to learn how many are needed.
pub const PLENTY: u64 = 1 << 20;

/// The requests of one kind with their answers, no request twice.
pub struct Kept {
    pub name: &'static str,
    pub requests: Vec<String>,
    pub answers: Vec<String>,
    seen: HashSet<String>,
}

impl Kept {
    pub fn new(name: &'static str) -> Kept {
        Kept { name, requests: vec![], answers: vec![], seen: HashSet::new() }
    }

    /// Adds a request unless it is there already.
    pub fn add(&mut self, request: String) {
        if self.seen.insert(request.clone()) {
            let answer = protocol::answer(&request);
            assert!(answer != "?" && answer != "panic", "{answer}: {request}");
            self.requests.push(request);
            self.answers.push(answer);
        }
    }
}

/// The slots to ask with: as many as needed, one too few, none, and for some spare ones.
/// Where the input is refused whatever the slots, a few.
pub fn slot_choices(needed: Option<u64>, spare: bool) -> Vec<u64> {
    let Some(needed) = needed else {
        return vec![2];
    };
    let mut choices = vec![needed];
    if needed > 0 {
        choices.extend([needed - 1, 0]);
    }
    if spare {
        choices.push(needed + 3);
    }
    choices
}

/// All requests: the calls in the order of 01, then the sheet call with a table of kinds.
pub fn all() -> Vec<Kept> {
    vec![heads::kept(), rows::kept(), lists::kept(), edits::kept(), aligns::kept(), sheets::kept(), kinds::kept()]
}
