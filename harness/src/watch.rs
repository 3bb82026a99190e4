//! Notes which table state was called last and with which counters, and what came out.
//! The crate says only that a head is refused; the state that said so tells 01's number.

use crate::state::Name;
use crate::tokenizer::Tokenizer;
use std::cell::RefCell;

/// A call of a table state, with the counters before it.
#[derive(Clone, Copy)]
struct Called {
    name: Name,
    at_line_end: bool,
    seen: bool,
    size: usize,
    size_b: usize,
}

/// What the table machine said of a line.
#[derive(Clone, Copy, Debug, Eq, PartialEq)]
pub enum Outcome {
    /// Accepted; for a head, with its number of cells.
    Accepted(usize),
    /// Refused, with 01's number (3 to 7).
    Refused(u8),
}

/// Everything noted since the last `begin`.
struct Watch {
    last: Option<Called>,
    before_last: Option<Called>,
    outcomes: Vec<Outcome>,
    row_follows: bool,
    try_again: bool,
}

thread_local! {
    static WATCH: RefCell<Watch> = const { RefCell::new(Watch {
        last: None, before_last: None, outcomes: Vec::new(), row_follows: false, try_again: false,
    }) };
}

/// Forgets everything; a new tokenizer begins.
pub fn begin() {
    WATCH.with_borrow_mut(|watch| {
        (watch.last, watch.before_last, watch.row_follows, watch.try_again) = (None, None, false, false);
        watch.outcomes.clear();
    });
}

/// Notes a call of a table state.
pub fn note(tokenizer: &Tokenizer, name: Name) {
    if cfg!(feature = "quiet") {
        return;
    }
    let state = &tokenizer.tokenize_state;
    let called = Called {
        name,
        at_line_end: matches!(tokenizer.current, None | Some(b'\n')),
        seen: state.seen,
        size: state.size,
        size_b: state.size_b,
    };
    WATCH.with_borrow_mut(|watch| watch.before_last = watch.last.replace(called));
}

/// Notes that the line was accepted.
pub fn accepted() {
    WATCH.with_borrow_mut(|watch| {
        let cells = watch.last.map_or(0, |called| called.size);
        watch.outcomes.push(Outcome::Accepted(cells));
    });
}

/// Notes that the line was refused.
pub fn refused() {
    WATCH.with_borrow_mut(|watch| {
        let number = number(watch);
        watch.outcomes.push(Outcome::Refused(number));
    });
}

/// 01's number for the refusal by the state called last.
fn number(watch: &Watch) -> u8 {
    if cfg!(feature = "quiet") {
        return 0;
    }
    match watch.last.expect("a table state was called").name {
        Name::GfmTableHeadRowStart => 3,
        Name::GfmTableHeadRowBreak => 4,
        Name::GfmTableHeadDelimiterStart | Name::GfmTableBodyRowStart => 5,
        Name::GfmTableHeadDelimiterNok if counts_differ(watch.before_last) => 7,
        Name::GfmTableHeadDelimiterNok => 6,
        name => unreachable!("{name:?} does not refuse"),
    }
}

/// Whether a whole delimiter row was read and only the number of its values was wrong.
fn counts_differ(called: Option<Called>) -> bool {
    called.is_some_and(|called| {
        called.name == Name::GfmTableHeadDelimiterCellAfter
            && called.at_line_end
            && called.seen
            && called.size_b >= 1
            && called.size != called.size_b
    })
}

/// The first outcome, if there is one.
pub fn first_outcome() -> Option<Outcome> {
    WATCH.with_borrow(|watch| watch.outcomes.first().copied())
}

/// The counter `size_b` with which the last state was called.
#[cfg(test)]
pub fn last_size_b() -> Option<usize> {
    WATCH.with_borrow(|watch| watch.last.map(|called| called.size_b))
}

/// How many outcomes there are so far.
pub fn outcome_count() -> usize {
    WATCH.with_borrow(|watch| watch.outcomes.len())
}

/// The outcomes so far, in order.
pub fn outcomes() -> Vec<Outcome> {
    WATCH.with_borrow(|watch| watch.outcomes.clone())
}

/// Whether the next line is a row of the same table.
pub fn row_follows() -> bool {
    WATCH.with_borrow(|watch| watch.row_follows)
}

/// Says whether the line after the one now pushed is a row of the same table.
pub fn set_row_follows(follows: bool) {
    WATCH.with_borrow_mut(|watch| watch.row_follows = follows);
}

/// Asks for another try at the line after a refused head, in the same tokenizer.
pub fn set_try_again() {
    WATCH.with_borrow_mut(|watch| watch.try_again = true);
}

/// Takes that wish, once.
pub fn take_try_again() -> bool {
    WATCH.with_borrow_mut(|watch| std::mem::take(&mut watch.try_again))
}
