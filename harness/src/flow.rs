//! Stand-in for the crate's flow states: they hand a line to the table machine, and take it back accepted or refused.

use crate::event::Name as EventName;
use crate::state::{Name, State};
use crate::tokenizer::Tokenizer;
use crate::watch;

/// At the start of a line: a table is tried.
pub fn start(tokenizer: &mut Tokenizer) -> State {
    tokenizer.attempt(State::Next(Name::FlowAfter), State::Next(Name::FlowRefused));
    State::Retry(Name::GfmTableStart)
}

/// After an accepted head or row, at its line end or at the end of the sheet.
pub fn after(tokenizer: &mut Tokenizer) -> State {
    watch::accepted();
    match tokenizer.current {
        None => State::Ok,
        // Line ends give events only between a table's lines.
        Some(b'\n') if watch::row_follows() => {
            tokenizer.enter(EventName::LineEnding);
            tokenizer.consume();
            tokenizer.exit(EventName::LineEnding);
            State::Next(Name::FlowStart)
        }
        Some(b'\n') => {
            tokenizer.consume();
            State::Next(Name::FlowDone)
        }
        _ => unreachable!("a head or row ended inside a line"),
    }
}

/// After a refusal, back at the line's start: nothing further is tried, or another head at the next line.
pub fn refused(tokenizer: &mut Tokenizer) -> State {
    watch::refused();
    if cfg!(feature = "quiet") {
        return State::Ok;
    }
    pass_line(tokenizer)
}

/// Passes over bytes without events.
pub fn done(tokenizer: &mut Tokenizer) -> State {
    pass_line(tokenizer)
}

/// Passes over one byte; behind a line end a head is tried if one was asked for (`crate-head-twice`).
fn pass_line(tokenizer: &mut Tokenizer) -> State {
    match tokenizer.current {
        None => State::Ok,
        Some(b'\n') if watch::take_try_again() => {
            tokenizer.consume();
            State::Next(Name::FlowStart)
        }
        _ => {
            tokenizer.consume();
            State::Next(Name::FlowDone)
        }
    }
}
