//! Drives the crate's table states over lines of a sheet, through `push` and `flush`.
//! Each head gets a new tokenizer.

use crate::event::{Event, Kind, Name as EventName, Point};
use crate::lines::Line;
use crate::options::ParseOptions;
use crate::parser::ParseState;
use crate::state::{Name, State};
use crate::tokenizer::Tokenizer;
use crate::watch::{self, Outcome};

/// What the crate makes of a head, and of the rows after it.
pub struct Driven {
    pub events: Vec<Event>,
    pub cells: usize,
}

/// The lazy and pierced flags that a caller sets on a line.
#[derive(Clone, Copy, Default)]
pub struct Flags {
    pub lazy: bool,
    pub pierced: bool,
}

fn parse_state<'a>(sheet: &'a [u8], options: &'a ParseOptions) -> ParseState<'a> {
    ParseState { location: None, options, bytes: sheet, definitions: vec![], gfm_footnote_definitions: vec![] }
}

fn point_of(line: Line) -> Point {
    Point { line: line.number, column: 1, index: line.start, vs: 0 }
}

/// Feeds one line with its line end.
fn push_line(tokenizer: &mut Tokenizer, line: Line, state: State) -> State {
    tokenizer.push((line.start, 0), (line.next, 0), state)
}

/// Feeds the end of the input.
fn finish(tokenizer: &mut Tokenizer, state: State) {
    tokenizer.flush(state, false).expect("tables report no error");
}

/// The outcome of the first try, as cells or a number.
fn first_outcome() -> Result<usize, u8> {
    match watch::first_outcome().expect("a line was tried") {
        Outcome::Accepted(cells) => Ok(cells),
        Outcome::Refused(number) => Err(number),
    }
}

/// A head at a line; the flags are set from its second line on.
pub fn head(sheet: &[u8], lines: &[Line], code_indented: bool, flags: Flags) -> Result<Driven, u8> {
    table(sheet, lines, code_indented, flags, 0)
}

/// A head at the first of these lines, and `rows` body rows at the lines after the delimiter row, in one tokenizer.
pub fn table(sheet: &[u8], lines: &[Line], code_indented: bool, flags: Flags, rows: usize) -> Result<Driven, u8> {
    let options = ParseOptions::tables(code_indented);
    let parse_state = parse_state(sheet, &options);
    let mut tokenizer = Tokenizer::new(point_of(lines[0]), &parse_state);
    watch::begin();

    let mut state = push_line(&mut tokenizer, lines[0], State::Next(Name::FlowStart));
    tokenizer.lazy = flags.lazy;
    tokenizer.pierce = flags.pierced;
    // Ok so early is a refusal, with the feature `quiet`.
    if let Some(delimiter) = lines.get(1).filter(|_| state != State::Ok) {
        watch::set_row_follows(rows > 0);
        state = push_line(&mut tokenizer, *delimiter, state);
    }
    if rows > 0 && matches!(watch::first_outcome(), Some(Outcome::Accepted(_))) {
        for place in 0..rows {
            watch::set_row_follows(place + 1 < rows);
            state = push_line(&mut tokenizer, lines[2 + place], state);
        }
    }
    finish(&mut tokenizer, state);

    let cells = first_outcome()?;
    assert_eq!(watch::outcome_count(), 1 + rows, "each row is accepted");
    Ok(Driven { events: tokenizer.events, cells })
}

/// A body row at a line. `start` is driven, and finds a head (two events of ours, taken off again) before it.
pub fn row(sheet: &[u8], line: Line, lazy: bool) -> Result<Vec<Event>, u8> {
    let options = ParseOptions::tables(true);
    let parse_state = parse_state(sheet, &options);
    let mut tokenizer = Tokenizer::new(point_of(line), &parse_state);
    watch::begin();

    for kind in [Kind::Enter, Kind::Exit] {
        tokenizer.events.push(Event { kind, name: EventName::GfmTableHead, point: point_of(line), link: None });
    }
    tokenizer.lazy = lazy;
    let state = push_line(&mut tokenizer, line, State::Next(Name::FlowStart));
    finish(&mut tokenizer, state);

    first_outcome()?;
    Ok(tokenizer.events.split_off(2))
}

/// A head at the first line whose second line is lazy, then one at the second line, not lazy, in the same tokenizer.
pub fn head_twice(sheet: &[u8], lines: &[Line], code_indented: bool) -> Vec<Outcome> {
    let options = ParseOptions::tables(code_indented);
    let parse_state = parse_state(sheet, &options);
    let mut tokenizer = Tokenizer::new(point_of(lines[0]), &parse_state);
    watch::begin();

    watch::set_try_again();
    let mut state = push_line(&mut tokenizer, lines[0], State::Next(Name::FlowStart));
    tokenizer.lazy = true;
    // The first byte of the second line tells the table machine that the line is lazy.
    state = tokenizer.push((lines[1].start, 0), (lines[1].start + 1, 0), state);
    tokenizer.lazy = false;
    for line in &lines[1..] {
        let from = (tokenizer.point.index, tokenizer.point.vs);
        state = tokenizer.push(from, (line.next, 0), state);
    }
    finish(&mut tokenizer, state);
    watch::outcomes()
}
