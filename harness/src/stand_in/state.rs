//! Stand-in for `src/state.rs`: what a state gives back, the names of states, and the dispatcher.
//! It also notes each table state that is called, so that a refusal can be numbered (`watch.rs`).

use crate::construct::{gfm_table, partial_space_or_tab};
use crate::message::Message;
use crate::tokenizer::Tokenizer;
use crate::{flow, watch};

/// What a state gives back.
#[derive(Clone, Debug, Eq, PartialEq)]
pub enum State {
    /// An error.
    Error(Message),
    /// Go on with this state, at the next byte.
    Next(Name),
    /// Go on with this state, at the same byte.
    Retry(Name),
    /// Accepted.
    Ok,
    /// Refused.
    Nok,
}

impl State {
    /// The result at the end of the input.
    pub fn to_result(&self) -> Result<(), Message> {
        match self {
            State::Ok => Ok(()),
            State::Error(message) => Err(message.clone()),
            _ => unreachable!("the input ended in an unfinished state"),
        }
    }
}

/// Names of states.
#[derive(Clone, Copy, Debug, Eq, PartialEq)]
pub enum Name {
    // Stand-ins for the flow around a table (`flow.rs`).
    FlowStart,
    FlowAfter,
    FlowRefused,
    FlowDone,

    GfmTableStart,
    GfmTableHeadRowBefore,
    GfmTableHeadRowStart,
    GfmTableHeadRowBreak,
    GfmTableHeadRowData,
    GfmTableHeadRowEscape,
    GfmTableHeadDelimiterStart,
    GfmTableHeadDelimiterBefore,
    GfmTableHeadDelimiterCellBefore,
    GfmTableHeadDelimiterValueBefore,
    GfmTableHeadDelimiterLeftAlignmentAfter,
    GfmTableHeadDelimiterFiller,
    GfmTableHeadDelimiterRightAlignmentAfter,
    GfmTableHeadDelimiterCellAfter,
    GfmTableHeadDelimiterNok,
    GfmTableBodyRowStart,
    GfmTableBodyRowBreak,
    GfmTableBodyRowData,
    GfmTableBodyRowEscape,

    SpaceOrTabStart,
    SpaceOrTabInside,
    SpaceOrTabAfter,

    // Named by given files, never reached by tables.
    ContentDefinitionBefore,
    DestinationStart,
    DocumentStart,
    LabelEndAfter,
    LabelEndNok,
    LabelEndOk,
    LabelEndReferenceCollapsed,
    LabelEndReferenceCollapsedOpen,
    LabelEndReferenceFull,
    LabelEndReferenceFullAfter,
    LabelEndReferenceFullMissing,
    LabelEndReferenceNotFull,
    LabelEndResourceBefore,
    LabelEndResourceBetween,
    LabelEndResourceDestinationAfter,
    LabelEndResourceDestinationMissing,
    LabelEndResourceEnd,
    LabelEndResourceOpen,
    LabelEndResourceStart,
    LabelEndResourceTitleAfter,
    LabelStart,
    StringStart,
    TextStart,
    TitleStart,
}

/// Calls the state of this name.
pub fn call(tokenizer: &mut Tokenizer, name: Name) -> State {
    match name {
        Name::FlowStart => flow::start(tokenizer),
        Name::FlowAfter => flow::after(tokenizer),
        Name::FlowRefused => flow::refused(tokenizer),
        Name::FlowDone => flow::done(tokenizer),
        Name::SpaceOrTabStart => partial_space_or_tab::start(tokenizer),
        Name::SpaceOrTabInside => partial_space_or_tab::inside(tokenizer),
        Name::SpaceOrTabAfter => partial_space_or_tab::after(tokenizer),
        _ => call_table(tokenizer, name),
    }
}

/// Calls a state of the table machine, after noting it.
fn call_table(tokenizer: &mut Tokenizer, name: Name) -> State {
    watch::note(tokenizer, name);
    match name {
        Name::GfmTableStart => gfm_table::start(tokenizer),
        Name::GfmTableHeadRowBefore => gfm_table::head_row_before(tokenizer),
        Name::GfmTableHeadRowStart => gfm_table::head_row_start(tokenizer),
        Name::GfmTableHeadRowBreak => gfm_table::head_row_break(tokenizer),
        Name::GfmTableHeadRowData => gfm_table::head_row_data(tokenizer),
        Name::GfmTableHeadRowEscape => gfm_table::head_row_escape(tokenizer),
        Name::GfmTableHeadDelimiterStart => gfm_table::head_delimiter_start(tokenizer),
        Name::GfmTableHeadDelimiterBefore => gfm_table::head_delimiter_before(tokenizer),
        Name::GfmTableHeadDelimiterCellBefore => gfm_table::head_delimiter_cell_before(tokenizer),
        Name::GfmTableHeadDelimiterValueBefore => gfm_table::head_delimiter_value_before(tokenizer),
        Name::GfmTableHeadDelimiterLeftAlignmentAfter => gfm_table::head_delimiter_left_alignment_after(tokenizer),
        Name::GfmTableHeadDelimiterFiller => gfm_table::head_delimiter_filler(tokenizer),
        Name::GfmTableHeadDelimiterRightAlignmentAfter => gfm_table::head_delimiter_right_alignment_after(tokenizer),
        Name::GfmTableHeadDelimiterCellAfter => gfm_table::head_delimiter_cell_after(tokenizer),
        Name::GfmTableHeadDelimiterNok => gfm_table::head_delimiter_nok(tokenizer),
        Name::GfmTableBodyRowStart => gfm_table::body_row_start(tokenizer),
        Name::GfmTableBodyRowBreak => gfm_table::body_row_break(tokenizer),
        Name::GfmTableBodyRowData => gfm_table::body_row_data(tokenizer),
        Name::GfmTableBodyRowEscape => gfm_table::body_row_escape(tokenizer),
        _ => unreachable!("{name:?} is not part of tables"),
    }
}
