//! 01's event records, and the crate's events as such records.

use crate::event::{Content, Event, Kind, Link, Name, Point};
use crate::mdast::AlignKind;

pub const ENTER: u64 = 1;
pub const EXIT: u64 = 2;

pub const SPACE_OR_TAB: u64 = 1;
pub const LINE_ENDING: u64 = 2;
pub const DATA: u64 = 3;
pub const TABLE: u64 = 4;
pub const HEAD: u64 = 6;
pub const ROW: u64 = 7;
pub const DIVIDER: u64 = 10;
pub const DELIMITER_ROW: u64 = 11;
pub const MARKER: u64 = 12;
pub const VALUE: u64 = 14;
pub const FILLER: u64 = 15;

/// The crate's names in 01's order: the first is number 1.
pub const NAMES: [Name; 15] = [
    Name::SpaceOrTab,
    Name::LineEnding,
    Name::Data,
    Name::GfmTable,
    Name::GfmTableBody,
    Name::GfmTableHead,
    Name::GfmTableRow,
    Name::GfmTableCell,
    Name::GfmTableCellText,
    Name::GfmTableCellDivider,
    Name::GfmTableDelimiterRow,
    Name::GfmTableDelimiterMarker,
    Name::GfmTableDelimiterCell,
    Name::GfmTableDelimiterCellValue,
    Name::GfmTableDelimiterFiller,
];

/// An event record of seven numbers; all 0 is blank.
#[derive(Clone, Copy, Debug, Default, Eq, PartialEq)]
pub struct Record {
    pub kind: u64,
    pub name: u64,
    pub line: u64,
    pub column: u64,
    pub index: u64,
    pub vs: u64,
    pub link: u64,
}

impl Record {
    /// Enters a name, at no point in particular.
    pub fn enter(name: u64) -> Record {
        Record { kind: ENTER, name, ..Record::default() }
    }

    /// Leaves a name, at no point in particular.
    pub fn exit(name: u64) -> Record {
        Record { kind: EXIT, name, ..Record::default() }
    }

    /// The same record at another point.
    pub fn at(self, line: u64, column: u64, index: u64) -> Record {
        Record { line, column, index, ..self }
    }

    pub fn is_blank(&self) -> bool {
        *self == Record::default()
    }

    pub fn enters(&self, name: u64) -> bool {
        self.kind == ENTER && self.name == name
    }

    pub fn exits(&self, name: u64) -> bool {
        self.kind == EXIT && self.name == name
    }
}

/// A crate event as a record.
pub fn from_event(event: &Event) -> Record {
    let name = NAMES.iter().position(|name| *name == event.name).expect("a name of tables");
    Record {
        kind: if event.kind == Kind::Enter { ENTER } else { EXIT },
        name: name as u64 + 1,
        line: event.point.line as u64,
        column: event.point.column as u64,
        index: event.point.index as u64,
        vs: event.point.vs as u64,
        link: from_link(event.link.as_ref()),
    }
}

fn from_link(link: Option<&Link>) -> u64 {
    match link {
        None => 0,
        Some(link) => {
            assert!(link.previous.is_none() && link.next.is_none() && link.content == Content::Text);
            1
        }
    }
}

/// A record as a crate event. Its kind, name and link must be 01's.
pub fn to_event(record: &Record) -> Event {
    Event {
        kind: if record.kind == ENTER { Kind::Enter } else { Kind::Exit },
        name: NAMES[record.name as usize - 1].clone(),
        point: to_point(record),
        link: to_link(record.link),
    }
}

pub fn to_point(record: &Record) -> Point {
    Point {
        line: record.line as usize,
        column: record.column as usize,
        index: record.index as usize,
        vs: record.vs as usize,
    }
}

/// In the base a link is none or text without neighbours.
pub fn to_link(link: u64) -> Option<Link> {
    (link != 0).then_some(Link { previous: None, next: None, content: Content::Text })
}

/// Crate events as records.
pub fn from_events(events: &[Event]) -> Vec<Record> {
    events.iter().map(from_event).collect()
}

/// 01's number of an alignment.
pub fn from_align(align: AlignKind) -> u64 {
    match align {
        AlignKind::None => 1,
        AlignKind::Left => 2,
        AlignKind::Right => 3,
        AlignKind::Center => 4,
    }
}
