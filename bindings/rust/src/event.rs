//! Events, their names, and alignments.

/// A part of a table is entered, or left, at a place of the sheet. The library's own record of 20 bytes.
#[repr(C)]
#[derive(Clone, Copy, Debug, Default, PartialEq, Eq, Hash)]
pub struct Event {
    /// 0 blank, 1 enter, 2 exit.
    pub kind: u8,
    /// The number of a [`Name`], 0 in a blank record.
    pub name: u8,
    /// Line, from 1.
    pub line: u32,
    /// Column in bytes, from 1; a tab runs to the next tab stop.
    pub column: u32,
    /// Offset in the sheet, in bytes.
    pub index: u32,
    /// Place inside a tab, 0 in every event that is read from a sheet.
    pub vs: u8,
    /// 0 none, 1 text.
    pub link: u8,
}

impl Event {
    /// The record of a slot that holds no event.
    pub const BLANK: Event = Event { kind: 0, name: 0, line: 0, column: 0, index: 0, vs: 0, link: 0 };

    /// Whether the event enters what has this name.
    pub fn enters(&self, name: Name) -> bool {
        self.kind == 1 && self.name == name.number()
    }

    /// Whether the event leaves what has this name.
    pub fn leaves(&self, name: Name) -> bool {
        self.kind == 2 && self.name == name.number()
    }
}

/// What an event enters or leaves.
#[repr(u8)]
#[derive(Clone, Copy, Debug, PartialEq, Eq, Hash)]
pub enum Name {
    /// Spaces and tabs.
    SpaceOrTab = 1,
    /// The line end between two lines of a table.
    LineEnding = 2,
    /// Bytes of a cell's text.
    Data = 3,
    /// A table.
    GfmTable = 4,
    /// All body rows of a table.
    GfmTableBody = 5,
    /// Head row and delimiter row of a table.
    GfmTableHead = 6,
    /// A head row or a body row.
    GfmTableRow = 7,
    /// A cell of one.
    GfmTableCell = 8,
    /// The text of a cell, trimmed.
    GfmTableCellText = 9,
    /// A divider.
    GfmTableCellDivider = 10,
    /// The delimiter row.
    GfmTableDelimiterRow = 11,
    /// A colon of it.
    GfmTableDelimiterMarker = 12,
    /// A cell of it.
    GfmTableDelimiterCell = 13,
    /// The value of such a cell, trimmed.
    GfmTableDelimiterCellValue = 14,
    /// Hyphens of one.
    GfmTableDelimiterFiller = 15,
}

impl Name {
    /// Every name, by rising number.
    pub const ALL: [Name; 15] = [
        Name::SpaceOrTab,
        Name::LineEnding,
        Name::Data,
        Name::GfmTable,
        Name::GfmTableBody,
        Name::GfmTableHead,
        Name::GfmTableRow,
        Name::GfmTableCell,
        Name::GfmTableCellText,
        Name::GfmTableCellDivider,
        Name::GfmTableDelimiterRow,
        Name::GfmTableDelimiterMarker,
        Name::GfmTableDelimiterCell,
        Name::GfmTableDelimiterCellValue,
        Name::GfmTableDelimiterFiller,
    ];

    /// The number that stands for it in a record.
    pub const fn number(self) -> u8 {
        self as u8
    }

    /// The name that a number stands for.
    pub fn from_number(number: u8) -> Option<Name> {
        Name::ALL.into_iter().find(|name| name.number() == number)
    }
}

/// How a column is aligned.
#[repr(u8)]
#[derive(Clone, Copy, Debug, PartialEq, Eq, Hash)]
pub enum Alignment {
    /// No colon.
    None = 1,
    /// A colon in front.
    Left = 2,
    /// A colon behind.
    Right = 3,
    /// Both.
    Centre = 4,
}

impl Alignment {
    /// Every alignment, by rising number.
    pub const ALL: [Alignment; 4] = [Alignment::None, Alignment::Left, Alignment::Right, Alignment::Centre];

    /// The number that stands for it in a slot. 0 is an unused slot.
    pub const fn number(self) -> u8 {
        self as u8
    }

    /// The alignment that a number stands for.
    pub fn from_number(number: u8) -> Option<Alignment> {
        Alignment::ALL.into_iter().find(|alignment| alignment.number() == number)
    }
}
