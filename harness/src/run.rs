//! Runs the crate's `resolve`, `EditMap::consume` and `gfm_table_align` on records.

use crate::construct::gfm_table;
use crate::event::{Event, Kind, Name, Point};
use crate::options::ParseOptions;
use crate::parser::ParseState;
use crate::questions::Edit;
use crate::record::{self, Record};
use crate::tokenizer::Tokenizer;
use crate::util::edit_map::EditMap;
use crate::util::infer::gfm_table_align;

/// The crate's `resolve` on a list of events.
pub fn resolve_events(events: Vec<Event>) -> Vec<Event> {
    let options = ParseOptions::tables(true);
    let parse_state = ParseState {
        location: None,
        options: &options,
        bytes: &[],
        definitions: vec![],
        gfm_footnote_definitions: vec![],
    };
    let start = Point { line: 1, column: 1, index: 0, vs: 0 };
    let mut tokenizer = Tokenizer::new(start, &parse_state);
    tokenizer.events = events;
    gfm_table::resolve(&mut tokenizer);
    tokenizer.events
}

/// The crate's `resolve` on records.
pub fn resolve(list: &[Record]) -> Vec<Record> {
    let events = list.iter().map(record::to_event).collect();
    record::from_events(&resolve_events(events))
}

/// The crate's edit map on records. It copies events unread but for links, so a record of any codes
/// travels as an event that carries the record's place (in the list, then the pool) as its index.
pub fn edit(list: &[Record], edits: &[Edit], pool: &[Record]) -> Vec<Record> {
    let records: Vec<Record> = list.iter().chain(pool).copied().collect();
    let carriers: Vec<Event> = (0..records.len()).map(|place| carrier(place, &records[place])).collect();
    let (in_list, in_pool) = carriers.split_at(list.len());
    let mut map = EditMap::new();
    for edit in edits {
        let added = match edit.count {
            0 => vec![],
            count => in_pool[edit.start as usize..(edit.start + count) as usize].to_vec(),
        };
        if edit.before {
            map.add_before(edit.position as usize, edit.removed as usize, added);
        } else {
            map.add(edit.position as usize, edit.removed as usize, added);
        }
    }
    let mut events = in_list.to_vec();
    map.consume(&mut events);
    events.iter().map(|event| records[event.point.index]).collect()
}

fn carrier(place: usize, record: &Record) -> Event {
    Event {
        kind: Kind::Enter,
        name: Name::Data,
        point: Point { line: 1, column: 1, index: place, vs: 0 },
        link: record::to_link(record.link),
    }
}

/// The crate's alignments of the table entered at the index.
pub fn align(list: &[Record], index: usize) -> Vec<u64> {
    let events: Vec<Event> = list.iter().map(neutral).collect();
    gfm_table_align(&events, index).into_iter().map(record::from_align).collect()
}

/// The crate's alignments at each entry of a table, in the order of the list.
pub fn all_alignments(events: &[Event]) -> Vec<u64> {
    let is_entry = |event: &Event| event.kind == Kind::Enter && event.name == Name::GfmTable;
    let entries = (0..events.len()).filter(|&index| is_entry(&events[index]));
    entries.flat_map(|index| gfm_table_align(events, index)).map(record::from_align).collect()
}

/// A record for alignment, which reads kind and name only. The crate has no kind besides enter and exit:
/// a record of another kind, or of no name of 01, goes in under the name Data, which alignment passes over;
/// a marker keeps its name, since that is read whatever the kind.
fn neutral(record: &Record) -> Event {
    let known_kind = matches!(record.kind, record::ENTER | record::EXIT);
    let known_name = (1..=15).contains(&record.name);
    let name = match record.name {
        record::MARKER => record::MARKER,
        name if known_kind && known_name => name,
        _ => record::DATA,
    };
    let kind = if known_kind { record.kind } else { record::ENTER };
    record::to_event(&Record { kind, name, ..Record::default() })
}
