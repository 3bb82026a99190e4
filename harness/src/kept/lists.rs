//! Requests for the resolve call.

use super::random::Random;
use super::{sheet_cases as cases, slot_choices, Kept, PLENTY};
use crate::calls;
use crate::print;
use crate::record::{self, Record, DATA, DELIMITER_ROW, DIVIDER, FILLER, HEAD, LINE_ENDING, MARKER, ROW, SPACE_OR_TAB};

/// With each choice of slots.
fn add(kept: &mut Kept, list: &[Record], spare: bool) {
    let needed = calls::resolve(list, PLENTY).ok().map(|results| results.len() as u64);
    for slots in slot_choices(needed, spare) {
        kept.add(format!("resolve {slots}{}", print::events(list)));
    }
}

/// The raw events of a sheet's tables.
pub fn raw_of(sheet: &[u8], code_indented: bool) -> Vec<Record> {
    let tables = calls::raw_tables(sheet, code_indented);
    tables.iter().flat_map(|events| record::from_events(events)).collect()
}

pub fn kept() -> Kept {
    let mut kept = Kept::new("resolve");
    add(&mut kept, &[], true);
    add_of_sheets(&mut kept);
    add_pieces(&mut kept);
    add_damaged(&mut kept);
    add_shapes(&mut kept);
    add_random(&mut kept);
    kept
}

/// Raw lists of sheets.
fn add_of_sheets(kept: &mut Kept) {
    for (number, sheet) in cases::by_hand().iter().enumerate() {
        add(kept, &raw_of(sheet, false), number % 6 == 0);
    }
    let mut random = Random::new(4);
    for _ in 0..30 {
        let sheet = cases::tabular(&mut random, 3);
        add(kept, &raw_of(&sheet, false), false);
    }
}

/// A name entered and left.
pub fn pair(name: u64) -> [Record; 2] {
    [Record::enter(name), Record::exit(name)]
}

fn row(name: u64, pieces: &[u64]) -> Vec<Record> {
    let inner = pieces.iter().flat_map(|&piece| pair(piece));
    [Record::enter(name)].into_iter().chain(inner).chain([Record::exit(name)]).collect()
}

/// A raw table of these pieces, at no points in particular.
pub fn table(head: &[u64], delimiter: &[u64], body: &[&[u64]]) -> Vec<Record> {
    let mut list = vec![Record::enter(HEAD)];
    list.extend(row(ROW, head));
    list.extend(pair(LINE_ENDING));
    list.extend(row(DELIMITER_ROW, delimiter));
    list.push(Record::exit(HEAD));
    for pieces in body {
        list.extend(pair(LINE_ENDING));
        list.extend(row(ROW, pieces));
    }
    list
}

/// The same records, each at a point that tells its place.
pub fn placed(list: &[Record]) -> Vec<Record> {
    let places = list.iter().zip(1..);
    places.map(|(record, place)| record.at(place, place + 100, place + 200)).collect()
}

/// Every row of up to three pieces, in any order, as head, delimiter or body row.
fn add_pieces(kept: &mut Kept) {
    let names = [SPACE_OR_TAB, DIVIDER, DATA];
    for one in names {
        for two in names {
            add(kept, &placed(&table(&[DATA], &[FILLER], &[&[one, two]])), false);
            for three in names {
                add(kept, &placed(&table(&[one, two, three], &[MARKER], &[])), false);
            }
        }
    }
    let names = [SPACE_OR_TAB, DIVIDER, MARKER, FILLER];
    for one in names {
        for two in names {
            add(kept, &placed(&table(&[DIVIDER], &[one, two], &[])), false);
            add(kept, &placed(&table(&[SPACE_OR_TAB], &[one, SPACE_OR_TAB, two, DIVIDER], &[])), false);
        }
    }
}

/// Copies of two raw lists with one record removed, doubled, swapped, changed, or all behind it cut off.
fn add_damaged(kept: &mut Kept) {
    let small = raw_of(b"a\n:-\nb", true);
    let large = raw_of(b"|a |\n|-:|\n\nb\n:-", true);
    for place in 0..small.len() {
        for list in damages(&small, place) {
            add(kept, &list, false);
        }
    }
    for place in 0..large.len() {
        add(kept, &damages(&large, place)[place % 8], false);
    }
}

fn changed(list: &[Record], place: usize, change: impl Fn(&mut Record)) -> Vec<Record> {
    let mut list = list.to_vec();
    change(&mut list[place]);
    list
}

fn damages(list: &[Record], place: usize) -> Vec<Vec<Record>> {
    let mut removed = list.to_vec();
    removed.remove(place);
    let mut doubled = list.to_vec();
    doubled.insert(place, list[place]);
    let mut swapped = list.to_vec();
    swapped.swap(place, (place + 1) % list.len());
    vec![
        removed,
        doubled,
        swapped,
        changed(list, place, |record| record.kind = 3 - record.kind),
        changed(list, place, |record| record.kind = if record.index % 2 == 0 { 0 } else { 3 }),
        changed(list, place, |record| record.name = 1 + record.name % 15),
        changed(list, place, |record| record.link = 1 + record.index % 3),
        list[..place].to_vec(),
        changed(list, place, |record| {
            (record.line, record.column, record.index, record.vs) = (0, 4_294_967_295, 7, 255)
        }),
        changed(list, place, |record| record.name = if record.name > 7 { 0 } else { 16 + record.name }),
    ]
}

/// Lists that are nearly raw tables.
fn add_shapes(kept: &mut Kept) {
    let small = table(&[DATA], &[FILLER], &[]);
    let join = |parts: &[&[Record]]| parts.concat();
    let le = pair(LINE_ENDING);
    let body = row(ROW, &[DATA]);
    let shapes = [
        join(&[&small, &small]),
        join(&[&small, &le, &small]),
        join(&[&small, &le]),
        join(&[&small, &body]),
        join(&[&le, &small]),
        join(&[&small, &le, &body, &le, &body]),
        join(&[&small, &le, &body, &body]),
        join(&[&small, &le, &row(DELIMITER_ROW, &[FILLER])]),
        join(&[&small, &[Record::default()]]),
        vec![Record::default()],
        table(&[], &[FILLER], &[]),
        table(&[DATA], &[], &[]),
        table(&[DATA], &[FILLER], &[&[]]),
        table(&[FILLER], &[FILLER], &[]),
        table(&[MARKER], &[FILLER], &[]),
        table(&[DATA], &[DATA], &[]),
        table(&[DATA], &[FILLER], &[&[FILLER]]),
        table(&[DATA], &[FILLER], &[&[LINE_ENDING]]),
        table(&[ROW], &[FILLER], &[]),
        table(&[DATA], &[FILLER, LINE_ENDING], &[]),
        body,
        le.to_vec(),
    ];
    for list in shapes {
        add(kept, &placed(&list), false);
    }
}

/// Raw tables that no sheet gives: pieces in any order, links, any points; one in six damaged.
fn add_random(kept: &mut Kept) {
    let mut random = Random::new(5);
    for _ in 0..140 {
        let mut list = vec![];
        for _ in 0..1 + random.below(2) {
            list.extend(random_table(&mut random));
        }
        for record in &mut list {
            scatter(&mut random, record);
        }
        if random.percent(16) {
            let place = random.below(list.len() as u64) as usize;
            list = random.pick(&damages(&list, place)).clone();
        }
        let spare = random.percent(10);
        add(kept, &list, spare);
    }
}

fn random_table(random: &mut Random) -> Vec<Record> {
    let text = [SPACE_OR_TAB, DIVIDER, DIVIDER, DATA, DATA];
    let marks = [SPACE_OR_TAB, DIVIDER, DIVIDER, MARKER, FILLER, FILLER];
    let draw = |random: &mut Random, names: &[u64]| -> Vec<u64> {
        (0..1 + random.below(6)).map(|_| *random.pick(names)).collect()
    };
    let head = draw(random, &text);
    let delimiter = draw(random, &marks);
    let body: Vec<Vec<u64>> = (0..random.below(3)).map(|_| draw(random, &text)).collect();
    let body: Vec<&[u64]> = body.iter().map(Vec::as_slice).collect();
    table(&head, &delimiter, &body)
}

/// Any point, and at times a link.
fn scatter(random: &mut Random, record: &mut Record) {
    if random.percent(3) {
        (record.line, record.column, record.index, record.vs) = (4_294_967_295, 4_294_967_295, 4_294_967_295, 255);
    } else {
        (record.line, record.column, record.index) = (random.below(9), random.below(99), random.below(999));
        record.vs = random.below(4);
    }
    record.link = u64::from(random.percent(10));
}
