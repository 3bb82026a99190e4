//! Lists and edits drawn at random.

use crate::sheets;
use harness::kept::lists::raw_of;
use harness::kept::random::Random;
use harness::record::{Record, TABLE};
use harness::run;
use poolsheet::Five;

/// The raw events of a sheet that is not too long.
pub fn raw(random: &mut Random) -> Vec<Record> {
    let mut sheet = sheets::any(random);
    sheet.truncate(3_000);
    raw_of(&sheet, random.percent(50))
}

/// A raw list, at times damaged or with any points.
pub fn to_resolve(random: &mut Random) -> Vec<Record> {
    let mut list = raw(random);
    if random.percent(20) {
        let more = raw(random);
        list.extend(more);
    }
    if random.percent(40) {
        for record in &mut list {
            scatter(random, record);
        }
    }
    if random.percent(45) {
        damage(random, &mut list);
    }
    list
}

/// A resolved list and an index: mostly that of a table's entry. At times damaged.
pub fn to_align(random: &mut Random) -> (Vec<Record>, usize) {
    let mut list = run::resolve(&raw(random));
    let mut entries: Vec<usize> = (0..list.len()).filter(|&place| list[place].enters(TABLE)).collect();
    entries.push(list.len());
    let index = *random.pick(&entries);
    for _ in 0..random.below(4) {
        damage(random, &mut list);
    }
    let index = match random.below(40) {
        0 => random.below(list.len() as u64 + 2) as usize,
        1 => usize::MAX - random.below(3) as usize,
        _ => index,
    };
    (list, index)
}

/// Any point, and at times a link.
fn scatter(random: &mut Random, record: &mut Record) {
    let word = |random: &mut Random| match random.below(20) {
        0 => u64::from(u32::MAX),
        _ => random.below(1_000),
    };
    (record.line, record.column, record.index) = (word(random), word(random), word(random));
    record.vs = if random.percent(90) { random.below(4) } else { 255 };
    record.link = u64::from(random.percent(10));
}

/// A record dropped, doubled, exchanged with the next, or changed in one field; or all behind it cut off.
fn damage(random: &mut Random, list: &mut Vec<Record>) {
    if list.is_empty() {
        return list.push(any_record(random));
    }
    let place = random.below(list.len() as u64) as usize;
    let next = (place + 1) % list.len();
    match random.below(10) {
        0 => drop(list.remove(place)),
        1 => list.insert(place, list[place]),
        2 => list.swap(place, next),
        3 => list[place].kind = 3 - list[place].kind.min(3),
        4 => list[place].kind = random.below(4),
        5 => list[place].name = random.below(18),
        6 => list[place].link = random.below(3),
        7 => list[place] = any_record(random),
        8 => list.insert(place, any_record(random)),
        _ => list.truncate(place),
    }
}

/// A record of any codes.
fn any_record(random: &mut Random) -> Record {
    if random.percent(10) {
        return Record::default();
    }
    let any = random.percent(20);
    let kind = if any { random.below(256) } else { 1 + random.below(2) };
    let name = if any { random.below(256) } else { 1 + random.below(15) };
    let mut record = Record { kind, name, ..Record::default() };
    scatter(random, &mut record);
    if any {
        (record.vs, record.link) = (random.below(256), random.below(256));
    }
    record
}

/// A list, edits and a pool.
pub struct ToEdit {
    pub list: Vec<Record>,
    pub edits: Vec<Five>,
    pub pool: Vec<Record>,
}

/// Edits on records of any codes: few on a short list, or many on a longer one. Most fit, some reach anywhere.
pub fn to_edit(random: &mut Random) -> ToEdit {
    let (longest, most) = if random.percent(85) { (12, 6) } else { (300, 80) };
    let records = |random: &mut Random, limit: u64| -> Vec<Record> {
        (0..random.below(limit)).map(|_| any_record(random)).collect()
    };
    let (list, pool) = (records(random, longest), records(random, 8));
    let apart = random.percent(50);
    let count = random.below(most);
    let edits = (0..count).map(|_| any_edit(random, list.len(), pool.len(), apart)).collect();
    ToEdit { list, edits, pool }
}

/// An edit. Those of one call that are `apart` remove at even positions, at most two.
fn any_edit(random: &mut Random, list: usize, pool: usize, apart: bool) -> Five {
    let below = |random: &mut Random, limit: usize| random.below(limit as u64) as usize;
    let mut position = below(random, list + 1);
    let mut removed = if random.percent(60) { 0 } else { below(random, 3) };
    if apart {
        position &= !1;
        removed = removed.min(1).min(list - position);
    }
    let start = below(random, pool + 1);
    let count = if random.percent(40) { 0 } else { below(random, pool - start + 1) };
    let mut five = [position, removed, start, count, below(random, 2)];
    if random.percent(3) {
        let place = below(random, 5);
        five[place] = far(random, five[place]);
    }
    five
}

/// A number that reaches past the ends: a few more, about half of 2^64, or nearly all.
fn far(random: &mut Random, number: usize) -> usize {
    let few = random.below(4) as usize;
    match random.below(4) {
        0 => number + few,
        1 => (1 << 63) - 2 + few,
        2 => usize::MAX - few,
        _ => number.wrapping_neg().wrapping_sub(few),
    }
}
