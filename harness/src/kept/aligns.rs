//! Requests for the alignment call.

use super::lists::raw_of;
use super::random::Random;
use super::{sheet_cases as cases, slot_choices, Kept, PLENTY};
use crate::calls;
use crate::print;
use crate::record::{Record, TABLE};
use crate::run;

/// Lists in short words: `+` enters, `-` leaves, `0` and `3` are of these kinds; T table, H head, R delimiter row,
/// C delimiter cell, V value, M marker, F filler, D divider, S whitespace, X an unknown name.
const BY_HAND: [(&str, &str); 62] = [
    ("one", "+T +R +V +F -F -V -R -T"),
    ("left", "+T +R +V +M -M +F -F -V -R -T"),
    ("right", "+T +R +V +F -F +M -M -V -R -T"),
    ("centre", "+T +R +V +M -M +F -F +M -M -V -R -T"),
    ("two", "+T +R +V +M -M -V +V +F -V -R"),
    ("none", "+T +R -R"),
    ("novalue", "+T +R +C -C +S -S -R -T"),
    ("empty", "+T +R +V -V -R"),
    ("empties", "+T +R +V -V +V -V +V -V -R"),
    ("lonemarker", "+T +R +V +M -V -R"),
    ("exitmarker", "+T +R +V -M -V -R"),
    ("kindless", "+T +R +V 0M -V -R"),
    ("kindlessfront", "+T +R +V 0M +F -V -R"),
    ("kindlessbehind", "+T +R +V +F 3M -V -R"),
    ("frontlate", "+T +R +V +F +M -M +F -V -R"),
    ("markeroutside", "+T +R +M -M +V +F -V +M -M -R"),
    ("markerbefore", "+T +R +M +V +F -V -R"),
    ("behindexit", "+T -T +R +V +M -V -R"),
    ("tableagain", "+T +T +R +V +F -V -R"),
    ("twotables", "+T +R +V +M -V -R -T +T +R +V +F +M -V -R -T"),
    ("secondrow", "+T +R +V -V -R +R +V +M -V +V -V -R"),
    ("rowinside", "+T +R +R +V -V -R -R"),
    ("rowinvalue", "+T +R +V +R -V -R"),
    ("unclosed", "+T +R +V -V"),
    ("unclosedvalue", "+T +R +V"),
    ("openvalue", "+T +R +V +F -R"),
    ("openlast", "+T +R +V -V +V -R"),
    ("nested", "+T +R +V +V -V -V -R"),
    ("reentered", "+T +R +V +V -V -R"),
    ("leftonly", "+T +R -V -R"),
    ("leftfirst", "+T +R -V +V -R"),
    ("lefttwice", "+T +R +V -V -V -R"),
    ("norow", "+T +V -V -T"),
    ("noentry", "+T -R -T"),
    ("exitfirst", "+T -R +R +V -V -R"),
    ("onlytable", "+T"),
    ("exittable", "-T +R +V -V -R"),
    ("kindlesstable", "0T +R +V -V -R"),
    ("kindthreetable", "3T +R +V -V -R"),
    ("head", "+H +R +V -V -R"),
    ("unknown", "+X +R +V -V -R"),
    ("kindlessrow", "+T 0R +R +V -V -R"),
    ("onlykindless", "+T 0R +V -V -R"),
    ("kindlessclose", "+T +R +V -V 0R -R"),
    ("onlykindlessclose", "+T +R +V -V 3R"),
    ("kindlessvalue", "+T +R 0V +V +F -V 3V -R"),
    ("kindlessenter", "+T +R 0V -V -R"),
    ("kindlessleave", "+T +R +V 0V -R"),
    ("valuebetween", "+T +R +V +M 0V -V -R"),
    ("valuefront", "+T +R +V 3V +M -V -R"),
    ("cells", "+T +H +R +C +V +M -M +F -F -V -C +C +D -D +S -S +V +F -F -V -C -R -H -T"),
    ("valuesbefore", "+T +V +M -V +R +V +F -V -R"),
    ("valuesafter", "+T +R +V +F -V -R +V +M +V"),
    ("unknowns", "+T +X +R +X +V +X -V -X -R"),
    ("unknownfront", "+T +R +V +X +M -V -R"),
    ("unknownbehind", "+T +R +V +M -X -V -R"),
    ("markerentry", "+M +T +R +V -V -R"),
    ("blank", "0X"),
    ("nothing", ""),
    ("many", "+T +R +V +M -V +V +F -V +V +M +F -V +V +F +M -V +V -V -R"),
    ("innercell", "+T +R +C +V +M -C -V -R"),
    ("tableinrow", "+T +R +T +V +M -V -T -R"),
];

fn record(word: &str) -> Record {
    let mut letters = word.chars();
    let kind = match letters.next().unwrap() {
        '+' => 1,
        '-' => 2,
        '3' => 3,
        _ => 0,
    };
    let name = match letters.next().unwrap() {
        'T' => TABLE,
        'H' => 6,
        'R' => 11,
        'C' => 13,
        'V' => 14,
        'M' => 12,
        'F' => 15,
        'D' => 10,
        'S' => 1,
        _ => 200,
    };
    Record { kind, name, ..Record::default() }
}

fn records(text: &str) -> Vec<Record> {
    text.split_whitespace().map(record).collect()
}

/// With each choice of slots.
fn add(kept: &mut Kept, list: &[Record], index: u64, spare: bool) {
    let needed = calls::align(list, index, PLENTY).ok().map(|alignments| alignments.len() as u64);
    for slots in slot_choices(needed, spare) {
        kept.add(format!("align {index} {slots}{}", print::events(list)));
    }
}

pub fn kept() -> Kept {
    let mut kept = Kept::new("align");
    for (_, text) in BY_HAND {
        let list = records(text);
        add(&mut kept, &list, 0, true);
        let second = list.iter().skip(1).position(|record| record.enters(TABLE));
        add(&mut kept, &list, second.map_or(1, |found| found as u64 + 1), false);
    }
    add_indices(&mut kept);
    add_of_sheets(&mut kept);
    add_random(&mut kept);
    kept
}

/// Every record index of a resolved list, and indices past it.
fn add_indices(kept: &mut Kept) {
    let list = run::resolve(&raw_of(b"a\n:-\n\nb\n-:", true));
    let past = [list.len() as u64, list.len() as u64 + 1, 1 << 32, 1 << 63, u64::MAX];
    for index in (0..list.len() as u64).chain(past) {
        add(kept, &list, index, false);
    }
    for index in [0, 1, u64::MAX] {
        add(kept, &[], index, false);
    }
}

/// The tables of resolved sheets.
fn add_of_sheets(kept: &mut Kept) {
    let mut random = Random::new(7);
    let mut sheets = cases::by_hand();
    sheets.extend((0..40).map(|_| cases::tabular(&mut random, 2)));
    for (number, sheet) in sheets.iter().enumerate() {
        let list = run::resolve(&raw_of(sheet, true));
        let entries = (0..list.len()).filter(|&index| list[index].enters(TABLE));
        for index in entries.take(1) {
            // Only the records up to the head's end, to stay short.
            let head_end = list.iter().position(|record| record.exits(6)).unwrap() + 1;
            add(kept, &list[..head_end], index as u64, number % 6 == 0);
        }
    }
}

/// Records of a few names and kinds, in any order, behind a table's entry.
fn add_random(kept: &mut Kept) {
    let mut random = Random::new(8);
    for _ in 0..260 {
        let mut list = records("+T +R");
        for _ in 0..random.below(5) {
            let value = match random.below(12) {
                0 => "+V +M -M +F -F -V",
                1 => "+V +F -F +M -M -V",
                2 => "+V +M -M +F -F +M -M -V",
                3 => "+V +F -F -V",
                4 => "+C -C",
                5 => "+V +M -V",
                6 => "0V 3V 0M",
                7 => "+M -M",
                8 => "+V 0M +F 3M -V",
                9 => "+V -V",
                10 => random.text(&["+V", "-V", "-R", "+R", "+T", "0R", "3T", "+X"]),
                _ => "+S -S +D -D",
            };
            list.extend(records(value));
        }
        if random.percent(92) {
            list.extend(records("-R"));
        }
        let index = if random.percent(94) { 0 } else { random.below(4) };
        let spare = random.percent(12);
        add(kept, &list, index, spare);
    }
}
