//! Requests for the edit call.

use super::random::Random;
use super::{slot_choices, Kept, PLENTY};
use crate::calls;
use crate::orders::{fitting, Fault, Five, Wanted, ORDERS};
use crate::print;
use crate::read;
use crate::record::Record;

const HUGE: u64 = u64::MAX;

/// Edits on a list of six records with a pool of four; each line has a one-word label.
const BY_HAND: [(&str, &[Five]); 66] = [
    ("none", &[]),
    ("add", &[[2, 0, 0, 1, 0]]),
    ("front", &[[0, 0, 0, 2, 0]]),
    ("end", &[[6, 0, 0, 2, 0]]),
    ("past", &[[7, 0, 0, 1, 0]]),
    ("remove", &[[2, 1, 0, 0, 0]]),
    ("all", &[[0, 6, 0, 0, 0]]),
    ("toomuch", &[[0, 7, 0, 0, 0]]),
    ("last", &[[5, 1, 0, 0, 0]]),
    ("behind", &[[5, 2, 0, 0, 0]]),
    ("atend", &[[6, 1, 0, 0, 0]]),
    ("replace", &[[2, 2, 1, 3, 0]]),
    ("wholepool", &[[3, 0, 0, 4, 0]]),
    ("overpool", &[[3, 0, 0, 5, 0]]),
    ("poolend", &[[3, 0, 3, 1, 0]]),
    ("poolbehind", &[[3, 0, 4, 1, 0]]),
    ("pooloff", &[[3, 0, 3, 2, 0]]),
    ("poolunasked", &[[3, 1, 99, 0, 0]]),
    ("poolunaskedhuge", &[[3, 1, HUGE, 0, 1]]),
    ("empty", &[[3, 0, 0, 0, 0]]),
    ("emptypast", &[[7, 0, 0, 0, 0]]),
    ("emptyhuge", &[[HUGE, 0, HUGE, 0, 1]]),
    ("emptyinside", &[[1, 3, 0, 0, 0], [2, 0, 0, 0, 0]]),
    ("emptyinsidehuge", &[[1, 3, 0, 0, 0], [2, 0, HUGE, 0, 0]]),
    ("emptysame", &[[2, 0, 1, 1, 0], [2, 0, 9, 0, 1]]),
    ("unsorted", &[[4, 1, 0, 1, 0], [1, 1, 1, 1, 0], [2, 0, 2, 1, 0]]),
    ("descending", &[[5, 1, 0, 0, 0], [3, 1, 0, 0, 0], [1, 1, 0, 0, 0]]),
    ("same", &[[2, 0, 0, 1, 0], [2, 0, 1, 1, 0]]),
    ("before", &[[2, 0, 0, 1, 0], [2, 0, 1, 1, 1]]),
    ("beforefirst", &[[2, 0, 0, 1, 1], [2, 0, 1, 1, 0]]),
    ("beforetwice", &[[2, 0, 0, 1, 1], [2, 0, 1, 1, 1], [2, 0, 2, 1, 0]]),
    ("beforepair", &[[2, 0, 0, 2, 0], [2, 0, 2, 2, 1]]),
    ("beforetwo", &[[2, 0, 0, 1, 0], [2, 0, 1, 1, 2]]),
    ("beforehuge", &[[2, 0, 0, 1, 0], [2, 0, 1, 1, HUGE]]),
    ("beforeremove", &[[2, 1, 0, 0, 1], [2, 0, 1, 1, 1]]),
    ("sumup", &[[2, 1, 0, 0, 0], [2, 2, 0, 0, 0]]),
    ("sumfull", &[[2, 2, 0, 0, 0], [2, 2, 0, 0, 0]]),
    ("sumover", &[[2, 2, 0, 0, 0], [2, 3, 0, 0, 0]]),
    ("suminto", &[[2, 1, 0, 0, 0], [3, 1, 0, 0, 0], [2, 1, 0, 0, 0]]),
    ("sumtouch", &[[2, 1, 0, 0, 0], [4, 1, 0, 0, 0], [2, 1, 0, 0, 0]]),
    ("touch", &[[1, 2, 0, 0, 0], [3, 2, 0, 0, 0]]),
    ("overlap", &[[1, 3, 0, 0, 0], [3, 2, 0, 0, 0]]),
    ("overlapback", &[[3, 2, 0, 0, 0], [1, 3, 0, 0, 0]]),
    ("within", &[[1, 4, 0, 0, 0], [2, 1, 0, 0, 0]]),
    ("addinside", &[[1, 3, 0, 0, 0], [2, 0, 0, 1, 0]]),
    ("addinsidelast", &[[1, 3, 0, 0, 0], [3, 0, 0, 1, 0]]),
    ("addstart", &[[1, 3, 0, 0, 0], [1, 0, 0, 1, 0]]),
    ("addstop", &[[1, 3, 0, 0, 0], [4, 0, 0, 1, 0]]),
    ("addstopend", &[[3, 3, 0, 0, 0], [6, 0, 0, 1, 0]]),
    ("addboth", &[[4, 0, 1, 1, 0], [1, 3, 0, 0, 0], [1, 0, 0, 1, 1]]),
    ("twice", &[[0, 0, 1, 2, 0], [6, 0, 1, 2, 0], [3, 0, 1, 2, 0]]),
    (
        "everywhere",
        &[[0, 1, 0, 1, 0], [1, 1, 1, 1, 0], [2, 1, 2, 1, 0], [3, 1, 3, 1, 0], [4, 1, 0, 1, 0], [5, 1, 1, 1, 0]],
    ),
    ("hugeat", &[[HUGE, 0, 0, 1, 0]]),
    ("hugeremoved", &[[0, HUGE, 0, 0, 0]]),
    ("hugeboth", &[[HUGE, HUGE, 0, 0, 0]]),
    ("wrapat", &[[HUGE, 1, 0, 0, 0]]),
    ("wraptwo", &[[2, HUGE - 1, 0, 0, 0]]),
    ("wrapsum", &[[2, HUGE, 0, 0, 0], [2, 1, 0, 0, 0]]),
    ("wrapsumthree", &[[2, HUGE, 0, 0, 0], [2, 3, 0, 0, 0]]),
    ("wrapparts", &[[0, HUGE, 0, 0, 0], [1, 1, 0, 0, 0]]),
    ("wraphalves", &[[0, 1 << 63, 0, 0, 0], [0, 1 << 63, 0, 0, 0]]),
    ("wrappool", &[[2, 0, HUGE, 1, 0]]),
    ("wrappooltwo", &[[2, 0, HUGE, 2, 0]]),
    ("wrapcount", &[[2, 0, 1, HUGE, 0]]),
    ("hugecount", &[[2, 0, 0, HUGE, 0]]),
    ("halfcount", &[[2, 0, 1 << 63, 1 << 63, 0]]),
];

/// Records that tell their place.
fn counted(count: u64, kind: u64) -> Vec<Record> {
    (0..count).map(|place| Record { kind, name: 1 + place, index: place, ..Record::default() }).collect()
}

/// With each choice of slots.
fn add(kept: &mut Kept, list: &[Record], fives: &[Five], pool: &[Record], spare: bool) {
    let numbers = print::numbers(fives.as_flattened());
    let events = [print::events(list), print::events(pool)].concat();
    let counts = format!("{} {} {}", fives.len(), list.len(), pool.len());
    let edits: Vec<_> = fives.iter().map(read::edit).collect();
    let needed = calls::edit(list, &edits, pool, PLENTY).ok().map(|results| results.len() as u64);
    for slots in slot_choices(needed, spare) {
        kept.add(format!("edit {slots} {counts}{numbers}{events}"));
    }
}

pub fn kept() -> Kept {
    let mut kept = Kept::new("edit");
    let (list, pool) = (counted(6, 1), counted(4, 2));
    for (number, (_, fives)) in BY_HAND.iter().enumerate() {
        add(&mut kept, &list, fives, &pool, number % 3 == 0);
    }
    add_empty(&mut kept);
    add_single(&mut kept);
    add_random(&mut kept);
    add_orders(&mut kept);
    kept
}

/// An empty list, an empty pool, or both, and blank or unknown records.
fn add_empty(kept: &mut Kept) {
    let odd = [
        Record::default(),
        Record {
            kind: 255,
            name: 255,
            line: 4_294_967_295,
            column: 4_294_967_295,
            index: 4_294_967_295,
            vs: 255,
            link: 255,
        },
        Record { kind: 7, name: 99, link: 2, ..Record::default() },
        Record { link: 1, ..Record::default() },
    ];
    let edits: [&[Five]; 7] = [
        &[],
        &[[0, 0, 0, 0, 0]],
        &[[0, 0, 0, 1, 0]],
        &[[0, 1, 0, 0, 0]],
        &[[0, 1, 0, 1, 0]],
        &[[1, 0, 1, 2, 1]],
        &[[1, 0, 0, 1, 0]],
    ];
    for fives in edits {
        for list in [0, 1, 4] {
            for pool in [0, 1, 4] {
                add(kept, &odd[..list], fives, &odd[..pool], false);
            }
        }
    }
}

/// Each single edit with a removal, and a pair of one removal and one addition, on a list of three.
fn add_single(kept: &mut Kept) {
    let (list, pool) = (counted(3, 1), counted(1, 2));
    for position in 0..5 {
        for removed in 0..4 {
            add(kept, &list, &[[position, removed, 0, 0, 0]], &pool, false);
            for second in 0..5 {
                if (position + second) % 2 == 0 {
                    add(kept, &list, &[[position, removed, 0, 0, 0], [second, 0, 0, 1, 0]], &pool, false);
                } else {
                    add(kept, &list, &[[second, 1, 0, 1, 1], [position, removed, 0, 0, 0]], &pool, false);
                }
            }
        }
    }
}

/// Edits drawn at random; small removals, so that many are accepted.
fn add_random(kept: &mut Kept) {
    let mut random = Random::new(6);
    for _ in 0..300 {
        let (list, pool) = (random.below(10), random.below(5));
        let records: Vec<Record> = (0..list + pool).map(|_| random_record(&mut random)).collect();
        let fives: Vec<Five> = (0..random.below(6)).map(|_| random_edit(&mut random, list, pool)).collect();
        let (in_list, in_pool) = records.split_at(list as usize);
        let spare = random.percent(15);
        add(kept, in_list, &fives, in_pool, spare);
    }
}

fn random_record(random: &mut Random) -> Record {
    if random.percent(8) {
        return Record::default();
    }
    let any = random.percent(10);
    Record {
        kind: if any { random.below(256) } else { 1 + random.below(2) },
        name: if any { random.below(256) } else { 1 + random.below(15) },
        line: random.below(10),
        column: random.below(10),
        index: random.below(100),
        vs: if any { random.below(256) } else { 0 },
        link: if any { random.below(256) } else { random.below(2) },
    }
}

fn random_edit(random: &mut Random, list: u64, pool: u64) -> Five {
    let position = if random.percent(96) { random.below(list + 1) } else { random.below(list + 4) };
    let removed = if random.percent(55) { 0 } else { random.below(3) };
    let start = random.below(pool + 1);
    let count = if random.percent(96) { random.below(pool - start + 1) } else { random.below(4) };
    [position, removed, start, count, random.below(2)]
}

/// Up to 51 edits, as many as the gate's program takes, in each order, at positions apart and at equal ones; and the same with a fault.
fn add_orders(kept: &mut Kept) {
    let faults = [Fault::Overlap, Fault::List, Fault::Pool, Fault::Removed(1 << 32)];
    for (size, (count, equal)) in [(8, 0), (16, 100), (33, 30), (51, 80)].into_iter().enumerate() {
        for (place, order) in ORDERS.iter().enumerate() {
            let wanted = Wanted { count, pool: 7, equal };
            let seed = (100 * count + place) as u64;
            let many = || fitting(&mut Random::new(seed), &wanted);
            let fault = faults[(size + place) % faults.len()];
            for many in [many(), many().with(fault)] {
                let many = many.given(order, &mut Random::new(seed));
                add(kept, &counted(many.list, 1), &many.fives, &counted(many.pool, 2), false);
            }
        }
    }
}
