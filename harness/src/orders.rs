//! Many edits for one call: edits that fit, one fault where they are to be refused, and an order to give them in.

use crate::kept::random::Random;

/// Position, removed, pool start, pool count, before.
pub type Five = [u64; 5];

/// An order of edits.
pub struct Order {
    pub name: &'static str,
    /// The places of so many edits, counted by rising position, each once.
    pub places: fn(usize, &mut Random) -> Vec<usize>,
}

pub const RISING: Order = Order { name: "rising", places: |count, _| (0..count).collect() };
pub const FALLING: Order = Order { name: "falling", places: |count, _| (0..count).rev().collect() };
pub const RANDOM: Order = Order { name: "random", places: shuffled };

/// All orders. Those that are not named above: two rising runs, an edit of each in turn; rising runs, each from end to end; the upper
/// half before the lower; rising but for one edit.
pub const ORDERS: [Order; 7] = [
    RISING,
    FALLING,
    RANDOM,
    Order { name: "zipped", places: |count, _| strided(count, count.div_ceil(2)) },
    Order { name: "saw", places: |count, _| strided(count, 7) },
    Order { name: "halves", places: |count, _| (count / 2..count).chain(0..count / 2).collect() },
    Order { name: "nearly rising", places: one_moved },
];

fn shuffled(count: usize, random: &mut Random) -> Vec<usize> {
    let mut places: Vec<usize> = (0..count).collect();
    for end in (1..count).rev() {
        places.swap(end, random.below(end as u64 + 1) as usize);
    }
    places
}

/// Every place that is a multiple of the stride, then the next ones.
fn strided(count: usize, stride: usize) -> Vec<usize> {
    (0..stride).flat_map(|first| (first..count).step_by(stride)).collect()
}

/// One place of at least two taken out and put in elsewhere.
fn one_moved(count: usize, random: &mut Random) -> Vec<usize> {
    let mut places: Vec<usize> = (0..count).collect();
    let from = random.below(count as u64) as usize;
    let on = 1 + random.below(count as u64 - 1) as usize;
    let place = places.remove(from);
    places.insert((from + on) % count, place);
    places
}

/// Why question 11 refuses edits that fitted.
#[derive(Clone, Copy, Debug)]
pub enum Fault {
    /// The last edit lies inside what another removes, which stands in the place of a third.
    Overlap,
    /// The list lacks one record.
    List,
    /// The last edit adds one record from behind the pool's end.
    Pool,
    /// The last edit removes so many.
    Removed(u64),
}

/// Faults of each kind; numbers that have no place in 32 bits, nor a sum in 64.
pub const FAULTS: [Fault; 6] = [
    Fault::Overlap,
    Fault::List,
    Fault::Pool,
    Fault::Removed(1 << 32),
    Fault::Removed((1 << 32) + 1),
    Fault::Removed(u64::MAX),
];

/// What edits are wanted: how many, at least two, on a pool of how many, and how many of a hundred stand where the one before them does.
pub struct Wanted {
    pub count: usize,
    pub pool: u64,
    pub equal: u64,
}

/// Edits, and how many records the list and the pool have.
pub struct Many {
    pub list: u64,
    pub pool: u64,
    pub fives: Vec<Five>,
}

/// Edits that fit, by rising position. Some remove and add nothing, also inside what is removed and behind the list's end; one adds.
pub fn fitting(random: &mut Random, wanted: &Wanted) -> Many {
    let Wanted { count, pool, equal } = *wanted;
    let (mut at, mut stop) = (1, 1);
    let mut fives: Vec<Five> = vec![];
    for place in 1..count as u64 {
        if !random.percent(equal) {
            at = stop.max(at + 1) + random.below(2);
            stop = at;
        }
        let mut five = edit_at(random, at, place, pool);
        stop += five[1];
        if five[1] + five[3] == 0 {
            five[0] = anywhere(random, at, stop);
        }
        fives.push(five);
    }
    fives.push([at, 0, 0, 1, 0]);
    fives.sort_by_key(|five| five[0]);
    Many { list: stop + random.below(3), pool, fives }
}

/// An edit at a position. What is not asked of it tells its place: where its additions start if it has none, and whether they come before.
fn edit_at(random: &mut Random, at: u64, place: u64, pool: u64) -> Five {
    let removed = random.below(3) / 2 * (1 + random.below(2));
    let start = place % pool;
    let count = random.below(3).min(pool - start);
    let before = if random.percent(70) { 0 } else { place + 1 };
    match count {
        0 if random.percent(10) => [at, removed, u64::MAX - place, 0, u64::MAX - place],
        0 => [at, removed, place, 0, before],
        _ => [at, removed, start, count, before],
    }
}

/// Where an edit that removes and adds nothing may stand: there, inside what is removed there, or far behind.
fn anywhere(random: &mut Random, at: u64, stop: u64) -> u64 {
    match random.below(20) {
        0 => u64::MAX - random.below(3),
        1 => stop + random.below(1_000),
        2..=6 => at + random.below(stop - at + 1),
        _ => at,
    }
}

impl Many {
    /// With a fault at the highest position where something is removed or added, so that it is met last.
    pub fn with(mut self, fault: Fault) -> Many {
        let last =
            self.fives.iter().rposition(|five| five[1] + five[3] > 0).expect("an edit removes or adds something");
        let at = self.fives[last][0];
        match fault {
            Fault::Overlap => self.fives[usize::from(last == 0)] = [at - 1, 2, 0, 0, 0],
            Fault::List => self.list = at + self.removed_at(at) - 1,
            Fault::Pool => (self.fives[last][2], self.fives[last][3]) = (self.pool, 1),
            Fault::Removed(number) => self.fives[last][1] = number,
        }
        self.fives.sort_by_key(|five| five[0]);
        self
    }

    fn removed_at(&self, at: u64) -> u64 {
        self.fives.iter().filter(|five| five[0] == at).map(|five| five[1]).sum()
    }

    /// Given in an order.
    pub fn given(self, order: &Order, random: &mut Random) -> Many {
        let places = (order.places)(self.fives.len(), random);
        Many { fives: places.into_iter().map(|place| self.fives[place]).collect(), ..self }
    }
}
