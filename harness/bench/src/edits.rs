//! Edit calls with many edits: in an order of their positions, accepted or refused, and what they must leave.

use harness::kept::random::Random;
use harness::orders::{Order, FALLING, RANDOM, RISING};
use poolsheet::{Event, Five};

/// The orders that are measured. At equal positions every order is the same.
pub const ORDERS: [Order; 4] = [RISING, FALLING, RANDOM, Order { name: EQUAL, places: RISING.places }];
const EQUAL: &str = "equal positions";

/// What becomes of a call.
#[derive(Clone, Copy, Debug, Eq, PartialEq)]
pub enum Outcome {
    Accepted,
    /// The edit with the highest position, given last, adds one record from behind the pool's end.
    Unfit,
    /// One result slot is lent too few.
    TooFew,
}

pub const OUTCOMES: [Outcome; 3] = [Outcome::Accepted, Outcome::Unfit, Outcome::TooFew];

impl Outcome {
    pub fn name(self) -> &'static str {
        match self {
            Outcome::Accepted => "accepted",
            Outcome::Unfit => "refused by 11, late",
            Outcome::TooFew => "refused by 12",
        }
    }

    pub fn number(self) -> u8 {
        match self {
            Outcome::Accepted => 0,
            Outcome::Unfit => 11,
            Outcome::TooFew => 12,
        }
    }
}

/// What a slot holds that no call has written.
const STALE: Event = Event { kind: 9, name: 99, line: 9, column: 9, index: 9, vs: 9, link: 9 };
const STALE_COUNT: usize = 99;

/// An edit call, all on the heap.
pub struct Call {
    list: Vec<Event>,
    pool: Vec<Event>,
    given: Vec<Five>,
    outcome: Outcome,
    edits: Vec<Five>,
    results: Vec<Event>,
    counts: [usize; 1],
}

/// Records that are told apart by their index.
fn numbered(count: usize, kind: u8) -> Vec<Event> {
    (0..count).map(|place| Event { kind, name: 1, index: place as u32, ..Event::default() }).collect()
}

impl Call {
    /// So many edits on a list that is twice as long, each of which replaces a record by one of the pool.
    pub fn new(order: &Order, outcome: Outcome, count: usize) -> Call {
        let apart = if order.name == EQUAL { 0 } else { 2 };
        let mut places = (order.places)(count, &mut Random::new(count as u64));
        let mut pool = count;
        if outcome == Outcome::Unfit {
            places.retain(|&place| place != count - 1);
            places.push(count - 1);
            pool -= 1;
        }
        let given: Vec<Five> = places.into_iter().map(|place| [apart * place, 1, place, 1, 0]).collect();
        let slots = 2 * count - usize::from(outcome == Outcome::TooFew);
        Call {
            list: numbered(2 * count, 1),
            pool: numbered(pool, 2),
            edits: given.clone(),
            given,
            outcome,
            results: vec![STALE; slots],
            counts: [STALE_COUNT],
        }
    }

    /// All slots as they were before the call.
    pub fn prepare(&mut self) {
        self.edits.copy_from_slice(&self.given);
        self.results.fill(STALE);
        self.counts = [STALE_COUNT];
    }

    pub fn ask(&mut self) -> u8 {
        poolsheet::edit(&self.list, &mut self.edits, &self.pool, &mut self.results, &mut self.counts)
    }

    /// Stops unless the answer is the one to be: its number, the count, the edit slots, the result slots.
    pub fn check(&self, number: u8) {
        assert_eq!(number, self.outcome.number(), "the number");
        let (edits, results) = match self.outcome {
            Outcome::Accepted => (self.sorted(), self.edited()),
            _ => (self.given.clone(), vec![]),
        };
        assert_eq!(self.counts, [results.len()], "the count");
        assert!(self.edits == edits, "the edit slots");
        let (used, unused) = self.results.split_at(results.len());
        assert!(used == results && unused.iter().all(|slot| *slot == Event::default()), "the result slots");
    }

    /// By rising position, equal positions in the order given.
    fn sorted(&self) -> Vec<Five> {
        let mut sorted = self.given.clone();
        sorted.sort_by_key(|five| five[0]);
        sorted
    }

    /// The list with the edits made: at each position what is added, then what stays behind what is removed.
    fn edited(&self) -> Vec<Event> {
        let (mut results, mut next) = (vec![], 0);
        for [at, removed, start, count, _] in self.sorted() {
            results.extend(&self.list[next.min(at)..at]);
            results.extend(&self.pool[start..start + count]);
            next = next.max(at) + removed;
        }
        results.extend(&self.list[next..]);
        results
    }
}
