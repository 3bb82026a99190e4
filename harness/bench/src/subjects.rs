//! What is measured: our sheet call, and the crate's reading alone.

use harness::calls::Walk;
use harness::event::Event as CrateEvent;
use harness::run;
use poolsheet::{Event, SheetSlots};
use std::hint::black_box;

/// Slots of each kind that suffice for any sheet of a size: no byte gives more than five results.
const PER_BYTE: usize = 6;

/// Our slots for a sheet.
pub struct Lent {
    raw: Vec<Event>,
    results: Vec<Event>,
    alignments: Vec<u8>,
}

impl Lent {
    /// So many of each kind.
    pub fn new(raw: usize, results: usize, alignments: usize) -> Lent {
        let blank = Event::default();
        Lent { raw: vec![blank; raw], results: vec![blank; results], alignments: vec![0; alignments] }
    }

    /// Enough for any sheet of a size.
    pub fn plenty(size: usize) -> Lent {
        let slots = PER_BYTE * size + 64;
        Lent::new(slots, slots, slots)
    }

    /// As many as the counts of an accepted sheet say, and a part more: 4 is a quarter, 0 none.
    pub fn exactly(counts: [usize; 4], part: usize) -> Lent {
        let [raw, results, alignments] =
            [counts[1], counts[2], counts[3]].map(|count| count + count.checked_div(part).unwrap_or(0));
        Lent::new(raw, results, alignments)
    }

    /// Our sheet call: its number and counts. The slots hold what an earlier call left.
    pub fn read(&mut self, sheet: &[u8]) -> (u8, [usize; 4]) {
        let mut counts = [0; 4];
        let mut slots = SheetSlots { raw: &mut self.raw, results: &mut self.results, alignments: &mut self.alignments };
        let number = poolsheet::sheet(sheet, true, &mut slots, &mut counts);
        (number, counts)
    }
}

/// The counts of a sheet: tables, raw events, results, alignments.
pub fn counts_of(sheet: &[u8]) -> [usize; 4] {
    let (number, counts) = Lent::plenty(sheet.len()).read(sheet);
    assert_eq!(number, 0, "a sheet is refused");
    counts
}

/// The crate's reading alone, on lines found before: the number of raw events.
pub fn crate_reads(walk: &Walk) -> usize {
    let tables = black_box(walk).raw_tables(true);
    black_box(&tables).iter().map(Vec::len).sum()
}

/// The crate's whole work: reading, resolving, alignments. The number of alignments.
pub fn crate_does_all(walk: &Walk) -> usize {
    let raw: Vec<CrateEvent> = black_box(walk).raw_tables(true).into_iter().flatten().collect();
    let results = run::resolve_events(raw);
    black_box(run::all_alignments(&results)).len()
}
