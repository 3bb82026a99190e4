//! Reads the worst sheets of 65,536 bytes through our six calls and makes 64,000 edits, all slots on the heap, and tells
//! the stack they take.
//!
//!     stack [--thread KILOBYTES]
//!
//! Each shape is first read in the main thread, whose stack `ulimit -s` bounds, then once more in a thread whose stack
//! was filled with a mark before the call. So are the edits made, and so are all short patterns read over and over, to find
//! a deeper one. With `--thread` the shapes are only read and the edits only made, in a thread with a stack of that size.

use bench::edits::{Call as EditCall, Outcome, OUTCOMES};
use harness::orders::{Order, FALLING, RANDOM};
use harness::shapes::{self, Shape};
use poolsheet::{Event, HeadFlags, SheetSlots};
use std::process::ExitCode;
use std::thread;

const SIZE: usize = 65_536;
/// The stack of the thread that is measured, and how much of it is filled with the mark.
const STACK: usize = 256 << 10;
const MARKED: usize = 192 << 10;
/// The bytes right below a call that are left alone.
const MARGIN: usize = 512;
const MARK: u64 = 0xa5a5_5a5a_a5a5_5a5a;
/// The bytes of the patterns, their greatest length, and the size of their sheets.
const BYTES: &[u8; 8] = b"a|\\ \t-:\n";
const LONGEST: u32 = 3;
const PATTERN_SIZE: usize = 8_192;
/// The edits of the edit call on a shape's events.
const EDITS: usize = 2_000;
/// The edits that are made in these orders, accepted and refused.
const MANY: usize = 64_000;
const ORDERS: [Order; 2] = [FALLING, RANDOM];

/// Slots of each kind, and a sheet's own events as lists for the other calls.
struct Lent {
    sheet: Vec<u8>,
    raw: Vec<Event>,
    results: Vec<Event>,
    alignments: Vec<u8>,
    more: Vec<Event>,
    edits: Vec<[usize; 5]>,
    counts: [usize; 4],
}

impl Lent {
    /// Slots that suffice for any sheet of this size.
    fn new(sheet: Vec<u8>) -> Lent {
        let slots = 5 * sheet.len() + 8;
        let blank = Event::default();
        Lent {
            sheet,
            raw: vec![blank; slots],
            results: vec![blank; slots],
            alignments: vec![0; slots],
            more: vec![blank; slots],
            edits: vec![[0; 5]; EDITS],
            counts: [0; 4],
        }
    }

    fn read_sheet(&mut self) -> u8 {
        let mut slots = SheetSlots { raw: &mut self.raw, results: &mut self.results, alignments: &mut self.alignments };
        poolsheet::sheet(&self.sheet, true, &mut slots, &mut self.counts)
    }

    fn read_head(&mut self) -> u8 {
        let flags = HeadFlags { code_indented: true, ..HeadFlags::default() };
        poolsheet::head(&self.sheet, 0, flags, &mut self.more, &mut [0; 3])
    }

    fn read_row(&mut self) -> u8 {
        poolsheet::row(&self.sheet, 0, false, &mut self.more, &mut [0; 2])
    }

    fn resolve(&mut self) -> u8 {
        poolsheet::resolve(&self.raw[..self.counts[1]], &mut self.more, &mut [0])
    }

    /// Each edit replaces a record by another, the last first.
    fn edit(&mut self) -> u8 {
        for (place, edit) in self.edits.iter_mut().enumerate() {
            *edit = [EDITS - 1 - place, 1, place, 1, 0];
        }
        poolsheet::edit(&self.raw[..EDITS], &mut self.edits, &self.results[..EDITS], &mut self.more, &mut [0])
    }

    fn align(&mut self) -> u8 {
        poolsheet::align(&self.results[..self.counts[2]], 0, &mut self.alignments, &mut [0])
    }
}

/// The calls, the sheet call first: the others read what it leaves.
type Call = (&'static str, fn(&mut Lent) -> u8);
const CALLS: [Call; 6] = [
    ("sheet", Lent::read_sheet),
    ("head", Lent::read_head),
    ("row", Lent::read_row),
    ("resolve", Lent::resolve),
    ("edit", Lent::edit),
    ("align", Lent::align),
];

/// The number of bytes of stack below here that the call touches.
#[inline(never)]
fn depth_of<T>(call: fn(&mut T) -> u8, lent: &mut T) -> usize {
    let mut here = [0u64; 1];
    let top = here.as_mut_ptr().wrapping_byte_sub(MARGIN);
    let bottom = top.wrapping_byte_sub(MARKED);
    let words = MARKED / size_of::<u64>();
    // SAFETY: these words lie in the unused part of this thread's stack, which has STACK bytes; no frame is there.
    unsafe { (0..words).for_each(|place| bottom.add(place).write_volatile(MARK)) };
    call(lent);
    // SAFETY: as above; frames that were there are gone.
    let untouched = (0..words).take_while(|&place| unsafe { bottom.add(place).read_volatile() } == MARK).count();
    MARGIN + MARKED - untouched * size_of::<u64>()
}

/// Runs a function in a thread with a stack of a size.
fn in_thread<T: Send + 'static>(stack: usize, run: impl FnOnce() -> T + Send + 'static) -> T {
    thread::Builder::new().stack_size(stack).spawn(run).expect("a thread starts").join().expect("a thread ends")
}

/// The depths of all calls on a shape.
fn depths(shape: &'static Shape) -> [usize; 6] {
    in_thread(STACK, move || {
        let mut lent = Lent::new((shape.make)(SIZE));
        CALLS.map(|(_, call)| depth_of(call, &mut lent))
    })
}

/// The pattern with a number among those of a length.
fn pattern(number: usize, length: u32) -> Vec<u8> {
    (0..length).map(|place| BYTES[number >> (3 * place) & 7]).collect()
}

/// The deepest of the sheet, head and row call on any pattern over and over, alone and as a table's body, and which.
fn deepest_pattern() -> (usize, String) {
    let patterns = (1..=LONGEST).flat_map(|length| (0..8usize.pow(length)).map(move |number| pattern(number, length)));
    let mut deepest = (0, String::new());
    for pattern in patterns {
        for head in [&b""[..], b"a\n:-\n"] {
            let mut lent = Lent::new(head.iter().chain(pattern.iter().cycle()).take(PATTERN_SIZE).copied().collect());
            let depth = CALLS[..3].iter().map(|(_, call)| depth_of(*call, &mut lent)).fold(0, usize::max);
            if depth > deepest.0 {
                deepest = (depth, format!("{:?} behind {:?}", text(&pattern), text(head)));
            }
        }
    }
    deepest
}

fn text(bytes: &[u8]) -> String {
    String::from_utf8_lossy(bytes).into_owned()
}

/// Reads a shape by all calls: the sheet call's number and counts. The edits fit, whatever the sheet.
fn read(shape: &Shape) -> (u8, [usize; 4]) {
    let mut lent = Lent::new((shape.make)(SIZE));
    let [sheet, _, _, _, edit, _] = CALLS.map(|(_, call)| call(&mut lent));
    assert_eq!(edit, 0, "the edits are accepted");
    (sheet, lent.counts)
}

/// Many edits in each order, accepted and refused.
fn many_edits() -> impl Iterator<Item = (&'static Order, Outcome)> {
    ORDERS.iter().flat_map(|order| OUTCOMES.map(|outcome| (order, outcome)))
}

/// Makes many edits in a thread with a stack of a size. The answer is checked outside.
fn make_in(stack: usize, order: &Order, outcome: Outcome) {
    let mut edits = EditCall::new(order, outcome, MANY);
    let (edits, number) = in_thread(stack, move || {
        let number = edits.ask();
        (edits, number)
    });
    edits.check(number);
}

/// Makes many edits in this thread, then in one that is measured: the bytes of stack.
fn depth_of_edits(order: &Order, outcome: Outcome) -> usize {
    let mut edits = EditCall::new(order, outcome, MANY);
    let number = edits.ask();
    edits.check(number);
    edits.prepare();
    in_thread(STACK, move || depth_of(EditCall::ask, &mut edits))
}

/// Tells of each shape; the deepest one's bytes of stack, or nothing if one is refused.
fn tell_shapes() -> Option<usize> {
    let mut deepest = 0;
    for shape in shapes::all() {
        let (number, [tables, raw, results, alignments]) = read(shape);
        let depths = depths(shape);
        let calls: Vec<String> = CALLS.iter().zip(depths).map(|((name, _), depth)| format!("{name} {depth}")).collect();
        let counts = format!("{tables} tables, {raw} raw events, {results} results, {alignments} alignments");
        println!("{}: answer {number}, {counts}; bytes of stack: {}", shape.name, calls.join(", "));
        if number != 0 {
            return None;
        }
        deepest = depths.into_iter().fold(deepest, usize::max);
    }
    Some(deepest)
}

fn main() -> ExitCode {
    let words: Vec<String> = std::env::args().skip(1).collect();
    if let [_, kilobytes] = &words[..] {
        let stack = kilobytes.parse::<usize>().expect("a number of kilobytes") << 10;
        many_edits().for_each(|(order, outcome)| make_in(stack, order, outcome));
        let all_read = shapes::all().all(|shape| in_thread(stack, move || read(shape)).0 == 0);
        return if all_read { ExitCode::SUCCESS } else { ExitCode::FAILURE };
    }
    let Some(deepest) = tell_shapes() else {
        return ExitCode::FAILURE;
    };
    println!("deepest shape: {deepest} bytes of stack");
    for (order, outcome) in many_edits() {
        let depth = depth_of_edits(order, outcome);
        println!("{MANY} edits, {}: answer {}; bytes of stack: edit {depth}", order.name, outcome.number());
    }
    let (depth, pattern) = in_thread(STACK, deepest_pattern);
    println!("deepest pattern: {depth} bytes of stack, {pattern}");
    ExitCode::SUCCESS
}
