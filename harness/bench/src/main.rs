//! Measures our sheet call and the crate's reading alone on sheets of many shapes and sizes; prints Markdown tables.
//!
//!     bench [--only SHAPE] [--size BYTES] [--reps N [--reader ours|crate]]
//!
//! With `--reps` a reader only runs so often on one sheet, for a profiler.

use bench::measure::{in_turn, thread_time};
use bench::report::{self, Measured};
use bench::subjects::{counts_of, crate_does_all, crate_reads, Lent};
use harness::calls::Walk;
use harness::shapes::{self, Shape};
use std::hint::black_box;
use std::process::ExitCode;

/// The sizes measured, in bytes.
const SIZES: [usize; 7] = [1 << 10, 1 << 11, 1 << 12, 1 << 13, 1 << 14, 1 << 15, 1 << 16];

/// What the command line asks for.
#[derive(Default)]
struct Asked {
    only: Option<String>,
    size: Option<usize>,
    reps: Option<usize>,
    reader: Option<String>,
}

fn asked() -> Option<Asked> {
    let mut asked = Asked::default();
    let mut words = std::env::args().skip(1);
    while let Some(word) = words.next() {
        let value = words.next()?;
        match word.as_str() {
            "--only" => asked.only = Some(value),
            "--size" => asked.size = Some(value.parse().ok()?),
            "--reps" => asked.reps = Some(value.parse().ok()?),
            "--reader" => asked.reader = Some(value),
            _ => return None,
        }
    }
    Some(asked)
}

/// Both readers on one sheet, and ours on the typical sheet of the same size.
fn measured(shape: &'static Shape, size: usize) -> Measured {
    let (sheet, usual) = ((shape.make)(size), (shapes::TYPICAL[0].make)(size));
    let counts = counts_of(&sheet);
    let walk = Walk::new(&sheet);
    assert_eq!(crate_reads(&walk), counts[1], "{}, {size}: both readers find as many raw events", shape.name);
    let (mut exact, mut spare) = (Lent::exactly(counts, 0), Lent::exactly(counts, 4));
    let mut beside = Lent::exactly(counts_of(&usual), 0);
    let [reference, ours, more, typical] = in_turn([
        &mut || _ = black_box(crate_reads(&walk)),
        &mut || _ = black_box(exact.read(black_box(&sheet))),
        &mut || _ = black_box(spare.read(black_box(&sheet))),
        &mut || _ = black_box(beside.read(black_box(&usual))),
    ]);
    let typical = typical.each(usual.len());
    let [reference, ours, spare] = [reference, ours, more].map(|figures| figures.each(sheet.len()));
    let reference = walk.has_text().then_some(reference);
    let whole = (shape.name == shapes::TYPICAL[0].name).then(|| {
        let [whole] = in_turn([&mut || _ = black_box(crate_does_all(&walk))]);
        whole.each(sheet.len())
    });
    Measured { shape, size, raw: counts[1], results: counts[2], reference, whole, ours, spare, typical }
}

/// One reader so often on one sheet.
fn repeat(shape: &Shape, size: usize, reps: usize, by_crate: bool) {
    let sheet = (shape.make)(size);
    let walk = Walk::new(&sheet);
    let mut lent = Lent::exactly(counts_of(&sheet), 0);
    let start = thread_time();
    for _ in 0..reps {
        if by_crate {
            black_box(crate_reads(&walk));
        } else {
            black_box(lent.read(black_box(&sheet)));
        }
    }
    let each = (thread_time() - start) / reps as f64 / sheet.len() as f64;
    println!("{} {size} bytes {reps} times: {each:.2} nanoseconds a byte", shape.name);
}

fn ours_least(measured: &Measured) -> Option<f64> {
    Some(measured.ours.least)
}

fn crate_least(measured: &Measured) -> Option<f64> {
    Some(measured.reference?.least)
}

fn crate_whole(measured: &Measured) -> Option<f64> {
    Some(measured.whole?.least)
}

fn print_all(all: &[Measured], sizes: &[usize]) {
    let largest = *sizes.last().expect("a size was measured");
    if sizes.len() > 1 {
        println!("### Summary\n\n{}", report::summary(all));
    }
    println!("### All shapes at {largest} bytes, nanoseconds a byte\n\n{}", report::at_size(all, largest));
    if sizes.len() > 1 {
        println!("### Ours by size, least nanoseconds a byte\n\n{}", report::by_size(all, ours_least));
        let reference = report::by_size(all, crate_least);
        println!("### The crate's reading alone by size, least nanoseconds a byte\n\n{reference}");
        let whole = report::by_size(all, crate_whole);
        println!("### The crate's reading, resolving and alignments by size, least nanoseconds a byte\n\n{whole}");
        print!("### The shapes\n\n{}", report::legend(all));
    }
}

fn main() -> ExitCode {
    let Some(asked) = asked() else {
        eprintln!("bench [--only SHAPE] [--size BYTES] [--reps N [--reader ours|crate]]");
        return ExitCode::from(2);
    };
    let chosen: Vec<_> =
        shapes::all().filter(|shape| asked.only.as_ref().is_none_or(|only| only == shape.name)).collect();
    if let Some(reps) = asked.reps {
        for shape in chosen {
            repeat(shape, asked.size.unwrap_or(1 << 16), reps, asked.reader.as_deref() == Some("crate"));
        }
        return ExitCode::SUCCESS;
    }
    let sizes = asked.size.map_or(SIZES.to_vec(), |size| vec![size]);
    let mut all = vec![];
    for shape in chosen {
        eprintln!("{}", shape.name);
        all.extend(sizes.iter().map(|&size| measured(shape, size)));
    }
    print_all(&all, &sizes);
    ExitCode::SUCCESS
}
