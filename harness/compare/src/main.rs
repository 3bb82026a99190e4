//! Compares every answer of our reader with the harness's, which are document 01's questions and the crate's readings.
//!
//!     compare [--minutes M] [--seed S] [--random-only]
//!
//! First the listed differences, then every short input, then random ones for M minutes (default 2).

mod asks;
mod case;
mod exhaustive;
mod expected;
mod listed;
mod lists;
mod many;
mod ours;
mod sheets;
mod tally;

use case::Case;
use exhaustive::Part;
use harness::bom::{unmarked, Unmarked};
use harness::kept::{self, random::Random};
use harness::kinds;
use harness::lines::lines;
use poolsheet::HeadFlags;
use std::process::ExitCode;
use std::time::{Duration, Instant};
use tally::Tally;

const THREADS: usize = 2;

/// Edits that are some dozens, or many.
const FEW: usize = 64;
const MANY: usize = 2_000;

/// What the command line asks for.
struct Asked {
    minutes: f64,
    seed: u64,
    random_only: bool,
}

fn asked() -> Option<Asked> {
    let mut asked = Asked { minutes: 2.0, seed: 1, random_only: false };
    let mut words = std::env::args().skip(1);
    while let Some(word) = words.next() {
        match word.as_str() {
            "--minutes" => asked.minutes = words.next()?.parse().ok()?,
            "--seed" => asked.seed = words.next()?.parse().ok()?,
            "--random-only" => asked.random_only = true,
            _ => return None,
        }
    }
    Some(asked)
}

/// Runs the work in each thread, and counts together what they compared.
fn in_threads(name: &str, total: &mut Tally, work: impl Fn(&mut Tally, Part) + Sync) {
    let start = Instant::now();
    let before = total.compared;
    let run = |mine| {
        let mut tally = Tally::default();
        work(&mut tally, Part { mine, of: THREADS });
        tally
    };
    std::thread::scope(|scope| {
        let run = &run;
        let threads: Vec<_> = (0..THREADS).map(|mine| scope.spawn(move || run(mine))).collect();
        for thread in threads {
            total.add(thread.join().expect("a thread ends"));
        }
    });
    let (compared, seconds) = (total.compared - before, start.elapsed().as_secs());
    eprintln!("{name}: {compared} compared in {seconds} s, {} differ so far", total.differ);
}

/// Every short input of each kind.
fn compare_exhaustively(total: &mut Tally) {
    type Work = fn(&mut Tally, usize, Part);
    in_threads("tables of kinds, one or two entries changed", total, exhaustive::changed_kinds);
    in_threads("heads by the crate's count", total, exhaustive::counted_heads);
    in_threads("edit, many edits in each order", total, |tally, part| {
        (2..=FEW).chain([MANY]).for_each(|count| many::each_order(tally, count, part));
    });
    let inputs: [(&str, usize, Work); 12] = [
        ("resolve, records,", 4, exhaustive::resolve_records),
        ("resolve, pieces a row,", 7, exhaustive::resolve_tables),
        ("align, records,", 7, exhaustive::align_records),
        ("edit, edits,", 3, exhaustive::edits),
        ("edit, edits in any order,", 8, exhaustive::edit_orders),
        ("all shapes, 65,536 bytes and", 1, exhaustive::longest_sheets),
        ("heads and rows, bytes,", 6, exhaustive::heads_and_rows),
        ("heads and rows, parts with marks,", 4, exhaustive::marked_lines),
        ("sheets with kinds, bytes,", 6, exhaustive::kinds),
        ("sheets, parts with marks,", 6, exhaustive::marks),
        ("sheets, parts with remarks,", 8, exhaustive::remarks),
        ("sheets, bytes,", 8, exhaustive::sheets),
    ];
    for (name, longest, work) in inputs {
        for length in 0..=longest {
            in_threads(&format!("{name} {length}"), total, |tally, part| work(tally, length, part));
        }
    }
}

/// Random inputs until the time is over.
fn compare_at_random(total: &mut Tally, seed: u64, minutes: f64) {
    let end = Instant::now() + Duration::from_secs_f64(60.0 * minutes);
    let mut round = 0;
    while Instant::now() < end {
        let slice = (Instant::now() + Duration::from_secs(20)).min(end);
        in_threads(&format!("random, round {round}"), total, |tally, part| {
            let mut random = Random::new(seed << 32 | round << 8 | part.mine as u64);
            while Instant::now() < slice {
                random_case(tally, &mut random);
            }
        });
        round += 1;
    }
}

fn random_case(tally: &mut Tally, random: &mut Random) {
    match random.below(13) {
        0..=3 => random_sheet(tally, random),
        4 | 5 => random_lines(tally, random),
        6 => asks::resolve(tally, &lists::to_resolve(random)),
        7 => {
            let (list, index) = lists::to_align(random);
            asks::align(tally, &list, index);
        }
        8 | 9 => random_sheet_with(tally, random),
        10 => random_kinds(tally, random),
        _ => {
            let lists::ToEdit { list, edits, pool } = random_edits(random);
            asks::edit(tally, &list, &edits, &pool);
        }
    }
}

/// Edits of any kind, dozens that mostly fit, or at times thousands.
fn random_edits(random: &mut Random) -> lists::ToEdit {
    let most = match random.below(2_000) {
        0 => 2 * MANY,
        1..600 => FEW,
        _ => return lists::to_edit(random),
    };
    let count = 2 + random.below(most as u64) as usize;
    many::any(random, count)
}

fn random_sheet(tally: &mut Tally, random: &mut Random) {
    let sheet = sheets::any(random);
    let long = (sheet.len() > 500).then(|| random.below(8) as usize);
    asks::sheet(tally, &sheet, random.percent(60), long);
}

/// A sheet with a table of kinds that passes: mostly in the table's own bytes.
fn random_sheet_with(tally: &mut Tally, random: &mut Random) {
    let (kinds, sheet) = (kept::kinds::passing(random), sheets::any(random));
    let sheet = if random.percent(80) { kinds::written(&sheet, &kinds) } else { sheet };
    let long = (sheet.len() > 500).then(|| random.below(8) as usize);
    asks::sheet_with(tally, &kinds, &sheet, random.percent(60), long);
}

/// A sheet with a table of kinds that mostly does not pass, and any slots.
fn random_kinds(tally: &mut Tally, random: &mut Random) {
    let (kinds, sheet) = (kept::kinds::any(random), sheets::any(random));
    let slots = [40, 60, 5].map(|limit| random.below(limit) as usize);
    tally.ask(&Case::Kinds { kinds: &kinds, sheet: &sheet, code_indented: random.percent(60), slots });
}

/// Heads and rows at some line starts of a sheet, at one of the first offsets, and at some other.
fn random_lines(tally: &mut Tally, random: &mut Random) {
    let sheet = sheets::any(random);
    let Unmarked { text, before } = unmarked(&sheet);
    let starts: Vec<usize> = lines(text).iter().map(|line| before + line.start).collect();
    let other = match random.below(3) {
        0 => usize::MAX - random.below(3) as usize,
        _ => random.below(sheet.len() as u64 + 3) as usize,
    };
    let offsets = [*random.pick(&starts), *random.pick(&starts), starts[0], random.below(5) as usize, other];
    for offset in offsets {
        let [code_indented, lazy, pierced] = [60, 5, 5].map(|yes| random.percent(yes));
        asks::head(tally, &sheet, offset, HeadFlags { code_indented, lazy, pierced });
        asks::row(tally, &sheet, offset, lazy);
    }
}

fn main() -> ExitCode {
    let Some(asked) = asked() else {
        eprintln!("compare [--minutes M] [--seed S] [--random-only]");
        return ExitCode::from(2);
    };
    harness::guard::silence();
    let faults = listed::faults();
    match &faults[..] {
        [] => println!("listed differences: {} as documented", listed::COUNT),
        _ => println!("listed differences: not as documented\n{}", faults.join("\n")),
    }
    let mut total = Tally::default();
    if !asked.random_only {
        compare_exhaustively(&mut total);
    }
    compare_at_random(&mut total, asked.seed, asked.minutes);
    let counted = (0..).zip(total.by_number).filter(|(_, count)| *count > 0);
    let numbers: Vec<String> = counted.map(|(number, count)| format!("{number}: {count}")).collect();
    eprintln!("answers by number: {}", numbers.join(", "));
    if let Some(smallest) = total.smallest() {
        println!("smallest difference\n{smallest}");
    }
    println!("{} compared, {} differ", total.compared, total.differ);
    if total.differ == 0 {
        ExitCode::SUCCESS
    } else {
        ExitCode::FAILURE
    }
}
