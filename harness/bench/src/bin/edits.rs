//! Measures our edit call with many edits, in several orders of their positions, accepted and refused; prints a Markdown table.
//!
//!     edits [--up-to EDITS] [--only ORDER]
//!
//! Each answer is checked.

use bench::edits::{Call, Outcome, ORDERS, OUTCOMES};
use bench::measure::thread_time;
use bench::report::{heading, line};
use harness::orders::Order;
use std::process::ExitCode;

/// The numbers of edits measured.
const COUNTS: [usize; 4] = [1_000, 4_000, 16_000, 64_000];
/// The runs are as many as take so long together, in milliseconds, but no more than so many.
const LONG: f64 = 500.0;
const RUNS: usize = 50;

/// What the command line asks for.
#[derive(Default)]
struct Asked {
    up_to: Option<usize>,
    only: Option<String>,
}

fn asked() -> Option<Asked> {
    let mut asked = Asked::default();
    let mut words = std::env::args().skip(1);
    while let Some(word) = words.next() {
        let value = words.next()?;
        match word.as_str() {
            "--up-to" => asked.up_to = Some(value.parse().ok()?),
            "--only" => asked.only = Some(value),
            _ => return None,
        }
    }
    Some(asked)
}

/// The least time of a call over several runs, in milliseconds.
fn measured(order: &Order, outcome: Outcome, count: usize) -> f64 {
    let mut call = Call::new(order, outcome, count);
    let (mut least, mut sum) = (f64::INFINITY, 0.0);
    for _ in 0..RUNS {
        call.prepare();
        let start = thread_time();
        let number = call.ask();
        let time = (thread_time() - start) / 1e6;
        call.check(number);
        least = least.min(time);
        sum += time;
        if sum > LONG {
            break;
        }
    }
    least
}

/// A number with a comma before each group of three digits.
fn grouped(number: usize) -> String {
    match number {
        0..1_000 => number.to_string(),
        _ => format!("{},{:03}", grouped(number / 1_000), number % 1_000),
    }
}

fn main() -> ExitCode {
    let Some(asked) = asked() else {
        eprintln!("edits [--up-to EDITS] [--only ORDER]");
        return ExitCode::from(2);
    };
    let counts: Vec<usize> =
        COUNTS.into_iter().filter(|count| asked.up_to.is_none_or(|largest| *count <= largest)).collect();
    let mut names = vec!["order".to_string(), "answer".to_string()];
    names.extend(counts.iter().map(|&count| format!("{} edits", grouped(count))));
    print!("{}", heading(&names, 2));
    for order in ORDERS.iter().filter(|order| asked.only.as_ref().is_none_or(|only| only == order.name)) {
        for outcome in OUTCOMES {
            let mut cells = vec![order.name.to_string(), outcome.name().to_string()];
            cells.extend(counts.iter().map(|&count| format!("{:.3}", measured(order, outcome, count))));
            print!("{}", line(&cells));
        }
    }
    ExitCode::SUCCESS
}
