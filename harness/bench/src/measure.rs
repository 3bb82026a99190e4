//! Times functions, in turn, so that a busy moment of the machine falls on all of them. What counts is the
//! processor's time for this thread: while another program has the processor, it stands still.

use std::ffi::{c_int, c_long};

/// The C library's time: seconds and nanoseconds.
#[repr(C)]
struct Time {
    seconds: c_long,
    nanoseconds: c_long,
}

/// Linux's number for the clock of a thread's processor time.
const THREAD_CLOCK: c_int = 3;

extern "C" {
    fn clock_gettime(clock: c_int, time: *mut Time) -> c_int;
}

/// The processor's time for this thread so far, in nanoseconds.
pub fn thread_time() -> f64 {
    let mut time = Time { seconds: 0, nanoseconds: 0 };
    // SAFETY: the call fills in the time that it is lent.
    let result = unsafe { clock_gettime(THREAD_CLOCK, &mut time) };
    assert_eq!(result, 0, "there is a clock for threads");
    time.seconds as f64 * 1e9 + time.nanoseconds as f64
}

/// A run repeats the function until it takes this long, in nanoseconds.
const RUN: f64 = 2_000_000.0;
/// The number of runs; fewer where one call takes long.
const RUNS: usize = 21;
const FEW_RUNS: usize = 5;
const LONG: f64 = 50_000_000.0;

/// Nanoseconds a call.
#[derive(Clone, Copy, Debug)]
pub struct Figures {
    pub least: f64,
    pub median: f64,
}

impl Figures {
    /// The same for each of so many bytes.
    pub fn each(self, bytes: usize) -> Figures {
        Figures { least: self.least / bytes as f64, median: self.median / bytes as f64 }
    }
}

/// Nanoseconds a call, over so many calls.
fn timed(subject: &mut dyn FnMut(), repeats: usize) -> f64 {
    let start = thread_time();
    for _ in 0..repeats {
        subject();
    }
    (thread_time() - start) / repeats as f64
}

/// How often a function is called in a run, after a call to warm up.
fn repeats_of(subject: &mut dyn FnMut()) -> usize {
    timed(subject, 1);
    (RUN / timed(subject, 1).max(1.0)).ceil().max(1.0) as usize
}

fn figures(mut times: Vec<f64>) -> Figures {
    times.sort_by(f64::total_cmp);
    Figures { least: times[0], median: times[times.len() / 2] }
}

/// The figures of each function. Their runs take turns.
pub fn in_turn<const N: usize>(mut subjects: [&mut dyn FnMut(); N]) -> [Figures; N] {
    let mut repeats = [0; N];
    let mut longest: f64 = 0.0;
    for (place, subject) in subjects.iter_mut().enumerate() {
        repeats[place] = repeats_of(subject);
        longest = longest.max(timed(subject, 1));
    }
    let mut times = [const { vec![] }; N];
    for _ in 0..if longest > LONG { FEW_RUNS } else { RUNS } {
        for (place, subject) in subjects.iter_mut().enumerate() {
            times[place].push(timed(subject, repeats[place]));
        }
    }
    times.map(figures)
}

/// The exponent of the growth: the slope of the line through the logarithms of size and time, by least squares.
pub fn exponent(points: &[(usize, f64)]) -> f64 {
    let logs: Vec<(f64, f64)> = points.iter().map(|&(size, time)| ((size as f64).ln(), time.ln())).collect();
    let count = logs.len() as f64;
    let mean_x = logs.iter().map(|(x, _)| x).sum::<f64>() / count;
    let mean_y = logs.iter().map(|(_, y)| y).sum::<f64>() / count;
    let above: f64 = logs.iter().map(|(x, y)| (x - mean_x) * (y - mean_y)).sum();
    let below: f64 = logs.iter().map(|(x, _)| (x - mean_x).powi(2)).sum();
    above / below
}
