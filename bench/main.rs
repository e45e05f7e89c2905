//! Times this library's `CompactString` beside the `String` of Rust, that of the standard library of Rattle (the kit),
//! and, with the feature `peer`, the `CompactString` of the Rust crate. `run.sh` builds and runs it.
//!
//! Each call is timed on texts of the kinds that `table.rs` gives it, of four lengths, and then the workloads. In a turn
//! the types follow one another on the same inputs, and their checksums must agree, else the status is 1. A time is the
//! thread's processor time of `n` operations less that of none, by `n`: the median of the turns.
//!
//! The environment: `BENCH_TURNS`, another number of turns; `BENCH_ONLY`, the only calls and workloads to run, by
//! name, as `'push drain utf16'`, where `push/ascii/20` picks a row; `BENCH_TO` and `BENCH_PICTURE`, the files for the
//! figures as text and as a picture, which are not written with fewer rows or turns; `BENCH_TOLD`, the time and place
//! in these files. With the arguments `once NAME TYPE COUNT` it only runs operations, for a profiler.

mod chart;
mod inputs;
mod intern;
mod report;
mod table;
mod types;

use std::env;
use std::fs;
use std::hint::black_box;
use std::process::ExitCode;
use table::{KIT, OURS, Row, Run, all_rows};

/// How often each row is timed for each type.
const TURNS: usize = 11;

/// The processor time of one measurement, in nanoseconds, from which the number of operations is found.
const SPAN: f64 = 4e6;

#[repr(C)]
struct Timespec {
    seconds: i64,
    nanoseconds: i64,
}

unsafe extern "C" {
    fn clock_gettime(clock: i32, time: *mut Timespec) -> i32;
}

/// The processor time of this thread, in nanoseconds. On Linux its clock has the number 3.
fn spent() -> f64 {
    let mut time = Timespec {
        seconds: 0,
        nanoseconds: 0,
    };
    unsafe { clock_gettime(3, &mut time) };
    time.seconds as f64 * 1e9 + time.nanoseconds as f64
}

/// The time of `n` operations less that of none, this time, and the checksum.
fn timed(run: &Run, n: u64) -> (f64, f64, u64) {
    let begun = spent();
    black_box(run(black_box(0)));
    let idle = spent() - begun;
    let sum = run(black_box(n));
    (spent() - begun - 2.0 * idle, idle, sum)
}

/// A number of operations that takes about `SPAN`, and far more than making the inputs.
fn operations(run: &Run) -> u64 {
    let mut n = 1;
    loop {
        let ((one, idle, _), (other, _, _)) = (timed(run, n), timed(run, n));
        let time = one.min(other);
        if time > SPAN / 8.0 && time > 2.0 * idle {
            return (n as f64 * SPAN.max(4.0 * idle) / time) as u64 + 1;
        }
        n *= 4;
    }
}

/// What was measured of a row: for each type the nanoseconds for one operation.
pub struct Measured {
    pub call: &'static str,
    pub input: String,
    pub times: [Option<f64>; 4],
    pub agrees: bool,
}

impl Measured {
    fn of(row: &Row, turns: usize) -> Self {
        let n = row.runs.iter().flatten().next().map_or(1, operations);
        let mut times = [const { Vec::new() }; 4];
        let mut sums = Vec::new();
        let mut kept = Vec::new();
        for turn in 0..=turns {
            // This takes the place of earlier texts, so that those of this turn are elsewhere: the time of a long move
            // depends on whether the text crosses a page.
            kept.extend((0..3).map(|_| black_box(vec![0u8; 1000])));
            for (times, run) in times.iter_mut().zip(&row.runs) {
                if let Some(run) = run {
                    let (time, _, sum) = timed(run, n);
                    sums.push(sum);
                    // The first turn only warms up.
                    if turn > 0 {
                        times.push(time / n as f64);
                    }
                }
            }
        }
        Measured {
            call: row.call,
            input: row.input.clone(),
            times: times.map(median),
            agrees: sums.iter().all(|sum| *sum == sums[0] && *sum != u64::MAX),
        }
    }

    /// This library's time relative to that of a type.
    pub fn ratio(&self, place: usize) -> Option<f64> {
        Some(self.times[OURS]? / self.times[place]?)
    }

    /// This library's time relative to that of the better of Rust's types.
    pub fn to_best(&self) -> f64 {
        let ratios = (0..KIT).filter_map(|place| self.ratio(place));
        ratios.fold(0.0, f64::max)
    }
}

fn median(mut times: Vec<f64>) -> Option<f64> {
    times.sort_by(f64::total_cmp);
    times.get(times.len() / 2).copied()
}

/// Returns `true` if the row is selected.
fn is_wanted(row: &Row) -> bool {
    let Ok(names) = env::var("BENCH_ONLY") else {
        return true;
    };
    let name = row.name();
    let mut wanted = names.split_whitespace();
    wanted.any(|wanted| name == wanted || name.starts_with(&format!("{wanted}/")))
}

/// Measures and prints all. Returns `None` if two types differ in a checksum, or on failure.
fn measure() -> Option<()> {
    let turns = env::var("BENCH_TURNS").ok().and_then(|turns| turns.parse().ok());
    let turns: usize = turns.unwrap_or(TURNS).max(1);
    let mut measured = Vec::new();
    for row in all_rows().iter().filter(|row| is_wanted(row)) {
        let row = Measured::of(row, turns);
        eprintln!("{}", report::line(&row));
        measured.push(row);
    }
    let told = env::var("BENCH_TOLD").unwrap_or_default();
    let text = report::text(&measured, &told);
    println!("{text}");
    if turns >= TURNS && env::var("BENCH_ONLY").is_err() {
        if let Ok(file) = env::var("BENCH_TO") {
            fs::write(file, text).ok()?;
        }
        if let Ok(file) = env::var("BENCH_PICTURE") {
            fs::write(file, chart::chart(&measured, &told)).ok()?;
        }
    }
    measured.iter().all(|row| row.agrees).then_some(())
}

/// Runs operations of a row for one type. Returns `None` if there is no such one.
fn run_once(name: &str, place: &str, count: &str) -> Option<()> {
    let row = all_rows().into_iter().find(|row| row.name() == name)?;
    let run = row.runs.get(place.parse::<usize>().ok()?)?.as_ref()?;
    black_box(run(black_box(count.parse().ok()?)));
    Some(())
}

fn main() -> ExitCode {
    let arguments: Vec<String> = env::args().skip(1).collect();
    let arguments: Vec<&str> = arguments.iter().map(String::as_str).collect();
    let done = match arguments.as_slice() {
        ["once", name, place, count] => run_once(name, place, count),
        _ => measure(),
    };
    done.map_or(ExitCode::FAILURE, |()| ExitCode::SUCCESS)
}
