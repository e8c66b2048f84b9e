//! The measuring: so many calls in a run, the median of several runs, and the table of them.

use quic_version::Refusal;
use std::fmt::Debug;
use std::process::exit;
use std::time::Instant;

const RUNS: usize = 101;
/// The least time of one run, in nanoseconds: short, so that a busy machine spoils few runs.
const RUN: f64 = 200_000.0;

/// The same value, in a way that the compiler cannot see through.
pub fn opaque<T: Copy>(value: T) -> T {
    // SAFETY: a reference is valid to read.
    unsafe { std::ptr::read_volatile(&value) }
}

/// A loop of so many calls whose inputs and answers the compiler cannot see through. Every input is
/// to be `opaque`, so that no function is compiled for the inputs of this program alone.
macro_rules! calls {
    ($call:expr) => {
        |calls: u64| {
            for _ in 0..calls {
                let _ = $crate::measure::opaque($call);
            }
        }
    };
}
pub(crate) use calls;

/// The one answer that library and plain Rust give.
pub fn same<T>(library: Result<T, Refusal>, plain: Result<T, u8>) -> Result<T, u8>
where
    T: PartialEq + Debug,
{
    assert_eq!(library.map_err(Refusal::number), plain);
    plain
}

/// A value that begins a part of memory, so that no copy of it crosses from one page to the next.
#[derive(Clone)]
#[repr(align(512))]
pub struct Part<T>(pub T);

/// Nanoseconds for one call, over `calls` calls.
pub fn time(calls: u64, work: &mut dyn FnMut(u64)) -> f64 {
    let begin = Instant::now();
    work(calls);
    begin.elapsed().as_nanos() as f64 / calls as f64
}

/// So many frames go once through a page of the stack.
pub const FRAMES: usize = 32;

/// Does the work that many frames deeper. A record that crosses from one page of memory to the next
/// is slow to copy; so few runs meet that, and the median leaves them out.
#[inline(never)]
pub fn deeper(frames: usize, work: &mut dyn FnMut()) {
    let frame = [0_u64; 16];
    if frames == 0 {
        work();
    } else {
        deeper(frames - 1, work);
    }
    opaque(frame);
}

pub fn median(mut times: Vec<f64>) -> f64 {
    times.sort_by(f64::total_cmp);
    times[times.len() / 2]
}

/// The table that is printed, row by row.
pub struct Table {
    only: Option<String>,
    rows: usize,
}

impl Table {
    /// Prints the head. Of the rows to come, only those are measured whose name contains `only`.
    pub fn begin(only: Option<String>) -> Table {
        println!("| call | library, ns | plain Rust, ns | ratio |");
        println!("|---|---:|---:|---:|");
        Table { only, rows: 0 }
    }

    /// Whether a row of this name is asked for. It then counts as one of the table.
    pub fn takes(&mut self, name: &str) -> bool {
        if matches!(&self.only, Some(text) if !name.contains(&text[..])) {
            return false;
        }
        self.rows += 1;
        true
    }

    /// Measures and prints one row, if it is asked for, and answers the ratio. Each closure makes so
    /// many calls.
    pub fn row(
        &mut self,
        name: &str,
        mut library: impl FnMut(u64),
        mut plain: impl FnMut(u64),
    ) -> Option<f64> {
        if !self.takes(name) {
            return None;
        }
        // Twice the calls until the quickest of three runs of plain Rust is long enough.
        let mut calls = 1;
        while (0..3).any(|_| time(calls, &mut plain) * (calls as f64) < RUN) {
            calls *= 2;
        }
        let (mut ours, mut theirs) = (Vec::new(), Vec::new());
        for run in 0..RUNS {
            deeper(run % FRAMES, &mut || {
                ours.push(time(calls, &mut library));
                theirs.push(time(calls, &mut plain));
            });
        }
        let (ours, theirs) = (median(ours), median(theirs));
        println!(
            "| {} | {} | {} | {:.2} |",
            name,
            nanoseconds(ours),
            nanoseconds(theirs),
            ours / theirs
        );
        Some(ours / theirs)
    }

    /// A table without rows is an error of the caller's text.
    pub fn end(self) {
        if self.rows == 0 {
            eprintln!("benchmark: no row has that text in its name");
            exit(2);
        }
    }
}

fn nanoseconds(time: f64) -> String {
    if time < 1_000.0 {
        format!("{:.1}", time)
    } else {
        format!("{:.0}", time)
    }
}

/// A number below a million, as 16,382.
pub fn grouped(number: usize) -> String {
    if number < 1_000 {
        number.to_string()
    } else {
        format!("{},{:03}", number / 1_000, number % 1_000)
    }
}
