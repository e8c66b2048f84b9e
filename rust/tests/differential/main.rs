//! The library against the model of documents 01 and 02: seeded inputs, whole ranges and edges.
//!
//! `cargo test --release` makes some ten million comparisons. QUIC_VERSION_SEED (a number) gives
//! other inputs, QUIC_VERSION_ROUNDS (a number) more or fewer of them.
//!
//! Every `check_` function compares one call: the answer, every lent place and every byte of the
//! buffer, twice, with different values in them before the call. It answers the number that was
//! seen, or what differs. A failing case is printed as such a call, to paste into a test of edges/.

mod any_record;
mod checks;
mod edges;
#[path = "../model/mod.rs"]
mod model;
mod parameters;
#[path = "../random/mod.rs"]
mod random;
#[allow(dead_code)]
#[path = "../../src/ffi.rs"]
mod raw;
mod screening;
mod seeded;
mod seen;

use quic_version::{Pair, Reserved};
use seen::Seen;
use std::env;
use std::io::Write;
use std::sync::atomic::{AtomicUsize, Ordering};
use std::thread;

const DEFAULT_SEED: u64 = 9368;
const DEFAULT_ROUNDS: usize = 256_000;

/// The inputs are drawn in this many streams, whatever the number of threads: a seed gives the same
/// inputs on every machine.
const STREAMS: usize = 64;

/// What the comparisons of a stream have found, to be joined with what others have.
trait Found: Default + Send {
    fn join(&mut self, other: Self);
}

/// So many rounds over all streams, on all threads. `one` makes those of a stream: it is told which,
/// and how many.
fn all_streams<F: Found>(rounds: usize, one: impl Fn(&mut F, usize, usize) + Sync) -> F {
    let next = AtomicUsize::new(0);
    let workers = thread::available_parallelism().map_or(1, usize::from);
    let mut found = F::default();
    thread::scope(|scope| {
        let work = || {
            let mut found = F::default();
            loop {
                let stream = next.fetch_add(1, Ordering::Relaxed);
                if stream >= STREAMS {
                    return found;
                }
                let rounds = rounds / STREAMS + usize::from(stream < rounds % STREAMS);
                one(&mut found, stream, rounds);
            }
        };
        let running: Vec<_> = (0..workers).map(|_| scope.spawn(work)).collect();
        for worker in running {
            match worker.join() {
                Ok(more) => found.join(more),
                Err(difference) => std::panic::resume_unwind(difference),
            }
        }
    });
    found
}

#[test]
fn library_and_model_agree() {
    let seed = number_of("QUIC_VERSION_SEED", DEFAULT_SEED);
    let rounds = number_of("QUIC_VERSION_ROUNDS", DEFAULT_ROUNDS as u64) as usize;
    let seen: Seen = all_streams(rounds, |seen, stream, rounds| {
        seeded::one_stream(seen, seed, stream, rounds);
    });
    say(&format!(
        "{}  seed {}, rounds {}\n\n",
        seen.table(),
        seed,
        rounds
    ));
    let never = seen.never();
    assert!(never.is_empty(), "never seen: {:?}", never);
    let otherwise = seen.otherwise();
    assert!(otherwise.is_empty(), "seen otherwise: {:?}", otherwise);
    assert!(rounds < DEFAULT_ROUNDS || seen.cases() >= 1_000_000);
}

/// Prints past the test harness, which keeps what a passing test prints.
fn say(text: &str) {
    std::io::stdout().write_all(text.as_bytes()).unwrap();
}

fn number_of(variable: &str, otherwise: u64) -> u64 {
    match env::var(variable) {
        Ok(text) => text
            .parse()
            .unwrap_or_else(|_| panic!("{} is no number: {}", variable, text)),
        Err(_) => otherwise,
    }
}
