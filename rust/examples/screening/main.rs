//! How long a Version Negotiation packet keeps a client busy (C-16): the whole event of the library,
//! through this crate and through `qv_event`, beside a plain Rust program that does the same
//! screening by loops over table and list; printed as tables in Markdown.
//!
//!     cargo run --release --example screening
//!     cargo run --release --example screening -- --quick
//!     cargo run --release --example screening -- --svg PATH
//!
//! `--quick` measures fewer rounds, `--svg` writes a picture of the growth too.
//!
//! Each round times every side of a row once, by turns. A time is the median of the rounds, a ratio
//! is the median of the rounds' ratios. The plain program has two forms of its inner loop, and each
//! ratio is to the one that is faster in its row. It reads the datagram, compares both IDs, searches
//! the list for the Original Version and then for each entry of its table. It has no record, where
//! each event here begins with a copy of one. Every row asserts that all sides answer the same.

mod aims;
mod case;
mod growth;
mod hostile;
#[allow(dead_code)]
#[path = "../benchmark/measure.rs"]
mod measure;
// `random` asks for it.
#[allow(unused_imports)]
#[path = "../../tests/model/mod.rs"]
mod model;
mod picture;
mod plain;
#[path = "../../tests/random/mod.rs"]
mod random;
#[allow(dead_code)]
#[path = "../../src/ffi.rs"]
mod raw;
mod shapes;
mod short;
mod tables;
mod text;
mod turns;

use growth::Growth;
use quic_version::{Pair, Reserved};
use random::Random;
use std::env;
use std::process::exit;
use tables::Table;

const SEED: u64 = 9368;
const ROUNDS: usize = 31;
const QUICK_ROUNDS: usize = 9;

struct Options {
    rounds: usize,
    svg: Option<String>,
}

fn main() {
    let Options { rounds, svg } = options();
    let random = &mut Random::new(SEED);
    let (table, regular) = (Table::random(random), Table::regular(random));
    let clashing = Table::clashing(random);

    let mut rows = hostile::rows(&table, random, rounds);
    rows.extend(hostile::rows(&regular, random, rounds));
    let clashing_rows = hostile::rows(&clashing, random, rounds);
    hostile::references(&table, rounds);
    let growth = Growth::measure(&table, &clashing, rounds);
    let short = short::rows(&table, rounds);
    let original_first = short::original_at_first_place(&table, rounds);

    aims::print(&rows, &clashing_rows, &original_first, &short);
    if let Some(path) = svg {
        if let Err(error) = picture::write(&path, &growth) {
            eprintln!("screening: {}: {}", path, error);
            exit(1);
        }
    }
}

fn options() -> Options {
    let mut options = Options {
        rounds: ROUNDS,
        svg: None,
    };
    let mut arguments = env::args().skip(1);
    while let Some(argument) = arguments.next() {
        match (&argument[..], arguments.len()) {
            ("--quick", _) => options.rounds = QUICK_ROUNDS,
            ("--svg", 1..) => options.svg = arguments.next(),
            _ => {
                eprintln!("screening: no option, --quick, --svg PATH, or both");
                exit(2)
            }
        }
    }
    options
}
