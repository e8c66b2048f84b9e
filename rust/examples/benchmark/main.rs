//! Nanoseconds for each call of the library, beside plain Rust that does the same work, in the same
//! run; printed as a table in Markdown.
//!
//!     cargo run --release --example benchmark
//!     cargo run --release --example benchmark -- --only TEXT
//!
//! The second measures the rows alone whose name contains TEXT.
//!
//! Each number is the median of several runs, library and plain Rust by turns. The plain functions
//! are simple loops and are not inlined into the measuring loop; a call of the library is not
//! either. An event changes the record, so each of its calls begins with a copy of the record; the
//! first row of the events is that copy alone.
//!
//! A second table has hostile transport parameters, beside a pass of plain Rust that only steps over
//! them. Last are the aims of C-11, C-17 and C-18, and whether they were kept.

mod aims;
mod attempts;
mod barring;
mod choices;
mod hostile;
mod measure;
#[allow(dead_code)]
#[path = "../../tests/random/packet.rs"]
mod packet;
mod parameters;
mod plain;
#[allow(dead_code)]
#[path = "../../src/ffi.rs"]
mod raw;
mod reserved;
#[allow(dead_code)]
#[path = "../screening/text.rs"]
mod text;
#[allow(dead_code)]
#[path = "../screening/turns.rs"]
mod turns;
mod versions;
mod wire;
mod words;

use measure::Table;
use quic_version::{Pair, Reserved};
use std::env;
use std::process::exit;

fn main() {
    let mut table = Table::begin(only());
    wire::rows(&mut table);
    attempts::rows(&mut table);
    let reserved = reserved::rows(&mut table);
    choices::rows(&mut table);
    let barring = barring::rows(&mut table);
    words::rows(&mut table);
    versions::rows(&mut table);
    let read_and_written = parameters::rows(&mut table);
    let hostile = hostile::rows(&mut table);
    table.end();
    aims::print(&barring, &reserved, read_and_written, &hostile);
    println!();
    println!(
        "Record: {} bytes.",
        std::mem::size_of::<quic_version::Attempt>()
    );
}

/// The text that a row's name has to contain, if one is asked for.
fn only() -> Option<String> {
    let arguments: Vec<String> = env::args().skip(1).collect();
    match &arguments[..] {
        [] => None,
        [option, text] if option == "--only" => Some(text.clone()),
        _ => {
            eprintln!("benchmark: no option, or --only TEXT");
            exit(2)
        }
    }
}
