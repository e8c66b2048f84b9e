//! The aims of C-11, C-17 and C-18, and what was measured beside each.

use crate::hostile::Worst;
use crate::text::{digits, title};
use crate::{barring, reserved};

/// The highest ratio of a start, and of a server's choice, with as much barred as there may be, to
/// plain Rust that does the same.
const BARRING: f64 = 2.0;
/// The highest ratio of a packet, and of a client's information, with 64 entries and as many reserved
/// numbers as there may be, to plain Rust that does the same.
const RESERVED: f64 = 2.0;
/// The highest ratio of 12 parameters read and written, to plain Rust that does the same.
const READ_AND_WRITTEN: f64 = 2.0;
/// The highest ratio of a long hostile sequence, to a pass of plain Rust that only steps over it.
pub const HOSTILE: f64 = 60.0;

pub fn print(
    barring: &barring::Worst,
    reserved: &reserved::Worst,
    read_and_written: Option<f64>,
    hostile: &[Worst],
) {
    let ratios = [
        ("start, 1,024 pairs barred", BARRING, barring.start),
        (
            "server's choice, 64 versions barred",
            BARRING,
            barring.choice,
        ),
        (
            "packet, 64 entries, 4 reserved numbers",
            RESERVED,
            reserved.packet,
        ),
        (
            "client's information, 64 entries, 4 reserved numbers",
            RESERVED,
            reserved.information,
        ),
        (
            "12 parameters read and written",
            READ_AND_WRITTEN,
            read_and_written,
        ),
    ];
    if ratios.iter().all(|aim| aim.2.is_none()) && hostile.is_empty() {
        return;
    }
    println!();
    title("Aims");
    println!("| aim | at most | seen | kept |");
    println!("|---|---:|---:|---|");
    for (aim, at_most, seen) in ratios {
        if let Some(ratio) = seen {
            line(aim, at_most, ratio);
        }
    }
    for worst in hostile {
        let name = format!("{}; the worst: {}", worst.shape, worst.sequence);
        line(&name, worst.at_most, worst.ratio);
    }
}

fn line(aim: &str, at_most: f64, seen: f64) {
    let kept = if seen <= at_most { "kept" } else { "not kept" };
    println!("| {} | {:.1} | {} | {} |", aim, at_most, digits(seen), kept);
}
