//! The aims of C-16, and what was measured beside each.

use crate::hostile::{worst, Row};
use crate::shapes::Group;
use crate::short::{Choice, Search};
use crate::text::{digits, ratio, title};

/// An aim in ratios: a name, the lists of a group, and the highest ratio.
type Ratio = (&'static str, Group, &'static str, f64);

const RATIOS: [Ratio; 4] = [
    ("nowhere", Group::Nowhere, "1/30", 1.0 / 30.0),
    ("table's last", Group::LastEntry, "1/30", 1.0 / 30.0),
    FIRST,
    HOSTILE,
];

const FIRST: Ratio = ("table's first", Group::FirstEntry, "0.35", 0.35);
const HOSTILE: Ratio = ("hostile", Group::Hostile, "0.8", 0.8);

/// Those that a table keeps too whose entries clash. It takes several rounds where little is found.
const RATIOS_OF_CLASHING: [Ratio; 2] = [FIRST, HOSTILE];

/// The most nanoseconds of the search for the Original Version at the first place.
const ORIGINAL_FIRST: f64 = 10.0;
/// The highest ratio of a choice from a short list, or the most nanoseconds more.
const SHORT: (f64, f64) = (1.2, 5.0);

pub fn print(rows: &[Row], clashing: &[Row], original_first: &Search, short: &[Choice]) {
    title("Aims");
    println!("| aim | at most | seen | kept |");
    println!("|---|---:|---:|---|");
    ratios("", rows, &RATIOS);
    ratios(", table that clashes", clashing, &RATIOS_OF_CLASHING);
    line(
        "Original Version at first place: what the search adds to a call",
        &format!("{} ns", ORIGINAL_FIRST),
        &format!(
            "{:.1} ns; the whole call {} ns",
            original_first.adds,
            digits(original_first.call)
        ),
        original_first.adds <= ORIGINAL_FIRST,
    );
    let is_kept = |choice: &Choice| choice.ratio <= SHORT.0 || choice.more <= SHORT.1;
    let most = |of: fn(&Choice) -> f64| short.iter().map(of).fold(f64::MIN, f64::max);
    let (ratio, more) = (most(|choice| choice.ratio), most(|choice| choice.more));
    line(
        "choice from 1 to 8 entries, table of 3",
        &format!("{}, or {} ns more", SHORT.0, SHORT.1),
        &format!("{}; {:.1} ns more", digits(ratio), more),
        short.iter().all(is_kept),
    );
    println!();
}

fn ratios(which: &str, rows: &[Row], aims: &[Ratio]) {
    for (name, group, at_most, limit) in aims {
        let (seen, list) = worst(rows, *group);
        let name = format!("{}{}; the worst list: {}", name, which, list);
        line(&name, at_most, &ratio(seen), seen <= *limit);
    }
}

fn line(aim: &str, at_most: &str, seen: &str, kept: bool) {
    let kept = if kept { "kept" } else { "not kept" };
    println!("| {} | {} | {} | {} |", aim, at_most, seen, kept);
}
