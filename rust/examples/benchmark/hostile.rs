//! Sequences of transport parameters as a stranger would make them: as many parameters as 16,384
//! bytes hold. Repeats are looked for among all of them (82), before they are too many (85). Beside
//! the library is a pass of plain Rust that only steps over the parameters.

use crate::aims::HOSTILE;
use crate::measure::{calls, grouped, opaque, same, Table};
use crate::packet::{bits_of, integer_in};
use crate::plain;
use crate::text::{digits, us};
use crate::turns::Turns;
use quic_version::transport_parameters::{
    find_version_information, write_version_information, MAX_PARAMETERS, MAX_SEQUENCE,
};
use quic_version::WriteRefusal;

const ROUNDS: usize = 31;

/// How many parameters there are, how wide each identifier is, which ones they are, and the aim.
struct Shape {
    count: usize,
    width: usize,
    sets: &'static [Set],
    at_most: Option<f64>,
}

/// Identifiers that all differ: a name, and the one of each rank. They rise with the rank.
type Set = (&'static str, fn(u64) -> u64);

/// Empty parameters: 3, 5 and 9 bytes each, as many as there is room for. The last shape is one
/// parameter past the limit: what is cleared for the search costs the same, and there is little to
/// step over. It has no aim.
const SHAPES: [Shape; 4] = [
    Shape {
        count: 5_460,
        width: 2,
        sets: &[("in a row", |rank| 64 + rank)],
        at_most: Some(HOSTILE),
    },
    Shape {
        count: 3_270,
        width: 4,
        sets: &[
            ("spread", |rank| spread(rank, 1 << 18)),
            ("with the same low 18 bits", |rank| (rank << 18) + 0x2_aaaa),
        ],
        at_most: Some(HOSTILE),
    },
    Shape {
        count: 1_820,
        width: 8,
        sets: &[
            ("spread", |rank| spread(rank, 1 << 50)),
            ("with the same low 32 bits", |rank| {
                ((rank + 1) << 32) + 0xaaaa_aaaa
            }),
            ("with the same high 32 bits", |rank| {
                (1 << 61) + spread(rank, 1 << 20)
            }),
        ],
        at_most: Some(HOSTILE),
    },
    Shape {
        count: MAX_PARAMETERS + 1,
        width: 4,
        sets: &[("in a row", |rank| 16_384 + rank)],
        at_most: None,
    },
];

/// A number from each part of this size, at a place in it that has no order.
fn spread(rank: u64, part: u64) -> u64 {
    rank * part + mixed(rank) % part
}

/// A number that has no order (the finish of SplitMix64).
fn mixed(number: u64) -> u64 {
    let mut bits = number.wrapping_add(1).wrapping_mul(0x9e37_79b9_7f4a_7c15);
    bits = (bits ^ (bits >> 30)).wrapping_mul(0xbf58_476d_1ce4_e5b9);
    bits = (bits ^ (bits >> 27)).wrapping_mul(0x94d0_49bb_1331_11eb);
    bits ^ (bits >> 31)
}

/// An order of ranks: a name, and the ranks of so many places.
type Order = (&'static str, fn(u64) -> Vec<u64>);

const ORDERS: [Order; 5] = [
    ("rising", |count| (0..count).collect()),
    ("falling", |count| (0..count).rev().collect()),
    ("shuffled", shuffled),
    ("organ pipe", organ_pipe),
    ("odds before evens, again and again", odds_first),
];

fn shuffled(count: u64) -> Vec<u64> {
    let mut ranks: Vec<u64> = (0..count).collect();
    for place in (1..ranks.len()).rev() {
        let other = mixed(place as u64) % (place as u64 + 1);
        ranks.swap(place, other as usize);
    }
    ranks
}

/// Up by every second rank, and down by the others.
fn organ_pipe(count: u64) -> Vec<u64> {
    let up = (0..count).filter(|rank| rank % 2 == 0);
    let down = (0..count).rev().filter(|rank| rank % 2 == 1);
    up.chain(down).collect()
}

/// The two halves, once they are sorted, have to be merged one by one; and so have the halves of
/// each. The first half is the shorter one, if they differ, as it is in the library's sort.
fn odds_first(count: u64) -> Vec<u64> {
    fn place(ranks: Vec<u64>, placed: &mut Vec<u64>) {
        if ranks.len() < 2 {
            placed.extend(ranks);
            return;
        }
        let every_second = |from| ranks.iter().copied().skip(from).step_by(2).collect();
        place(every_second(1), placed);
        place(every_second(0), placed);
    }
    let mut placed = Vec::new();
    place((0..count).collect(), &mut placed);
    placed
}

/// The worst ratio of a shape: its name, the aim, the ratio, and the name of the sequence.
pub struct Worst {
    pub shape: String,
    pub at_most: f64,
    pub ratio: f64,
    pub sequence: String,
}

/// Measures each sequence, with and without a repeat. The worst of each shape that has an aim, if it
/// was measured.
pub fn rows(table: &mut Table) -> Vec<Worst> {
    let mut is_begun = false;
    let mut all = Vec::new();
    for shape in &SHAPES {
        let mut worst = (0.0, String::new());
        for (set, order, answer) in cases(shape) {
            let sequence = format!("identifiers {}, {}, {}", set.0, order.0, answer);
            let name = format!("hostile, {}, {}", shape.name(), sequence);
            if !table.takes(&name) {
                continue;
            }
            if !is_begun {
                begin();
                is_begun = true;
            }
            let bytes = shape.sequence(set, order, answer);
            let ratio = row(&name, shape.count, &bytes, answer);
            if worst.0 < ratio {
                worst = (ratio, sequence);
            }
        }
        let (ratio, sequence) = worst;
        if let (Some(at_most), true) = (shape.at_most, ratio > 0.0) {
            all.push(Worst {
                shape: shape.name(),
                at_most,
                ratio,
                sequence,
            });
        }
    }
    all
}

fn cases(shape: &Shape) -> impl Iterator<Item = (&'static Set, &'static Order, u8)> {
    let sets = shape.sets.iter();
    sets.flat_map(|set| ORDERS.iter().map(move |order| (set, order)))
        .flat_map(|(set, order)| [(set, order, 85), (set, order, 82)])
}

impl Shape {
    fn name(&self) -> String {
        let (count, bytes) = (grouped(self.count), self.width + 1);
        format!("{} parameters of {} bytes", count, bytes)
    }

    /// The sequence with this answer. For an 82 the last identifier is the first once more.
    fn sequence(&self, set: &Set, order: &Order, answer: u8) -> Vec<u8> {
        let ranks = order.1(self.count as u64);
        let mut identifiers: Vec<u64> = ranks.into_iter().map(set.1).collect();
        if answer == 82 {
            identifiers[self.count - 1] = identifiers[0];
        }
        let mut sequence = Vec::new();
        for identifier in identifiers {
            self.add(identifier, &mut sequence);
        }
        assert!(sequence.len() <= MAX_SEQUENCE);
        sequence
    }

    /// An empty parameter, its identifier in this width, whether that is the shortest or not.
    fn add(&self, identifier: u64, sequence: &mut Vec<u8>) {
        assert!(identifier < 1 << bits_of(self.width));
        sequence.extend(integer_in(identifier, self.width));
        sequence.push(0);
    }
}

fn begin() {
    println!();
    println!("| sequence | reading, us | writing, us | plain Rust with a sort, us | stepping over alone, us | ratio, reading | ratio, writing |");
    println!("|---|---:|---:|---:|---:|---:|---:|");
}

/// Measures and prints one row. The ratio of the reader to the pass that only steps over.
fn row(name: &str, parameters: usize, sequence: &[u8], answer: u8) -> f64 {
    let mut buffer = [0x77; MAX_SEQUENCE];
    let read = same(
        find_version_information(sequence),
        plain::find_version_information(sequence),
    );
    assert_eq!(read, Err(answer));
    let count = write_version_information(sequence, &[], &mut buffer);
    assert_eq!(count.map_err(WriteRefusal::number), Err(answer));
    assert_eq!(buffer[..], [0x77; MAX_SEQUENCE][..]);
    assert_eq!(plain::step_over(sequence), Ok(parameters));

    let turns = Turns::take(
        ROUNDS,
        vec![
            Box::new(calls!(find_version_information(opaque(sequence)))),
            Box::new(calls!(write_version_information(
                opaque(sequence),
                opaque(&[]),
                &mut buffer
            ))),
            Box::new(calls!(plain::find_version_information(opaque(sequence)))),
            Box::new(calls!(plain::step_over(opaque(sequence)))),
        ],
    );
    println!(
        "| {} | {} | {} | {} | {} | {} | {} |",
        name,
        us(turns.time(0)),
        us(turns.time(1)),
        us(turns.time(2)),
        us(turns.time(3)),
        digits(turns.ratio(0, 3)),
        digits(turns.ratio(1, 3))
    );
    turns.ratio(0, 3)
}
