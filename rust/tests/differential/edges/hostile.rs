//! Large sequences of transport parameters (C-11). Their values are empty.

use super::parameters::check_sequence;
use crate::checks::*;
use crate::model::{MAX_PARAMETERS, MAX_SEQUENCE};
use crate::random::{bits_of, integer_in, least_width};
use quic_version::transport_parameters as library;
use quic_version::Refusal;

/// Parameters with these identifiers, in this width.
fn without_values(width: usize, identifiers: impl IntoIterator<Item = u64>) -> Vec<u8> {
    let one = |id: u64| [integer_in(id, width), vec![0]].concat();
    identifiers.into_iter().flat_map(one).collect()
}

/// As many identifiers of a width as a sequence has room for, in even steps: below 16,384 in two
/// bytes, and from there on in more.
fn most_in(width: usize) -> Vec<u64> {
    let count = (MAX_SEQUENCE / (width + 1)) as u64;
    let first = if width == 2 { 0 } else { 1 << 14 };
    let step = ((1 << bits_of(width)) - first) / count;
    (0..count).map(|k| first + step * k).collect()
}

/// The identifier of one place at another place too.
fn with_repeat(sequence: &[u8], width: usize, from: usize, to: usize) -> Vec<u8> {
    let mut sequence = sequence.to_vec();
    let at = |place| place * (width + 1);
    sequence.copy_within(at(from)..at(from) + width, at(to));
    sequence
}

/// The most parameters of 3, 5 and 9 bytes: with no repeat, and with one at the first two places, the
/// last two, both ends, and some between; with a byte too few, and with some too many.
#[test]
fn largest_sequences() {
    for width in [2, 4, 8] {
        let rising = most_in(width);
        let falling: Vec<u64> = rising.iter().copied().rev().collect();
        for identifiers in [rising, falling] {
            let last = identifiers.len() - 1;
            let sequence = without_values(width, identifiers);
            check_sequence(&sequence, 85);
            check_sequence(&sequence[..sequence.len() - 1], 81);
            check_sequence(&[&sequence[..], &[0; 9]].concat(), 80);
            let ends = [(0, 1), (last - 1, last), (0, last), (last, 0)];
            let some = (0..last).step_by(500);
            let between = some.flat_map(|k| [(0, k + 1), (k, last), (k, k + 1)]);
            for (from, to) in between.chain(ends) {
                let repeated = with_repeat(&sequence, width, from, to);
                assert_eq!(check_read_parameters(&repeated), Ok(82));
            }
        }
    }
}

/// The same with a repeat at each place, and somewhere else. The model, which takes longer, is left
/// out.
#[test]
fn repeats_at_each_place_of_the_largest() {
    for width in [2, 4, 8] {
        let identifiers = most_in(width);
        let count = identifiers.len();
        let sequence = without_values(width, identifiers);
        for place in 0..count {
            let other = (place + 1 + place * 7_919 % (count - 1)) % count;
            let repeated = with_repeat(&sequence, width, other, place);
            let answer = library::find_version_information(&repeated);
            assert_eq!(answer, Err(Refusal::IdentifierRepeated));
        }
    }
}

/// Every number of parameters that a sequence has room for, with no repeat, each cut too. The model is
/// left out again.
#[test]
fn every_number_up_to_the_largest() {
    for width in [2, 4, 8] {
        let identifiers = most_in(width);
        let count = identifiers.len();
        let sequence = without_values(width, identifiers);
        for parameters in 0..=count {
            let whole = &sequence[..parameters * (width + 1)];
            let answer = match parameters {
                0..=MAX_PARAMETERS => Ok(None),
                _ => Err(Refusal::TooManyParameters),
            };
            assert_eq!(library::find_version_information(whole), answer);
            if let Some((_, cut)) = whole.split_last() {
                let answer = library::find_version_information(cut);
                assert_eq!(answer, Err(Refusal::RunsPastTheEnd));
            }
        }
    }
}

/// Every identifier below 16,384 and some above: twice, it is a repeat; with all others of a third of
/// them it is none, whether they follow each other or have two between them.
#[test]
fn each_small_identifier() {
    for identifier in 0..20_000 {
        let width = least_width(identifier);
        let again = without_values(width, [identifier; 2]);
        assert_eq!(check_read_parameters(&again), Ok(82));
    }
    let third = (1 << 14) / 3;
    for part in 0..=3 {
        let follow = without_values(2, third * part..(third * (part + 1)).min(1 << 14));
        let apart = without_values(2, (part..1 << 14).step_by(3).take(third as usize));
        let number = if part < 3 { 85 } else { 0 };
        check_sequence(&follow, number);
        check_sequence(&apart, 85);
    }
}

/// Many identifiers, each beside one that differs from it in one bit, the same for all: no repeat.
#[test]
fn many_identifiers_one_bit_apart() {
    for (width, high) in [(2, None), (4, Some(20)), (8, Some(40))] {
        let pairs = (MAX_SEQUENCE / (width + 1) / 2) as u64;
        for bit in 0..bits_of(width) {
            // Some are large by a bit above the others.
            let large = high.map_or(0, |high| 1 << (high + u32::from(high == bit)));
            let without = |k: u64| k >> bit << (bit + 1) | k % (1 << bit) | large;
            let both = |k: u64| [without(k), without(k) | 1 << bit];
            check_sequence(&without_values(width, (0..pairs).flat_map(both)), 85);
        }
    }
}
