//! Sequences of transport parameters (C-11): every number of them, every cut, repeats at any two
//! places, and lengths about the limits.

use super::integers::about_powers;
use crate::checks::*;
use crate::model::{MAX_INTEGER, MAX_PARAMETERS, MAX_SEQUENCE, VERSION_INFORMATION};
use crate::random::parameters::new_length;
use crate::random::{in_sequence, integer_in, least_width, Parameter, WIDTHS};

/// Parameters with these identifiers, and values of 0 to 3 bytes.
fn numbered(identifiers: impl IntoIterator<Item = u64>) -> Vec<Parameter> {
    let value = |place: usize| vec![place as u8; place % 4];
    let all = identifiers.into_iter().enumerate();
    all.map(|(place, id)| Parameter::shortest(id, value(place)))
        .collect()
}

/// So many parameters, none of them ours: small ones, and on both sides of 16,384.
fn others(count: usize) -> Vec<Parameter> {
    numbered((100..132).chain((1 << 14) - 16..).take(count))
}

/// The parameter that holds Version Information.
fn ours(value: &[u8]) -> Parameter {
    Parameter::shortest(VERSION_INFORMATION, value.to_vec())
}

/// Both calls, and the laws. The number that the reader gives has to be this one, and the writer
/// gives it too if it is a refusal.
#[track_caller]
pub(super) fn check_sequence(sequence: &[u8], number: u32) {
    assert_eq!(check_read_parameters(sequence).unwrap(), number);
    let written = check_write_parameters(sequence, &[7; 5], MAX_SEQUENCE).unwrap();
    assert!(number == 0 || written == number, "{}", written);
    check_laws(sequence, &[7; 5]).unwrap();
}

/// Every number of parameters up to 70, with ours missing and at each place. With 64 others ours is
/// one too many.
#[test]
fn every_number_of_parameters() {
    for count in 0..=70 {
        let number = |parameters| if parameters > MAX_PARAMETERS { 85 } else { 0 };
        let parameters = others(count);
        check_sequence(&in_sequence(&parameters), number(count));
        let old = in_sequence(&parameters);
        let written = check_write_parameters(&old, &[7; 5], MAX_SEQUENCE).unwrap();
        assert_eq!(written, number(count + 1));
        for place in 0..=count {
            let mut parameters = parameters.clone();
            parameters.insert(place, ours(&[1, 2, 3]));
            check_sequence(&in_sequence(&parameters), number(count + 1));
        }
    }
}

/// Identifiers and lengths in each two widths, cut at every byte, with bytes following in memory:
/// whole parameters are read, all else is an 81.
#[test]
fn every_cut_in_every_width() {
    for identifier_width in WIDTHS {
        for length_width in WIDTHS {
            let mut parameters = numbered([5, 0, VERSION_INFORMATION, 63, 1, 2, 3]);
            for parameter in &mut parameters {
                parameter.widths = (identifier_width, length_width);
            }
            let sequence = in_sequence(&parameters);
            let ends: Vec<usize> = (0..=parameters.len())
                .map(|count| in_sequence(&parameters[..count]).len())
                .collect();
            for length in 0..=sequence.len() {
                let number = if ends.contains(&length) { 0 } else { 81 };
                check_sequence(&sequence[..length], number);
            }
        }
    }
}

/// Cut at every byte, with a repeat, with 65 parameters and with both before the cut.
#[test]
fn every_cut_after_other_faults() {
    let repeated = [others(3), others(3)].concat();
    let many = others(MAX_PARAMETERS + 1);
    let both = [others(MAX_PARAMETERS + 1), others(1)].concat();
    for (parameters, number) in [(repeated, 82), (many, 85), (both, 82)] {
        check_sequence(&in_sequence(&parameters), number);
        let last = Parameter::shortest(1 << 40, vec![0; 70]);
        let whole = in_sequence(&[parameters.clone(), vec![last]].concat());
        check_sequence(&whole, number);
        for length in in_sequence(&parameters).len() + 1..whole.len() {
            check_sequence(&whole[..length], 81);
        }
    }
}

/// An identifier twice, at each two places, among 2, 64, 65 and 70 parameters: 82, in whatever
/// widths.
#[test]
fn repeats_at_each_two_places() {
    for count in [2, 3, MAX_PARAMETERS, MAX_PARAMETERS + 1, 70] {
        for one in 0..count {
            for other in (0..count).filter(|other| *other != one) {
                let mut parameters = others(count);
                parameters[other].identifier = parameters[one].identifier;
                parameters[other].widths.0 = [4, 8][(one + other) % 2];
                assert_eq!(check_read_parameters(&in_sequence(&parameters)), Ok(82));
            }
        }
    }
}

/// `05` and `40 05` are the same identifier, and so on in each two widths, with others between them.
#[test]
fn repeats_in_each_two_widths() {
    let about = about_powers().into_iter();
    for identifier in about.filter(|id| *id <= MAX_INTEGER) {
        let between = [40, 1 << 20, 1 << 50].map(|id| id + 5 * u64::from(id == identifier));
        let holds = |width: &usize| least_width(identifier) <= *width;
        for one in WIDTHS.into_iter().filter(holds) {
            for other in WIDTHS.into_iter().filter(holds) {
                for between in [&[][..], &between] {
                    let ends = [identifier];
                    let mut parameters = numbered([&ends, between, &ends].concat());
                    let last = parameters.len() - 1;
                    parameters[0].widths.0 = one;
                    parameters[last].widths.0 = other;
                    check_sequence(&in_sequence(&parameters), 82);
                    check_sequence(&in_sequence(&parameters[..last]), 0);
                }
            }
        }
    }
}

/// Two identifiers that differ in one bit, in each order: no repeat, and ours is taken for no other.
#[test]
fn identifiers_one_bit_apart() {
    let bases = [
        0,
        5,
        VERSION_INFORMATION,
        16_383,
        16_384,
        1 << 30,
        MAX_INTEGER,
    ];
    for identifier in bases {
        for bit in 0..62 {
            let near = identifier ^ 1 << bit;
            for pair in [[identifier, near], [near, identifier]] {
                for width in [least_width(identifier.max(near)), 8] {
                    let mut parameters = numbered(pair);
                    for parameter in &mut parameters {
                        parameter.widths.0 = width;
                    }
                    check_sequence(&in_sequence(&parameters), 0);
                }
            }
        }
    }
}

/// A value's length told as any number about a power of two, with no value there, or with one byte
/// too few: 81, however many parameters are before it.
#[test]
fn lengths_past_the_end() {
    for length in about_powers().into_iter().filter(|n| *n <= MAX_INTEGER) {
        for width in WIDTHS.into_iter().filter(|w| least_width(length) <= *w) {
            for before in [0, 1, 60, MAX_PARAMETERS] {
                let mut sequence = in_sequence(&others(before));
                sequence.push(VERSION_INFORMATION as u8);
                sequence.extend(integer_in(length, width));
                let number = match (length, before) {
                    (0, MAX_PARAMETERS) => 85,
                    (0, _) => 0,
                    _ => 81,
                };
                check_sequence(&sequence, number);
                if (2..3_000).contains(&length) {
                    sequence.resize(sequence.len() + length as usize - 1, 0);
                    check_sequence(&sequence, 81);
                }
            }
        }
    }
}

/// Every sequence of at most two bytes; every one of at most five of some bytes.
#[test]
fn every_short_sequence() {
    for number in 0..=u16::MAX {
        let bytes = number.to_be_bytes();
        check_read_parameters(&bytes).unwrap();
        check_read_parameters(&bytes[1..]).unwrap();
    }
    let some = [0, 1, 2, 3, 0x11, 0x40, 0x41, 0x51, 0x80, 0xc0, 0xff];
    let mut sequences = vec![vec![]];
    for length in 1..=5 {
        let longer = |start: &Vec<u8>| some.map(|byte| [&start[..], &[byte]].concat());
        sequences = sequences.iter().flat_map(longer).collect();
        for sequence in &sequences {
            check_read_parameters(sequence).unwrap();
            if length < 5 {
                check_write_parameters(sequence, &[9], 8).unwrap();
                check_laws(sequence, &[9]).unwrap();
            }
        }
    }
}

// About the limits.

/// Sequences of about 16,384 bytes: of one parameter, or of 64 with a long one among them; with a
/// cut, or with repeats. 80 comes first.
#[test]
fn sequences_about_the_longest() {
    for bytes in MAX_SEQUENCE - 4..=MAX_SEQUENCE + 2 {
        let number = |otherwise| match bytes {
            0..=MAX_SEQUENCE => otherwise,
            _ => 80,
        };
        for (count, place) in [(0, 0), (1, 0), (1, 1), (63, 0), (63, 30), (63, 63)] {
            for long in [VERSION_INFORMATION, 99] {
                let mut parameters = others(count);
                parameters.insert(place, Parameter::shortest(long, vec![0; 64]));
                let more = bytes - in_sequence(&parameters).len();
                parameters[place].value.resize(64 + more, 0x11);
                let sequence = in_sequence(&parameters);
                assert_eq!(sequence.len(), bytes);
                check_sequence(&sequence, number(0));
            }
        }
        check_sequence(&vec![0xff; bytes], number(81));
        // Empty parameters, all with the identifier 0; the last may lack its length.
        let repeated = if bytes % 2 == 0 { 82 } else { 81 };
        check_sequence(&vec![0; bytes], number(repeated));
    }
    check_sequence(&vec![0; 1 << 20], 80);
}

/// New sequences of about 16,384 bytes, by our value's length, in buffers about as long. Ours is in
/// the old ones, or not.
#[test]
fn new_sequences_about_the_longest() {
    for (count, had) in [(0, false), (0, true), (1, false), (40, true), (63, false)] {
        let mut parameters = others(count);
        if had {
            parameters.insert(count / 2, ours(&[0; 300]));
        }
        let old = in_sequence(&parameters);
        let without = new_length(&parameters, 64) - 64;
        for aim in MAX_SEQUENCE - 3..=MAX_SEQUENCE + 3 {
            let value = vec![0x33; aim - without];
            let need = new_length(&parameters, value.len());
            for room in [0, 1, need - 1, need, need + 1, MAX_SEQUENCE, 1 << 16] {
                check_new(&old, &value, need, room);
            }
            check_laws(&old, &value).unwrap();
        }
    }
}

/// A new sequence of `need` bytes and at most 64 parameters, from an old one that can be read: 80,
/// then 84.
#[track_caller]
fn check_new(old: &[u8], value: &[u8], need: usize, room: usize) {
    let number = match need {
        _ if need > MAX_SEQUENCE => 80,
        _ if need > room => 84,
        _ => 0,
    };
    assert_eq!(check_write_parameters(old, value, room), Ok(number));
}

/// Old sequences of about 16,384 bytes, in widths that are not the shortest. The new one is shorter,
/// even with a value of 515 bytes: it is judged by its own length.
#[test]
fn new_sequences_that_are_shorter() {
    for bytes in MAX_SEQUENCE - 1..=MAX_SEQUENCE + 1 {
        let mut parameters = others(40);
        for parameter in &mut parameters {
            parameter.widths = (8, 8);
        }
        let length = parameters[20].value.len();
        let more = bytes - in_sequence(&parameters).len();
        parameters[20].value.resize(length + more, 1);
        let old = in_sequence(&parameters);
        assert_eq!(old.len(), bytes);
        for length in [0, 1, 63, 64, 300].into_iter().chain(500..530) {
            let value = vec![2; length];
            let need = new_length(&parameters, length);
            for room in [need - 1, need, need + 7, bytes - 1, bytes, 1 << 15] {
                match bytes {
                    0..=MAX_SEQUENCE => check_new(&old, &value, need, room),
                    _ => assert_eq!(check_write_parameters(&old, &value, room), Ok(80)),
                }
            }
            check_laws(&old, &value).unwrap();
        }
    }
}

/// Every length of our value to past 1,024 bytes, and about 16,384, in a buffer of just that length
/// and one that is a byte short.
#[test]
fn every_length_of_our_value() {
    let lengths = (0..=1_100).chain(MAX_SEQUENCE - 100..=MAX_SEQUENCE + 20);
    for length in lengths.chain([20_000, 1 << 16, 1 << 17]) {
        let value = vec![0x44; length];
        for count in [0, 3] {
            let mut parameters = others(count);
            let old = in_sequence(&parameters);
            let need = new_length(&parameters, length);
            check_write_parameters(&old, &value, need).unwrap();
            check_write_parameters(&old, &value, need - 1).unwrap();
            check_laws(&old, &value).unwrap();
            parameters.insert(count / 2, ours(&[1; 70]));
            check_write_parameters(&in_sequence(&parameters), &value, need).unwrap();
        }
    }
}

/// Every length of the buffer, from none to more than it takes. A 65th parameter is an 85 only where
/// there is room for it.
#[test]
fn every_length_of_the_buffer_for_parameters() {
    for (count, had) in [
        (0, false),
        (0, true),
        (12, false),
        (12, true),
        (63, false),
        (64, false),
    ] {
        let mut parameters = others(count);
        if had {
            parameters.insert(count / 3, ours(&[5; 90]));
        }
        let old = in_sequence(&parameters);
        let value = [6; 70];
        let need = new_length(&parameters, value.len());
        for room in 0..=need + 20 {
            let number = match () {
                _ if room < need => 84,
                _ if count == MAX_PARAMETERS => 85,
                _ => 0,
            };
            assert_eq!(check_write_parameters(&old, &value, room), Ok(number));
        }
    }
    // Too long a value for a 65th: 80 before both.
    let old = in_sequence(&others(MAX_PARAMETERS));
    for room in [0, MAX_SEQUENCE, 1 << 16] {
        assert_eq!(
            check_write_parameters(&old, &[6; MAX_SEQUENCE], room),
            Ok(80)
        );
    }
}
