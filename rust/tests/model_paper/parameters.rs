//! Variable-length integers and the sequence of transport parameters (document 02, C-11): worked
//! calls, RFC 9000's examples, borders, the order of the refusals.

use crate::model::*;
use crate::random::parameters::new_length;
use crate::random::{in_sequence, integer_in, least_width, Parameter, Random, WIDTHS};

// Integers.

/// Read and written, and it is the shortest form.
#[track_caller]
fn both_ways(value: u64, bytes: &[u8]) {
    assert_eq!(read_integer(bytes), Ok((value, bytes.len())));
    assert_eq!(write_integer(value, bytes.len()), Ok(bytes.to_vec()));
}

/// "37 is `25`, but `40 25` is read as 37 too; 15293 is `7B BD`"
#[test]
fn integers_of_the_paper() {
    both_ways(37, &[0x25]);
    assert_eq!(read_integer(&[0x40, 0x25]), Ok((37, 2)));
    both_ways(15_293, &[0x7b, 0xbd]);
}

/// RFC 9000 appendix A.1.
#[test]
fn integers_of_rfc_9000() {
    let eight = [0xc2, 0x19, 0x7c, 0x5e, 0xff, 0x14, 0xe8, 0x8c];
    both_ways(151_288_809_941_952_652, &eight);
    both_ways(494_878_333, &[0x9d, 0x7f, 0x3e, 0x7d]);
}

#[test]
fn borders_of_the_widths() {
    both_ways(0, &[0]);
    both_ways(63, &[0x3f]);
    both_ways(64, &[0x40, 0x40]);
    both_ways(16_383, &[0x7f, 0xff]);
    both_ways(16_384, &[0x80, 0, 0x40, 0]);
    both_ways((1 << 30) - 1, &[0xbf, 0xff, 0xff, 0xff]);
    both_ways(1 << 30, &[0xc0, 0, 0, 0, 0x40, 0, 0, 0]);
    both_ways((1 << 62) - 1, &[0xff; 8]);
    for value in [1 << 62, (1 << 62) + 1, 1 << 63, u64::MAX] {
        // 83 before 84.
        for room in [0, 7, 8, 9] {
            assert_eq!(write_integer(value, room), Err(83));
        }
    }
    for (value, width) in [(63, 1), (64, 2), (16_383, 2), (16_384, 4), (1 << 30, 8)] {
        assert_eq!(write_integer(value, width - 1), Err(84));
        assert_eq!(write_integer(value, width).unwrap().len(), width);
        assert_eq!(write_integer(value, 100).unwrap().len(), width);
    }
}

/// "That an integer is read back with the length it was written in", whatever follows; and every
/// part of it runs past the end.
#[test]
fn integers_in_any_width() {
    for value in [
        0,
        5,
        37,
        63,
        64,
        16_383,
        16_384,
        (1 << 30) - 1,
        1 << 30,
        MAX_INTEGER,
    ] {
        for width in WIDTHS.into_iter().filter(|w| least_width(value) <= *w) {
            let mut bytes = integer_in(value, width);
            for length in 0..width {
                assert_eq!(read_integer(&bytes[..length]), Err(81));
            }
            assert_eq!(read_integer(&bytes), Ok((value, width)));
            bytes.extend([0xff; 9]);
            assert_eq!(read_integer(&bytes), Ok((value, width)));
        }
    }
    assert_eq!(read_integer(&[]), Err(81));
}

// Sequences.

/// So many parameters without a value, from this identifier on.
fn empty_ones(first: u64, count: usize) -> Vec<Parameter> {
    let identifiers = (first..).take(count);
    identifiers
        .map(|id| Parameter::shortest(id, Vec::new()))
        .collect()
}

/// So many parameters, none of them ours, as a sequence of two bytes each, then three.
fn others(count: usize) -> Vec<u8> {
    in_sequence(&empty_ones(0x20, count))
}

/// Reader and writer refuse it with the same number.
#[track_caller]
fn refused(sequence: &[u8], no: u8) {
    assert_eq!(read_parameters(sequence), Err(no));
    assert_eq!(write_parameters(sequence, &[], MAX_SEQUENCE), Err(no));
}

/// "The reader answers where our value lies, or that it is missing, and doesn't judge it; unknown
/// ones are stepped over."
#[test]
fn where_our_value_lies() {
    assert_eq!(read_parameters(&[]), Ok(None));
    assert_eq!(read_parameters(&[0x11, 0]), Ok(Some(2..2)));
    assert_eq!(read_parameters(&[0x11, 3, 0, 0, 0]), Ok(Some(2..5)));
    assert_eq!(read_parameters(&[0x10, 3, 0x11, 1, 9]), Ok(None));
    let between = [1, 2, 0x11, 0, 0x11, 2, 7, 8, 0x40, 0x12, 1, 0x11];
    assert_eq!(read_parameters(&between), Ok(Some(6..8)));
    // Ours in other widths, and identifiers that have its bits, and more.
    let wide = [0x80, 0, 0, 0x11, 0x40, 1, 9];
    assert_eq!(read_parameters(&wide), Ok(Some(6..7)));
    let wide = [
        0xc0, 0, 0, 0, 0, 0, 0, 0x11, 0xc0, 0, 0, 0, 0, 0, 0, 1, 9, 0, 0,
    ];
    assert_eq!(read_parameters(&wide), Ok(Some(16..17)));
    assert_eq!(read_parameters(&[0x41, 0x11, 1, 9]), Ok(None));
    assert_eq!(read_parameters(&[0x80, 0, 0x40, 0x11, 1, 9]), Ok(None));
}

/// "81 a field runs past the end": the identifier, the length or the value.
#[test]
fn cut_fields() {
    let whole = [0x40, 0x05, 0x40, 0x03, 1, 2, 3, 0x11, 1, 9];
    for length in 0..whole.len() {
        match length {
            0 | 7 => assert_eq!(read_parameters(&whole[..length]), Ok(None)),
            _ => refused(&whole[..length], 81),
        }
    }
    assert_eq!(read_parameters(&whole), Ok(Some(9..10)));
    // The longest that a length can tell.
    for width in [8, 4, 2, 1] {
        refused(&[vec![5], vec![0xff; width]].concat(), 81);
        refused(&[vec![5, 0, 0x11], vec![0xff; width]].concat(), 81);
    }
}

/// "82 an identifier occurs twice": `05` and `40 05` are the same.
#[test]
fn repeated_identifiers() {
    refused(&[5, 0, 5, 0], 82);
    refused(&[5, 0, 0x40, 5, 0], 82);
    refused(
        &[0x80, 0, 0, 5, 1, 9, 6, 0, 0xc0, 0, 0, 0, 0, 0, 0, 5, 0],
        82,
    );
    // Ours: neither the first nor the last is taken.
    refused(&[0x11, 1, 7, 0x40, 0x11, 1, 8], 82);
    assert_eq!(read_parameters(&[5, 0, 0x45, 5, 0]), Ok(None));
}

/// "At most 64 parameters, else 85"
#[test]
fn numbers_of_parameters() {
    assert_eq!(read_parameters(&others(64)), Ok(None));
    refused(&others(65), 85);
    refused(&others(70), 85);
    let ours = [others(63), vec![0x11, 1, 9]].concat();
    assert_eq!(read_parameters(&ours), Ok(Some(ours.len() - 1..ours.len())));
    refused(&[ours, vec![1, 0]].concat(), 85);
}

/// "a sequence over 16,384 bytes is an 80"
#[test]
fn lengths_of_sequences() {
    let long = |bytes: usize| {
        let value = vec![0; bytes - 3];
        in_sequence(&[Parameter::shortest(VERSION_INFORMATION, value)])
    };
    assert_eq!(long(16_384).len(), 16_384);
    assert_eq!(read_parameters(&long(16_384)), Ok(Some(3..16_384)));
    assert_eq!(read_parameters(&long(16_383)), Ok(Some(3..16_383)));
    refused(&long(16_385), 80);
    refused(&[0; 16_385], 80);
    refused(&[0xff; 16_385], 80);
}

/// "lowest first": over the whole sequence.
#[test]
fn order_of_the_readers_refusals() {
    let repeated = [5, 0, 5, 0];
    // A cut tail with a repeat before it, with 65 parameters before it, and with both.
    refused(&[&repeated[..], &[6]].concat(), 81);
    refused(&[&repeated[..], &[6, 1]].concat(), 81);
    refused(&[&others(65)[..], &[6, 1]].concat(), 81);
    refused(&[&others(65)[..], &repeated, &[0x40]].concat(), 81);
    // A repeat among more than 64: before the 65th, across it, and after it.
    refused(&[&repeated[..], &others(65)].concat(), 82);
    refused(&[&[5, 0], &others(65)[..], &[5, 0]].concat(), 82);
    refused(&[&others(70)[..], &repeated].concat(), 82);
    // Over 16,384 bytes, whatever else.
    let zeros = vec![0; 16_384];
    refused(&zeros, 82);
    refused(&zeros[1..], 81);
    refused(&[&zeros[..], &[0]].concat(), 80);
    refused(&[&zeros[..], &[0, 0]].concat(), 80);
}

/// The sequences of 16,384 bytes with the most parameters: no repeat, and one at the end.
#[test]
fn most_parameters() {
    for (first, count) in [(64, 5_461), (16_384, 3_276), (1 << 30, 1_820)] {
        let mut parameters = empty_ones(first, count);
        let sequence = in_sequence(&parameters);
        assert!((MAX_SEQUENCE - 9..=MAX_SEQUENCE).contains(&sequence.len()));
        refused(&sequence, 85);
        refused(&sequence[..sequence.len() - 1], 81);
        parameters[count - 1].identifier = first;
        refused(&in_sequence(&parameters), 82);
        parameters[count - 1].identifier = first + count as u64 - 2;
        refused(&in_sequence(&parameters), 82);
    }
}

// The writer.

/// "the other values and the order stay, and ours replaces the old one or goes last"
#[test]
fn order_of_what_is_written() {
    let write = |old: &[u8]| write_parameters(old, &[7, 8], 100);
    assert_eq!(write(&[]), Ok(vec![0x11, 2, 7, 8]));
    assert_eq!(write(&[0x11, 0]), Ok(vec![0x11, 2, 7, 8]));
    assert_eq!(write(&[5, 1, 9]), Ok(vec![5, 1, 9, 0x11, 2, 7, 8]));
    let first = [0x11, 3, 1, 2, 3, 5, 1, 9, 1, 0];
    assert_eq!(write(&first), Ok(vec![0x11, 2, 7, 8, 5, 1, 9, 1, 0]));
    let between = [5, 1, 9, 0x11, 3, 1, 2, 3, 1, 0];
    assert_eq!(write(&between), Ok(vec![5, 1, 9, 0x11, 2, 7, 8, 1, 0]));
    let last = [5, 1, 9, 1, 0, 0x11, 3, 1, 2, 3];
    assert_eq!(write(&last), Ok(vec![5, 1, 9, 1, 0, 0x11, 2, 7, 8]));
    let empty = write_parameters(&last, &[], 100);
    assert_eq!(empty, Ok(vec![5, 1, 9, 1, 0, 0x11, 0]));
}

/// "the writer uses the shortest form that holds it": for every identifier and every length. The new
/// sequence can be shorter than the old one.
#[test]
fn shortest_forms_are_written() {
    let old = [
        0x40, 0x05, 0x80, 0, 0, 1, 9, 0xc0, 0, 0, 0, 0, 0, 0, 0x11, 0, 0x7f, 0xff, 0,
    ];
    let new = vec![5, 1, 9, 0x11, 1, 7, 0x7f, 0xff, 0];
    assert_eq!(write_parameters(&old, &[7], new.len()), Ok(new.clone()));
    assert_eq!(write_parameters(&old, &[7], new.len() - 1), Err(84));
    for (length, width) in [(63, 1), (64, 2), (16_381, 2)] {
        let written = write_parameters(&[], &vec![7; length], MAX_SEQUENCE).unwrap();
        assert_eq!(written.len(), 1 + width + length);
    }
    // A value of 63 bytes whose length was in two.
    let old = [vec![5, 0x40, 63], vec![9; 63]].concat();
    let new = [vec![5, 63], vec![9; 63], vec![0x11, 0]].concat();
    assert_eq!(write_parameters(&old, &[], 100), Ok(new));
}

/// For the new sequence 80, 84, 85.
#[test]
fn order_of_the_writers_refusals() {
    let write = |old: &[u8], length, room| {
        write_parameters(old, &vec![7; length], room).map(|bytes| bytes.len())
    };
    // 64 without ours, and a 65th: 80, then 84, then 85.
    let old = others(64);
    let need = old.len() + 4;
    assert_eq!(write(&old, 16_384, 0), Err(80));
    assert_eq!(write(&old, 2, 0), Err(84));
    assert_eq!(write(&old, 2, need - 1), Err(84));
    assert_eq!(write(&old, 2, need), Err(85));
    assert_eq!(write(&old, 2, MAX_SEQUENCE), Err(85));
    // 63 and ours, there or not.
    let old = others(63);
    assert_eq!(write(&old, 2, MAX_SEQUENCE), Ok(old.len() + 4));
    let old = [others(63), vec![0x11, 0]].concat();
    assert_eq!(write(&old, 2, MAX_SEQUENCE), Ok(old.len() + 2));
    // The old one comes first.
    assert_eq!(write(&others(65), 16_384, 0), Err(85));
    assert_eq!(write(&[5, 0, 5, 0], 16_384, 0), Err(82));
    assert_eq!(write(&[5], 16_384, 0), Err(81));
    assert_eq!(write(&[0; 16_385], 16_384, 0), Err(80));
}

/// 80 and 84 count the new sequence.
#[test]
fn lengths_of_new_sequences() {
    let write = |old: &[u8], length, room| {
        write_parameters(old, &vec![7; length], room).map(|bytes| bytes.len())
    };
    assert_eq!(write(&[], 16_381, 16_384), Ok(16_384));
    assert_eq!(write(&[], 16_381, 16_383), Err(84));
    assert_eq!(write(&[], 16_382, 20_000), Err(80));
    assert_eq!(write(&[5, 0], 16_379, 20_000), Ok(16_384));
    assert_eq!(write(&[5, 0], 16_380, 20_000), Err(80));
    // The old one is as long as there may be; ours is in it, or not.
    let long = |identifier| Parameter::shortest(identifier, vec![0; 16_381]);
    assert_eq!(write(&in_sequence(&[long(5)]), 0, 20_000), Err(80));
    assert_eq!(write(&in_sequence(&[long(0x11)]), 0, 2), Ok(2));
    assert_eq!(
        write(&in_sequence(&[long(0x11)]), 16_381, 16_384),
        Ok(16_384)
    );
    assert_eq!(write(&in_sequence(&[long(0x11)]), 16_382, 20_000), Err(80));
    // In shortest form there is room for ours. One byte more, and the old one is too long.
    let mut wide = Parameter::shortest(5, vec![0; 16_368]);
    wide.widths = (8, 8);
    assert_eq!(write(&in_sequence(&[wide.clone()]), 11, 20_000), Ok(16_384));
    assert_eq!(write(&in_sequence(&[wide.clone()]), 12, 20_000), Err(80));
    wide.value.push(0);
    assert_eq!(write(&in_sequence(&[wide]), 0, 20_000), Err(80));
}

/// What is written is read, with our value; what is read is written again as it was, or in its
/// shortest form; and nothing else is changed.
#[test]
fn what_is_written_is_read() {
    let mut random = Random::new(11);
    let (mut kept, mut appended, mut shorter) = (0, 0, 0);
    for _ in 0..6_000 {
        let c = random.parameters_call();
        let old = &c.old.sequence;
        if let Ok(Some(place)) = read_parameters(old) {
            let again = write_parameters(old, &old[place], MAX_SEQUENCE).unwrap();
            assert!(again.len() <= old.len());
            assert_eq!(again.len() == old.len(), again == *old);
        }
        let new = match write_parameters(old, &c.value, usize::MAX) {
            Ok(new) => new,
            Err(_) => continue,
        };
        let place = read_parameters(&new).unwrap().unwrap();
        assert_eq!(new[place.clone()], c.value);
        assert_eq!(write_parameters(&new, &c.value, new.len()), Ok(new.clone()));
        match read_parameters(old).unwrap() {
            // What follows ours is as long as it was, or shorter.
            Some(was) => {
                kept += 1;
                assert!(new.len() - place.end <= old.len() - was.end);
            }
            None => {
                appended += 1;
                assert_eq!(place.end, new.len());
            }
        }
        shorter += usize::from(new.len() < old.len());
    }
    assert!(kept >= 500 && appended >= 500, "{} {}", kept, appended);
    assert!(shorter >= 500, "{}", shorter);
}

/// The drawn inputs know the length of what is written.
#[test]
fn length_of_what_is_written() {
    let mut random = Random::new(12);
    for _ in 0..2_000 {
        let c = random.parameters_call();
        let whole = in_sequence(&c.old.parameters);
        if let Ok(new) = write_parameters(&whole, &c.value, usize::MAX) {
            assert_eq!(new.len(), new_length(&c.old.parameters, c.value.len()));
        }
    }
}
