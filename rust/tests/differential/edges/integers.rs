//! Variable-length integers (C-11): every first byte, every width, and all about the borders.

use crate::checks::*;
use crate::model::MAX_INTEGER;
use crate::random::{bits_of, integer_in, least_width, WIDTHS};
use quic_version::transport_parameters as library;

/// The numbers about each power of two, and the largest.
pub(super) fn about_powers() -> Vec<u64> {
    let about = |k: u32| [(1 << k) - 1, 1 << k, (1 << k) + 1];
    (0..64).flat_map(about).chain([u64::MAX]).collect()
}

#[test]
fn every_first_byte_of_an_integer() {
    for first in 0..=u8::MAX {
        for following in [0, 1, 0x5a, 0x7f, 0x80, 0xff] {
            let bytes = [&[first][..], &[following; 9]].concat();
            for length in 0..=bytes.len() {
                check_read_integer(&bytes[..length]).unwrap();
            }
        }
    }
}

#[test]
fn every_integer_of_two_bytes() {
    for number in 0..=u16::MAX {
        check_read_integer(&number.to_be_bytes()).unwrap();
    }
}

/// What is written in any width that holds it is read back with that width, whatever follows.
#[test]
fn integers_in_every_width_that_holds_them() {
    for value in about_powers() {
        let holds = |width: &usize| value >> bits_of(*width) == 0;
        for width in WIDTHS.into_iter().filter(holds) {
            for following in [&[][..], &[0], &[0xff; 9]] {
                let bytes = [&integer_in(value, width), following].concat();
                check_read_integer(&bytes).unwrap();
                let read = library::Integer { value, width };
                assert_eq!(library::read_integer(&bytes), Ok(read));
            }
        }
    }
}

/// In buffers of every length: written in the least width, and read back.
#[test]
fn integers_about_each_power_of_two() {
    for value in (0..70_000).step_by(7).chain(about_powers()) {
        for room in 0..=9 {
            check_write_integer(value, room).unwrap();
        }
        let mut buffer = [0; 8];
        match library::write_integer(value, &mut buffer) {
            Ok(width) => {
                assert_eq!(width, least_width(value));
                let read = library::Integer { value, width };
                assert_eq!(library::read_integer(&buffer), Ok(read));
            }
            Err(refusal) => assert_eq!((refusal.number(), value > MAX_INTEGER), (83, true)),
        }
    }
}
