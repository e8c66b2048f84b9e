//! Reserved versions by bytes and by their low halves, and the longest lists.

use crate::checks::*;
use crate::random;

#[test]
fn reserved_by_each_byte() {
    // One byte at a time through all its values, the others reserved or not.
    for fill in [
        0x0a0a_0a0a,
        0xfafa_fafa,
        0x1a2a_3a4a,
        0x0b0a_0a0a,
        0,
        u32::MAX,
    ] {
        for shift in [0, 8, 16, 24] {
            for byte in 0..256 {
                let version = (fill & !(0xff << shift)) | byte << shift;
                check_is_reserved(version).unwrap();
            }
        }
    }
}

#[test]
fn reserved_by_low_halves() {
    // The four low halves through all their values together, under several high halves.
    for high in [0, 0x1020_3040, 0xa0a0_a0a0, 0xf0f0_f0f0] {
        for low in 0..0x1_0000 {
            let place = |half: u32| (low >> (4 * half) & 0xf) << (8 * half);
            check_is_reserved(high | place(0) | place(1) | place(2) | place(3)).unwrap();
        }
    }
}

#[test]
fn longest_lists() {
    for entries in [0, 1, 16_381, 16_382, 16_383, 20_000] {
        let mut list = vec![13; entries];
        for table in [&[14, 12][..], &[12, 13], &[14, 14], &[13]] {
            check_choose(table, &list).unwrap();
            let bytes = random::in_fours(&list);
            for less in 0..4.min(bytes.len()) {
                check_choose_from_bytes(table, &bytes[..bytes.len() - less]).unwrap();
            }
        }
        if let Some(last) = list.last_mut() {
            *last = 12;
            check_choose(&[14, 12], &list).unwrap();
            check_choose_from_bytes(&[14, 12], &random::in_fours(&list)).unwrap();
        }
    }
}
