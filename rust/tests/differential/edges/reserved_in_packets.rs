//! Reserved numbers at the end of a packet (C-18): each bit, each place, every number of them, and the
//! order of the refusals.

use super::versions;
use crate::checks::*;
use crate::model::{MAX_RESERVED, MAX_TABLE};
use crate::random::long_packet;
use quic_version::{MAX_CONNECTION_ID, MAX_PACKET, MIN_ANSWERED_DATAGRAM};

/// Reserved numbers in a row: all 65,536 of them come before the first comes again.
fn reserved(count: usize) -> Vec<u32> {
    let halves = |k: u32, by: u32| (k >> by & 15) << (2 * by + 4);
    let number = |k| 0x0a0a_0a0a | halves(k, 0) | halves(k, 4) | halves(k, 8) | halves(k, 12);
    (0..).map(number).take(count).collect()
}

/// A datagram of this version that is answered.
fn received(version: u32) -> Vec<u8> {
    long_packet(
        0,
        version,
        &[0xaa, 0xbb],
        &[0xcc],
        &[9; MIN_ANSWERED_DATAGRAM],
    )
}

/// The number that is seen where 14 and 13 are offered, with room for all of it.
fn seen(version: u32, reserved: &[u32]) -> u32 {
    let room = 7 + 3 + 4 * (2 + reserved.len());
    check_write_version_negotiation(&received(version), &[14, 13], reserved, 64, room).unwrap()
}

#[test]
fn every_number_of_reserved_numbers() {
    for count in (0..=300).chain([1_024, 4_096, 16_384, 65_535, 65_536, 65_540, 131_076]) {
        let number = if count <= MAX_RESERVED { 0 } else { 28 };
        assert_eq!(seen(12, &reserved(count)), number, "{}", count);
    }
}

/// Any bit of any of four numbers: those of the low halves make it another kind of number, those of
/// the high halves do not. So with the version received.
#[test]
fn every_bit_of_reserved_numbers() {
    for base in [0x0a0a_0a0a, 0x1a2a_3a4a, 0xfafa_fafa, 0x5a5a_5a5a] {
        for bit in 0..32 {
            let other = base ^ 1 << bit;
            let number = if bit % 8 < 4 { 28 } else { 0 };
            assert_eq!(seen(12, &[other]), number);
            assert_eq!(seen(base, &[other]), number);
            assert_eq!(seen(other, &[base]), 0);
            assert_eq!(seen(other, &[other]), 28);
            for at in 0..MAX_RESERVED {
                let mut four = [0x8a8a_8a8a, 0x8a8a_8aea, 0xea8a_8a8a, 0x7a8a_9aaa];
                four[at] = other;
                assert_eq!(seen(12, &four), number);
                four[(at + 1) % MAX_RESERVED] = base;
                assert_eq!(seen(12, &four), number);
                assert_eq!(seen(base, &four), 28);
            }
        }
    }
}

/// A repeat at each two places, the version received at each place, and numbers of another kind.
#[test]
fn each_place_of_reserved_numbers() {
    for count in 1..=MAX_RESERVED {
        let numbers = reserved(count);
        for at in 0..count {
            for other in 0..count {
                let mut repeated = numbers.clone();
                repeated[other] = repeated[at];
                let number = if at == other { 0 } else { 28 };
                assert_eq!(seen(12, &repeated), number);
            }
            assert_eq!(seen(numbers[at], &numbers), 28);
            for bad in [0, 1, 12, 13, 14, 0x0a, 0x0a0a_0a0b, 0x1a2a_3a4b, u32::MAX] {
                let mut faulty = numbers.clone();
                faulty[at] = bad;
                assert_eq!(seen(12, &faulty), 28);
            }
        }
        let given: Vec<u32> = numbers.iter().rev().copied().collect();
        assert_eq!(seen(0xdada_dada, &given), 0);
    }
}

/// Every length of the buffer, with every number of reserved numbers: 26 counts all given.
#[test]
fn every_length_of_the_buffer_with_reserved_numbers() {
    for (destination, source, entries) in [(0, 0, 1), (20, 3, 5), (255, 255, MAX_TABLE)] {
        let (offered, rest) = (versions(entries), [1; MIN_ANSWERED_DATAGRAM]);
        let received = long_packet(0, 12, &vec![7; destination], &vec![8; source], &rest);
        for given in 0..=MAX_RESERVED + 2 {
            let numbers = reserved(given);
            let need = 7 + destination + source + 4 * (entries + given);
            for room in (need.saturating_sub(40)..need + 10).chain([0, MAX_PACKET]) {
                let seen = check_write_version_negotiation(&received, &offered, &numbers, 0, room);
                let number = match given {
                    _ if room < need => 26,
                    0..=MAX_RESERVED => 0,
                    _ => 28,
                };
                assert_eq!(seen.unwrap(), number);
            }
        }
    }
    let longest = 7 + 2 * MAX_CONNECTION_ID + 4 * (MAX_TABLE + MAX_RESERVED);
    assert_eq!(MAX_PACKET, longest);
}

/// 11, 12, 20, 21 to 26, 28: each comes before those after it, with every fault of the numbers.
#[test]
fn order_of_the_refusals_of_a_packet() {
    let (good, five) = (reserved(2), reserved(5));
    let whole = received(0x0a0a_0a0a);
    let faults = [&good[..1], &[12], &[good[1], good[1]], &five];
    for numbers in faults {
        let need = 7 + 3 + 4 * (2 + numbers.len());
        let seen = |received: &[u8], offered: &[u32], bits, room| {
            check_write_version_negotiation(received, offered, numbers, bits, room).unwrap()
        };
        let short = vec![0; MIN_ANSWERED_DATAGRAM];
        assert_eq!(seen(&vec![0x80; 65_536], &[], 128, 0), 11);
        assert_eq!(seen(&whole[..8], &[], 128, 0), 12);
        assert_eq!(seen(&whole[..1_199], &[], 128, 0), 20);
        assert_eq!(seen(&short, &[], 128, 0), 21);
        assert_eq!(seen(&received(0), &[], 128, 0), 22);
        assert_eq!(seen(&whole, &[14, 14], 128, 0), 23);
        assert_eq!(seen(&received(14), &[14, 13], 128, 0), 24);
        assert_eq!(seen(&whole, &[14, 13], 128, 0), 25);
        assert_eq!(seen(&whole, &[14, 13], 127, need - 1), 26);
        assert_eq!(seen(&whole, &[14, 13], 127, need), 28);
        assert_eq!(seen(&whole, &[14, 13], 127, MAX_PACKET), 28);
    }
    // A reserved version is in no table: it is no 24, and offered it is a 23.
    assert_eq!(seen(0x0a0a_0a0a, &good[1..]), 0);
    let seen = check_write_version_negotiation(&whole, &[14, 0x0a0a_0a0a], &[], 0, MAX_PACKET);
    assert_eq!(seen.unwrap(), 23);
}

/// Many numbers, all of them received ones, repeated or of another kind.
#[test]
fn many_numbers_that_may_not_be_sent() {
    for count in [5, 6, 64, 65, 256, 257, 260, 1_000, 5_000, 65_536, 65_540] {
        for number in [0x1a2a_3a4a, 0x0a0a_0a0a, 12, 0] {
            let numbers = vec![number; count];
            assert_eq!(seen(12, &numbers), 28);
            let room = 7 + 3 + 4 * (2 + MAX_RESERVED);
            let received = received(0x1a2a_3a4a);
            let seen = check_write_version_negotiation(&received, &[14, 13], &numbers, 0, room);
            assert_eq!(seen.unwrap(), 26);
        }
    }
}

/// The lists that are lent lie between others: an entry before one, or after it, counts for nothing.
#[test]
fn packet_lists_between_others() {
    let (numbers, offered) = (reserved(12), versions(13));
    for from in 0..=8 {
        for count in 0..=MAX_RESERVED {
            let (given, table) = (&numbers[from..from + count], &offered[from..=from + count]);
            let received = received(0xdada_dada);
            let room = 7 + 3 + 4 * (table.len() + count);
            let answer = check_write_version_negotiation(&received, table, given, 1, room);
            assert_eq!(answer.unwrap(), 0);
            // Between some that may not be sent, and the same once more.
            let between = [&[12; 3][..], given, given].concat();
            assert_eq!(seen(12, &between[3..3 + count]), 0);
            let between = [given, given, &[12; 3]].concat();
            assert_eq!(seen(12, &between[count..2 * count]), 0);
        }
    }
}
