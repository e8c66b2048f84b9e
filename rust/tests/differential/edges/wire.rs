//! Every length of datagrams, buffers and Version Information.

use crate::checks::*;
use crate::model::{Event, MAX_TABLE};
use crate::random;
use quic_version::{MAX_PACKET, MIN_ANSWERED_DATAGRAM};

#[test]
fn every_length_of_a_datagram_cut_short() {
    let rest = vec![9; MIN_ANSWERED_DATAGRAM];
    let whole = random::long_packet(0, 12, &[7; 255], &[8; 3], &rest);
    let negotiation = random::long_packet(0, 0, &[7; 3], &[8; 255], &rest);
    let short: Vec<u8> = (0..127).cycle().take(rest.len() + 300).collect();
    for datagram in [whole, negotiation, short] {
        for length in 0..=datagram.len() {
            let cut = &datagram[..length];
            for told in [
                0,
                1,
                254,
                255,
                256,
                length.saturating_sub(1),
                length,
                usize::MAX,
            ] {
                check_read_header(cut, told).unwrap();
            }
            check_write_version_negotiation(cut, &[14, 13], &[], 64, MAX_PACKET).unwrap();
        }
    }
}

/// The fewest bytes that are answered, and each other fault beside them.
#[test]
fn datagrams_about_the_fewest_that_are_answered() {
    let about = MIN_ANSWERED_DATAGRAM - 3..=MIN_ANSWERED_DATAGRAM + 3;
    let powers = (11..16).flat_map(|k| [(1 << k) - 1, 1 << k, (1 << k) + 1_199]);
    let others = [
        1_252, 1_472, 1_500, 9_000, 20_000, 40_000, 60_000, 65_535, 65_536, 66_000,
    ];
    let lengths: Vec<usize> = (0..9).chain(about).chain(powers).chain(others).collect();
    for (first, version) in [(0x80, 0), (0x80, 12), (0xff, 12), (0x7f, 12)] {
        let mut datagram = random::long_packet(first, version, &[], &[], &[1; 66_000]);
        datagram[0] = first;
        for length in &lengths {
            for offered in [&[14, 13][..], &[14, 12], &[14, 14], &[]] {
                for (bits, room) in [(0, 0), (127, MAX_PACKET), (128, 0), (255, MAX_PACKET)] {
                    let received = &datagram[..*length];
                    check_write_version_negotiation(received, offered, &[], bits, room).unwrap();
                }
            }
        }
    }
}

#[test]
fn longest_datagrams() {
    for length in [65_531, 65_532, 65_534, 65_535, 65_536, 65_537, 200_000] {
        for (first, version) in [(0x80, 0), (0x80, 12), (0x00, 0)] {
            let mut datagram = random::long_packet(first, version, &[], &[], &[]);
            datagram[0] = first;
            datagram.resize(length, 1);
            check_read_header(&datagram, 0).unwrap();
            check_read_header(&datagram, 255).unwrap();
            check_write_version_negotiation(&datagram, &[14, 13], &[], 0, MAX_PACKET).unwrap();
            let events = [Event::Datagram(datagram)];
            check_events(&[14, 0x0101_0101], &[], &[], 14, &[], &[], &events).unwrap();
        }
    }
}

#[test]
fn every_length_of_the_buffer() {
    let rest = [1; MIN_ANSWERED_DATAGRAM];
    let received = random::long_packet(0, 12, &[7; 20], &[8; 3], &rest);
    let offered: Vec<u32> = (100..).take(MAX_TABLE).collect();
    let enough = 7 + 20 + 3 + 4 * MAX_TABLE + 10;
    for room in 0..=enough {
        check_write_version_negotiation(&received, &offered, &[], 127, room).unwrap();
        check_write_information(0, 100, &offered, room).unwrap();
        check_write_information(1, 99, &[], room).unwrap();
    }
    for (destination, source) in [(255, 255), (0, 255), (255, 0), (0, 0)] {
        let (destination, source) = (vec![7; destination], vec![8; source]);
        let received = random::long_packet(0, 12, &destination, &source, &rest);
        for room in 4 * MAX_TABLE..=MAX_PACKET + 10 {
            check_write_version_negotiation(&received, &offered, &[], 0, room).unwrap();
        }
    }
}

#[test]
fn every_number_of_unused_bits() {
    let received = random::long_packet(0, 12, &[7; 2], &[8], &[9; MIN_ANSWERED_DATAGRAM]);
    for bits in 0..=u8::MAX {
        check_write_version_negotiation(&received, &[14, 13, 10], &[], bits, 30).unwrap();
    }
}

#[test]
fn every_length_of_information() {
    for sender in [0, 1, 2] {
        for length in (0..=1_040).chain([2_048, 65_536]) {
            check_read_information(sender, &vec![1; length]).unwrap();
        }
        for entries in 0..=260 {
            check_write_information(sender, 1, &vec![1; entries], 1_044).unwrap();
        }
    }
}
