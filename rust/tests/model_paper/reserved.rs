//! Document 02, C-18, "reserved numbers on the wire": its sentences, its edges, and the order of the
//! refusals.

use crate::attempts::{begin, completes, listing, missing, outcome, p10, p4, refused_ended};
use crate::model::*;
use crate::random::{in_fours, information, long_packet};

// Reserved, and all different.
const A: u32 = 0x1a2a_3a4a;
const B: u32 = 0x0a0a_0a0a;
const C: u32 = 0xfafa_fafa;
const D: u32 = 0x1a2a_3a5a;
const E: u32 = 0x5a6a_7a8a;

/// The client's information with room for all of it.
fn sent(attempt: &Attempt, reserved: &[(u32, u32)]) -> Result<Vec<u8>, u8> {
    attempt.information(reserved, usize::MAX)
}

/// Chosen, and the list as sent.
#[track_caller]
fn sends(attempt: &Attempt, reserved: &[(u32, u32)], versions: &[u32]) {
    assert_eq!(sent(attempt, reserved), Ok(in_fours(versions)));
}

/// A table of so many versions, from 100 on, whose last may be answered with each.
fn full(entries: u32) -> Attempt {
    let table: Vec<u32> = (100..100 + entries).collect();
    let last = 99 + entries;
    let pairs: Vec<(u32, u32)> = (100..last).map(|to| (last, to)).collect();
    begin(&table, &pairs, last)
}

// The client's list.

/// "A call of its own, no event, writes the client's Version Information from the record, with the
/// attempted version as Chosen."
#[test]
fn information_from_the_record() {
    let started = begin(&[14, 12, 10], &[], 12);
    sends(&started, &[], &[12, 12]);
    sends(&p4(), &[], &[14, 14]);
    let p10_before = begin(&[3, 4, 1, 2], &[(1, 2), (3, 4)], 1);
    sends(&p10_before, &[], &[1, 1, 2]);
    sends(&p10(), &[], &[3, 3, 4]);
    // With nothing reserved it is what the other writer writes.
    let own = p10().own_list();
    let other = crate::model::information(Sender::Client, 3, &own, usize::MAX);
    assert_eq!(sent(&p10(), &[]), other);
}

/// "up to four distinct reserved numbers, each at a place the caller gives"; "Places are counted from
/// 0 in the list as sent."
#[test]
fn places_in_the_list_as_sent() {
    sends(&p4(), &[(A, 0)], &[14, A, 14]);
    sends(&p4(), &[(A, 1)], &[14, 14, A]);
    sends(&p10(), &[(A, 0)], &[3, A, 3, 4]);
    sends(&p10(), &[(A, 1)], &[3, 3, A, 4]);
    sends(&p10(), &[(A, 2)], &[3, 3, 4, A]);
    sends(&p10(), &[(A, 0), (B, 1)], &[3, A, B, 3, 4]);
    sends(&p10(), &[(A, 1), (B, 0)], &[3, B, A, 3, 4]);
    sends(&p10(), &[(A, 3), (B, 1)], &[3, 3, B, 4, A]);
    sends(&p10(), &[(A, 3), (B, 2)], &[3, 3, 4, B, A]);
    let four = [(A, 5), (B, 0), (C, 2), (D, 4)];
    sends(&p10(), &four, &[3, B, 3, C, 4, D, A]);
    let four = [(A, 0), (B, 1), (C, 2), (D, 3)];
    sends(&p10(), &four, &[3, A, B, C, D, 3, 4]);
    let four = [(A, 2), (B, 3), (C, 4), (D, 5)];
    sends(&p10(), &four, &[3, 3, 4, A, B, C, D]);
}

/// "a place is taken twice or past the end"
#[test]
fn places_that_are_refused() {
    assert_eq!(sent(&p10(), &[(A, 3)]), Err(47));
    assert_eq!(sent(&p10(), &[(A, u32::MAX)]), Err(47));
    assert_eq!(sent(&p10(), &[(A, 1), (B, 1)]), Err(47));
    assert_eq!(sent(&p10(), &[(A, 0), (B, 4)]), Err(47));
    assert_eq!(sent(&p10(), &[(A, 4), (B, 0)]), Err(47));
    assert!(sent(&p10(), &[(A, 3), (B, 0)]).is_ok());
    let places = |last| [(A, 0), (B, 1), (C, 2), (D, last)];
    assert_eq!(sent(&p10(), &places(6)), Err(47));
    assert_eq!(sent(&p10(), &places(0)), Err(47));
    assert_eq!(sent(&p10(), &places(2)), Err(47));
    assert!(sent(&p10(), &places(5)).is_ok());
    assert_eq!(sent(&p4(), &[(A, 2)]), Err(47));
    assert_eq!(sent(&p4(), &[(A, 3), (B, 2)]), Err(47));
    sends(&p4(), &[(A, 2), (B, 1)], &[14, 14, B, A]);
}

/// "Where a number is not reserved, [..] repeated, or there are over four"
#[test]
fn numbers_that_are_refused() {
    for bad in [
        0,
        1,
        3,
        4,
        0x0a0a_0a0b,
        0x1a2a_3a4b,
        0x1b2a_3a4a,
        0x0a,
        u32::MAX,
    ] {
        assert_eq!(sent(&p10(), &[(bad, 0)]), Err(47), "{:#x}", bad);
        assert_eq!(sent(&p10(), &[(A, 0), (bad, 1)]), Err(47));
        assert_eq!(sent(&p10(), &[(A, 0), (B, 1), (C, 2), (bad, 3)]), Err(47));
    }
    assert_eq!(sent(&p10(), &[(A, 0), (A, 1)]), Err(47));
    assert_eq!(sent(&p10(), &[(A, 0), (B, 1), (C, 2), (A, 3)]), Err(47));
    assert_eq!(sent(&p10(), &[(A, 0), (B, 1), (B, 2)]), Err(47));
    let five = [(A, 0), (B, 1), (C, 2), (D, 3), (E, 4)];
    for count in 0..=4 {
        assert!(sent(&p10(), &five[..count]).is_ok());
    }
    assert_eq!(sent(&p10(), &five), Err(47));
    assert_eq!(sent(&full(64), &five), Err(47));
}

/// "47 from that call, whose only other number is 37"; "26 and 37 count all given".
#[test]
fn room_for_the_list() {
    let five = [(A, 0), (B, 1), (C, 2), (D, 3), (E, 4)];
    for (attempt, own) in [(p4(), 1), (p10(), 2), (full(64), 64)] {
        for count in 0..=5 {
            let need = 4 + 4 * (own + count);
            let answer = |room| attempt.information(&five[..count], room).map(|b| b.len());
            let enough = if count < 5 { Ok(need) } else { Err(47) };
            assert_eq!(answer(need), enough);
            assert_eq!(answer(need + 1), enough);
            assert_eq!(answer(need - 1), Err(37));
            assert_eq!(answer(0), Err(37));
        }
    }
    // 37 before 47, whatever the fault.
    for faulty in [
        &[(12, 0)][..],
        &[(A, 9)],
        &[(A, 0), (A, 1)],
        &[(A, 0), (B, 0)],
    ] {
        let need = 4 + 4 * (2 + faulty.len());
        assert_eq!(p10().information(faulty, need - 1), Err(37));
        assert_eq!(p10().information(faulty, need), Err(47));
    }
    let many = vec![(A, 0); 2_000];
    assert_eq!(p10().information(&many, 4 + 4 * 2_002 - 1), Err(37));
    assert_eq!(p10().information(&many, 4 + 4 * 2_002), Err(47));
}

/// An own list of every entry that a table may have, and four numbers.
#[test]
fn longest_list() {
    let attempt = full(64);
    let own = attempt.own_list();
    assert_eq!(own.len(), 64);
    let bytes = sent(&attempt, &[(A, 67), (B, 0), (C, 33), (D, 66)]).unwrap();
    assert_eq!(bytes.len(), 276);
    let list = list_on_the_wire(&bytes[4..]);
    let parts = [&[B][..], &own[..32], &[C], &own[32..], &[D, A]];
    assert_eq!(list, parts.concat());
    assert_eq!(list_on_the_wire(&bytes[..4]), [163]);
    assert_eq!(
        sent(&attempt, &[(A, 67), (B, 0), (C, 33), (D, 68)]),
        Err(47)
    );
    assert!(read_information(Sender::Client, &bytes).is_ok());
}

/// Own lists that no attempt has, with which the library answers for any record.
#[test]
fn own_lists_of_no_attempt() {
    let write = |own: &[u32], reserved: &[(u32, u32)]| client_information(3, own, reserved, 16);
    assert_eq!(write(&[], &[]), Ok(in_fours(&[3])));
    assert_eq!(write(&[], &[(A, 0)]), Ok(in_fours(&[3, A])));
    assert_eq!(write(&[], &[(A, 1), (B, 0)]), Ok(in_fours(&[3, B, A])));
    assert_eq!(write(&[], &[(A, 1)]), Err(47));
    assert_eq!(write(&[0, A], &[(A, 1)]), Ok(in_fours(&[3, 0, A, A])));
    assert_eq!(write(&[0, A], &[(A, 1), (B, 0)]), Err(37));
}

/// "no event": the attempt stays as it is. It may have ended.
#[test]
fn information_of_ended_attempts() {
    let ends = [
        (outcome(4, 4, &[4, 3]), End::Completed(4)),
        (outcome(4, 4, &[4]), End::Closed(75)),
        (outcome(2, 2, &[4, 3]), End::Closed(72)),
        (outcome(3, 3, &[]), End::Closed(74)),
        (missing(3), End::Closed(71)),
    ];
    for (event, end) in ends {
        let mut attempt = p10();
        let _ = attempt.event(&event);
        assert_eq!(attempt.end, end);
        let before = attempt.clone();
        sends(&attempt, &[(A, 1)], &[3, 3, A, 4]);
        assert_eq!(sent(&attempt, &[(A, 3)]), Err(47));
        assert_eq!(attempt.information(&[], 11), Err(37));
        assert_eq!(attempt, before);
    }
    // Nothing in common.
    let mut attempt = begin(&[14, 12, 10], &[], 12);
    refused_ended(&mut attempt, &listing(&[13]), 65);
    sends(&attempt, &[(A, 1)], &[12, 12, A]);
}

/// "The own list now is two: as sent, and as may be answered. Rule 72 and demand 3's 'in our list'
/// read the second, so a reserved Chosen falls under 72."
#[test]
fn reserved_chosen() {
    let reserved = [(A, 0), (B, 3)];
    sends(&p10(), &reserved, &[3, A, 3, 4, B]);
    assert_eq!(p10().own_list(), [3, 4]);
    for chosen in [A, B, C] {
        for (in_use, available) in [
            (chosen, &[4, 3][..]),
            (chosen, &[chosen]),
            (4, &[4, 3]),
            (3, &[]),
        ] {
            refused_ended(&mut p10(), &outcome(in_use, chosen, available), 72);
            let started = begin(&[3, 4, 1, 2], &[(1, 2), (3, 4)], 1);
            let events = [listing(&[4, 3]), outcome(in_use, chosen, available)];
            assert_eq!(completed(&started, &events), None);
            refused_ended(&mut started.clone(), &events[1], 72);
        }
    }
    assert_eq!(close_code(72, false), Some(0x11));
    // Reserved numbers among Available have no weight.
    completes(&mut p10(), &outcome(4, 4, &[A, 4, B, 3, A]), 4);
    refused_ended(&mut p10(), &outcome(4, 4, &[A, 4, B]), 75);
}

/// A server reads the list as sent, and takes no notice of what is reserved in it.
#[test]
fn server_after_a_list_as_sent() {
    let with = sent(&p10(), &[(A, 0), (B, 3), (C, 2)]).unwrap();
    let without = sent(&p10(), &[]).unwrap();
    assert_eq!(without, information(3, &[3, 4]));
    for information in [&with, &without] {
        let choice = |accepted: &[u32], pairs| {
            server_choice(&[3], accepted, pairs, &[], 3, Some(information))
        };
        assert_eq!(choice(&[4, 3], &[(3, 4)]), Ok(Decision::Use(4)));
        assert_eq!(choice(&[4, 3], &[(4, 3)]), Ok(Decision::Use(3)));
        assert_eq!(choice(&[4, 3], &[]), Ok(Decision::Use(3)));
        assert_eq!(choice(&[4], &[]), Ok(Decision::Negotiate));
    }
}

// The packet.

/// A datagram of 1,200 bytes or more in this version, with the IDs of the whole case.
fn received(version: u32) -> Vec<u8> {
    long_packet(0xc0, version, &[0xaa, 0xbb], &[0xcc], &[0; 1_190])
}

/// The packet that offers 14, 13, 10, with room for all of it.
fn packet(version: u32, reserved: &[u32]) -> Result<Vec<u8>, u8> {
    version_negotiation(&received(version), &[14, 13, 10], reserved, 64, usize::MAX)
}

/// "the box's packet may end with up to four, in the order given"
#[test]
fn packets_that_end_with_reserved_numbers() {
    let head = [0xc0, 0, 0, 0, 0, 1, 0xcc, 2, 0xaa, 0xbb];
    let all = [D, A, C, B];
    for count in 0..=4 {
        let given = &all[..count];
        let list = in_fours(&[&[14, 13, 10][..], given].concat());
        assert_eq!(packet(12, given), Ok([&head[..], &list].concat()));
    }
    assert_eq!(packet(12, &[A, B, C, D, E]), Err(28));
    // The whole case's 22 bytes are its beginning.
    assert_eq!(packet(12, &[]).unwrap().len(), 22);
    assert_eq!(packet(12, &all).unwrap().len(), 38);
}

/// "Where a number is not reserved, is the version received (packet), repeated, or there are over
/// four"
#[test]
fn numbers_of_a_packet_that_are_refused() {
    for bad in [
        0,
        1,
        12,
        13,
        14,
        0x0a0a_0a0b,
        0x1a2a_3a4b,
        0x1b2a_3a4a,
        u32::MAX,
    ] {
        assert_eq!(packet(12, &[bad]), Err(28), "{:#x}", bad);
        assert_eq!(packet(12, &[A, bad]), Err(28));
        assert_eq!(packet(12, &[A, B, C, bad]), Err(28));
    }
    assert_eq!(packet(12, &[A, A]), Err(28));
    assert_eq!(packet(12, &[A, B, C, A]), Err(28));
    // A received version that is reserved: given again a 28, not given it is answered.
    assert_eq!(packet(A, &[A]), Err(28));
    assert_eq!(packet(A, &[B, C, D, A]), Err(28));
    assert!(packet(A, &[]).is_ok());
    assert!(packet(A, &[B]).is_ok());
    assert!(packet(A, &[B, C, D, E]).is_ok());
    // It is in no table, so it is no 24; offered, it is a 23.
    let offered = version_negotiation(&received(A), &[14, A], &[A], 64, usize::MAX);
    assert_eq!(offered, Err(23));
}

/// "26 and 37 count all given", and 26 comes before 28.
#[test]
fn room_for_a_packet_with_reserved_numbers() {
    let five = [A, B, C, D, E];
    let write = |given: &[u32], room| {
        let answer = version_negotiation(&received(12), &[14, 13, 10], given, 64, room);
        answer.map(|packet| packet.len())
    };
    for count in 0..=5 {
        let need = 22 + 4 * count;
        let enough = if count < 5 { Ok(need) } else { Err(28) };
        assert_eq!(write(&five[..count], need), enough);
        assert_eq!(write(&five[..count], need + 7), enough);
        assert_eq!(write(&five[..count], need - 1), Err(26));
    }
    for faulty in [&[12][..], &[A, A], &[13], &[0x0a0a_0a0b, B]] {
        let need = 22 + 4 * faulty.len();
        assert_eq!(write(faulty, need - 1), Err(26));
        assert_eq!(write(faulty, need), Err(28));
    }
    let many = vec![A; 2_000];
    assert_eq!(write(&many, 22 + 8_000 - 1), Err(26));
    assert_eq!(write(&many, 22 + 8_000), Err(28));
}

/// 28 comes after all others.
#[test]
fn refusals_before_28() {
    for faulty in [&[12][..], &[A, A], &[A, B, C, D, E]] {
        let write = |received: &[u8], offered: &[u32], bits, room| {
            version_negotiation(received, offered, faulty, bits, room)
        };
        let whole = received(12);
        assert_eq!(write(&[0; 65_536], &[], 128, 0), Err(11));
        assert_eq!(write(&[], &[], 128, 0), Err(12));
        assert_eq!(write(&whole[..1_199], &[], 128, 0), Err(20));
        assert_eq!(write(&[0; 1_200], &[], 128, 0), Err(21));
        assert_eq!(write(&received(0), &[], 128, 0), Err(22));
        assert_eq!(write(&whole, &[], 128, 0), Err(23));
        assert_eq!(write(&whole, &[12], 128, 0), Err(24));
        assert_eq!(write(&whole, &[13], 128, 0), Err(25));
        assert_eq!(write(&whole, &[13], 127, 0), Err(26));
        assert_eq!(write(&whole, &[13], 127, usize::MAX), Err(28));
    }
}

/// "The packet's size limit grows by 16."
#[test]
fn longest_packet_with_reserved_numbers() {
    let received = long_packet(0, 99, &[7; 255], &[8; 255], &[0; 683]);
    let offered: Vec<u32> = (1..=64).collect();
    let write = |given: &[u32], room| version_negotiation(&received, &offered, given, 0, room);
    let sent = write(&[A, B, C, D], 789).unwrap();
    assert_eq!(sent.len(), 789);
    assert_eq!(sent.len(), MAX_PACKET);
    assert!(sent.len() <= received.len());
    assert_eq!(write(&[A, B, C, D], 788), Err(26));
    assert_eq!(write(&[A, B, C, D, E], MAX_PACKET), Err(26));
    assert_eq!(write(&[A, B, C, D, E], MAX_PACKET + 4), Err(28));
}

/// A client takes no notice of what is reserved in a packet: P4, P5, P7 and an end by 65.
#[test]
fn client_after_a_packet_with_reserved_numbers() {
    let acts = |list: &[u32]| begin(&[14, 12, 10], &[], 12).event(&listing(list));
    assert_eq!(acts(&[10, 13, 14, A, B]), Ok(Effect::Acted(14)));
    assert_eq!(acts(&[A, 10, 13, C]), Ok(Effect::Acted(10)));
    assert_eq!(acts(&[12, 14, A, B, C, D]), Err(64));
    assert_eq!(acts(&[13, A]), Err(65));
    assert_eq!(acts(&[A]), Err(65));
    let mut attempt = begin(&[14, 12, 10], &[], 12);
    let _ = attempt.event(&listing(&[10, 13, 14, A]));
    completes(&mut attempt, &outcome(14, 14, &[13, 14]), 14);
}

/// 28 and 47 "join document 01's table without a close code".
#[test]
fn no_close_codes() {
    for number in [28, 47] {
        assert_eq!(close_code(number, false), None);
        assert_eq!(close_code(number, true), None);
    }
}
