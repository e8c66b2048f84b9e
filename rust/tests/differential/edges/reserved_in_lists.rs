//! Reserved numbers in a client's list (C-18): each place, each two, four at all places of a short
//! list; every length of the buffer; the papers' own lists; ended attempts; thousands of numbers.

use super::versions;
use crate::checks::*;
use crate::model::{Event, MAX_RESERVED, MAX_TABLE};
use crate::random::{in_fours, information, long_packet};

/// Four that differ in one bit or more of the high halves, a fifth and a sixth.
const NUMBERS: [u32; 6] = [
    0x1a2a_3a4a,
    0x0a2a_3a4a,
    0x1a2a_3a5a,
    0xfafa_fafa,
    0x0a0a_0a0a,
    0x5a6a_7a8a,
];

/// The pairs by which the last of so many versions may be answered with all others.
fn to_all(table: &[u32]) -> Vec<(u32, u32)> {
    let (last, others) = table.split_last().unwrap();
    others.iter().map(|to| (*last, *to)).collect()
}

/// The call for an own list of so many entries, all of them of a table.
fn check_list(own: usize, reserved: &[(u32, u32)], room: usize) -> u32 {
    let table = versions(own);
    let original = table[own - 1];
    let (pairs, ids) = (to_all(&table), (&[0xd1, 0xd2][..], &[0x51][..]));
    let seen = check_write_client_information(
        &table,
        &pairs,
        &[],
        original,
        ids.0,
        ids.1,
        &[],
        reserved,
        room,
    );
    seen.unwrap()
}

/// The same with room for all of it.
fn seen(own: usize, reserved: &[(u32, u32)]) -> u32 {
    check_list(own, reserved, 4 + 4 * (own + reserved.len()))
}

/// The numbers, one after the other, at these places.
fn at(places: &[u32]) -> Vec<(u32, u32)> {
    let numbers = NUMBERS.iter().copied().cycle();
    numbers.zip(places.iter().copied()).collect()
}

/// What has to be seen of distinct numbers at these places.
fn due(own: usize, places: &[u32]) -> u32 {
    let entries = (own + places.len()) as u32;
    let twice = (1..places.len()).any(|k| places[..k].contains(&places[k]));
    let past = places.iter().any(|place| *place >= entries);
    u32::from(twice || past || places.len() > MAX_RESERVED) * 47
}

#[test]
fn one_number_at_each_place_of_each_list() {
    for own in 1..=MAX_TABLE {
        for place in 0..=own as u32 + 3 {
            assert_eq!(seen(own, &at(&[place])), due(own, &[place]));
        }
        assert_eq!(seen(own, &at(&[own as u32])), 0);
        assert_eq!(seen(own, &at(&[own as u32 + 1])), 47);
    }
}

#[test]
fn two_numbers_at_each_two_places() {
    for own in [1, 2, 3, 5, MAX_TABLE - 1, MAX_TABLE] {
        for one in 0..own as u32 + 3 {
            for other in 0..own as u32 + 3 {
                let places = [one, other];
                assert_eq!(seen(own, &at(&places)), due(own, &places));
            }
        }
    }
}

/// All places of three and of four numbers, those that are taken twice and past the end too.
#[test]
fn four_numbers_at_all_places_of_short_lists() {
    for own in 1..=3_usize {
        let places: Vec<u32> = (0..own as u32 + 5).collect();
        for a in &places {
            for b in &places {
                for c in &places {
                    let three = [*a, *b, *c];
                    assert_eq!(seen(own, &at(&three)), due(own, &three));
                    for d in &places {
                        let four = [*a, *b, *c, *d];
                        assert_eq!(seen(own, &at(&four)), due(own, &four));
                    }
                }
            }
        }
    }
}

/// The longest list as sent, with four numbers at its front, its end, apart, and about each place.
#[test]
fn four_numbers_in_the_longest_list() {
    let last = (MAX_TABLE + MAX_RESERVED) as u32 - 1;
    for places in [
        [0, 1, 2, 3],
        [3, 2, 1, 0],
        [last, last - 1, last - 2, last - 3],
        [0, last, 1, last - 1],
        [31, 32, 33, 34],
    ] {
        assert_eq!(seen(MAX_TABLE, &at(&places)), 0);
    }
    for place in 0..=last - 3 {
        let run = [place + 2, place, place + 3, place + 1];
        assert_eq!(seen(MAX_TABLE, &at(&run)), 0);
        for fault in [place, last + 1, last + 2, last + 4, u32::MAX] {
            for which in 1..MAX_RESERVED {
                let mut places = [
                    place,
                    (place + 7) % 68,
                    (place + 21) % 68,
                    (place + 40) % 68,
                ];
                assert_eq!(seen(MAX_TABLE, &at(&places)), 0);
                places[which] = fault;
                assert_eq!(seen(MAX_TABLE, &at(&places)), 47);
            }
        }
    }
}

/// Places whose low bits are those of one that is free.
#[test]
fn places_far_past_the_end() {
    for own in [1, 3, MAX_TABLE] {
        for bit in 7..32 {
            for low in [0, 1, own as u32] {
                assert_eq!(seen(own, &at(&[low | 1 << bit])), 47);
                assert_eq!(seen(own, &at(&[0, low | 1 << bit])), 47);
            }
        }
        assert_eq!(seen(own, &at(&[u32::MAX])), 47);
    }
}

/// Any bit of any of the numbers: those of the low halves make it another kind of number.
#[test]
fn every_bit_of_numbers_in_a_list() {
    for which in 0..MAX_RESERVED {
        for bit in 0..32 {
            let mut four = at(&[5, 0, 3, 1]);
            four[which].0 = 0x8a8a_8a8a ^ 1 << bit;
            let number = if bit % 8 < 4 { 47 } else { 0 };
            assert_eq!(seen(2, &four), number);
            assert_eq!(seen(MAX_TABLE, &four[which..=which]), number);
            // Beside one that differs in that bit alone.
            four[(which + 1) % MAX_RESERVED].0 = 0x8a8a_8a8a;
            assert_eq!(seen(2, &four), number);
        }
    }
}

/// A repeat at each two of four, and numbers of another kind at each: entries of the list too.
#[test]
fn faulty_numbers_in_a_list() {
    for count in 1..=MAX_RESERVED {
        let given = at(&(0..count as u32).rev().collect::<Vec<u32>>());
        assert_eq!(seen(3, &given), 0);
        for one in 0..count {
            for other in 0..count {
                let mut repeated = given.clone();
                repeated[other].0 = repeated[one].0;
                let number = if one == other { 0 } else { 47 };
                assert_eq!(seen(3, &repeated), number);
            }
            for bad in [0, 1, 100, 102, 0x0a, 0x0a0a_0a0b, 0x1a2a_3a4b, u32::MAX] {
                let mut faulty = given.clone();
                faulty[one].0 = bad;
                assert_eq!(seen(3, &faulty), 47);
            }
        }
    }
}

/// Every length of the buffer, with every number of numbers: 37 counts all given, and comes before 47.
#[test]
fn every_length_of_the_buffer_for_a_list() {
    for own in [1, 2, 7, MAX_TABLE] {
        for given in 0..=MAX_RESERVED + 2 {
            let good: Vec<u32> = (0..given as u32).collect();
            for places in [good, vec![0; given], vec![999; given]] {
                let need = 4 + 4 * (own + given);
                for room in (need.saturating_sub(36)..need + 10).chain([0, 1_024]) {
                    let number = if room < need { 37 } else { due(own, &places) };
                    assert_eq!(check_list(own, &at(&places), room), number);
                }
            }
        }
    }
}

/// Many numbers, each of them one that may be sent, or none; with room for all and for four.
#[test]
fn thousands_of_numbers() {
    for count in [5, 6, 64, 255, 256, 257, 260, 1_000, 4_096, 65_536, 65_540] {
        let places: Vec<u32> = (0..count).collect();
        let bad = vec![(12, 0); count as usize];
        for own in [1, MAX_TABLE] {
            let with_room_for_four =
                |given: &[(u32, u32)]| check_list(own, given, 4 + 4 * (own + 4));
            assert_eq!(seen(own, &at(&places)), 47);
            assert_eq!(seen(own, &bad), 47);
            assert_eq!(with_room_for_four(&at(&places)), 37);
            assert_eq!(with_room_for_four(&bad), 37);
        }
    }
}

/// The papers' own lists, before and after the act, and after each end.
#[test]
fn own_lists_of_the_papers() {
    let packet = |list: &[u32]| Event::Datagram(long_packet(0, 0, &[], &[], &in_fours(list)));
    let outcome = |in_use, available: &[u32]| Event::Outcome {
        in_use,
        information: Some(information(in_use, available)),
    };
    let p10: &[(u32, u32)] = &[(1, 2), (3, 4)];
    let attempts = [
        // P4 to P7: an act, then completed, 75, 74; 64 leaves it as it is; 65 ends it.
        (
            &[14, 12, 10][..],
            &[][..],
            12,
            vec![packet(&[10, 13, 14]), outcome(14, &[13, 14])],
        ),
        (
            &[14, 12, 10],
            &[],
            12,
            vec![packet(&[10, 13]), outcome(10, &[10, 13, 14])],
        ),
        (
            &[14, 12, 10],
            &[],
            12,
            vec![packet(&[10, 13, 14]), outcome(14, &[])],
        ),
        (
            &[14, 12, 10],
            &[],
            12,
            vec![packet(&[12, 14]), packet(&[13])],
        ),
        // P10 to P12: completed with 4, 75, 72.
        (
            &[3, 4, 1, 2],
            p10,
            1,
            vec![packet(&[4, 3]), outcome(4, &[4, 3])],
        ),
        (
            &[3, 4, 1, 2],
            p10,
            1,
            vec![packet(&[4, 3]), outcome(4, &[4])],
        ),
        (
            &[3, 4, 1, 2],
            p10,
            1,
            vec![packet(&[4, 3]), outcome(2, &[4, 3])],
        ),
    ];
    for (table, pairs, original, events) in &attempts {
        for after in 0..=events.len() {
            for barred in [&[][..], &[(3, 4)], &[(1, 2)]] {
                for places in [&[][..], &[0], &[1], &[2], &[0, 3, 1], &[4, 0, 2, 3], &[7]] {
                    let (given, events) = (at(places), &events[..after]);
                    check_write_client_information(
                        table,
                        pairs,
                        barred,
                        *original,
                        &[],
                        &[],
                        events,
                        &given,
                        64,
                    )
                    .unwrap();
                }
            }
        }
    }
}

/// The list that is lent lies between others.
#[test]
fn numbers_between_others() {
    for count in 0..=MAX_RESERVED {
        let good = at(&(0..count as u32).collect::<Vec<u32>>());
        for around in [(12, 0), (NUMBERS[0], 0), (NUMBERS[4], 900)] {
            let all = [&[around; 3][..], &good, &[around; 3]].concat();
            assert_eq!(seen(5, &all[3..3 + count]), 0);
        }
    }
}
