//! Tables, pairs and choices: worked calls, slips, edges, the order of the
//! refusals. Lists as words, and the second way to choose.

use crate::model::*;
use crate::random::{in_fours, Random};

// The worked calls.

#[test]
fn p1_to_p3_choice() {
    let table = [14, 12, 10];
    assert_eq!(choose(&table, &[10, 13, 14]), Ok(14));
    assert_eq!(choose(&table, &[]), Err(42));
    assert_eq!(choose(&table, &[13, 0x1a2a_3a4a]), Err(42));
}

#[test]
fn server_calls() {
    let first_flight = in_fours(&[3, 3, 4]);
    let answer = |accepted: &[u32], pairs: &[(u32, u32)]| {
        server_choice(&[3], accepted, pairs, &[], 3, Some(&first_flight))
    };
    assert_eq!(answer(&[4, 3], &[(3, 4)]), Ok(Decision::Use(4)));
    assert_eq!(answer(&[4, 3], &[(4, 3)]), Ok(Decision::Use(3)));
    assert_eq!(answer(&[4, 3], &[]), Ok(Decision::Use(3)));
    assert_eq!(answer(&[4], &[]), Ok(Decision::Negotiate));
}

// Slips seen elsewhere.

#[test]
fn slip_reserved_mask() {
    assert!(is_reserved(0x0a0a_0a0a));
    assert!(is_reserved(0x1a2a_3a4a));
    assert!(is_reserved(0xfafa_fafa));
    for near in [
        0x1b2a_3a4a,
        0x0f0f_0f0f,
        0x0e0a_0a0a,
        0x0a0a_0a0b,
        0xaaaa_aaa0,
        0,
    ] {
        assert!(!is_reserved(near), "{:#010x}", near);
    }
}

#[test]
fn slip_client_order_of_preference() {
    let first_flight = in_fours(&[3, 4, 3]);
    let answer =
        |accepted: &[u32]| server_choice(&[3], accepted, &[(3, 4)], &[], 3, Some(&first_flight));
    assert_eq!(answer(&[3, 4]), Ok(Decision::Use(3)));
    assert_eq!(answer(&[4, 3]), Ok(Decision::Use(4)));
}

// Edges of the rules, and the order of the refusals.

#[test]
fn tables() {
    // Document 02, C-14: "Tables go from 16 to 64 entries".
    let numbers: Vec<u32> = (1..=66).collect();
    for entries in [1, 16, 17, 63, 64] {
        assert!(is_table(&numbers[..entries]), "{}", entries);
    }
    assert!(!is_table(&numbers[..65]));
    assert!(!is_table(&numbers));
    assert!(!is_table(&[]));
    assert!(!is_table(&[1, 0]));
    assert!(!is_table(&[1, 0x1a2a_3a4a]));
    assert!(is_table(&[1, 0x1b2a_3a4a]));
    assert!(!is_table(&[1, 2, 1]));
}

#[test]
fn pair_tables() {
    assert!(are_pairs(&[]));
    // Document 02, C-14: "pairs from 64 to 1,024".
    for count in [64, 65, 1_023, 1_024] {
        assert!(are_pairs(&vec![(1, 2); count]), "{}", count);
    }
    assert!(!are_pairs(&[(1, 2); 1_025]));
    assert!(!are_pairs(&[(1, 2); 1_026]));
    assert!(are_pairs(&[(1, 2), (2, 1)]));
    for bad in [(0, 1), (1, 0), (0x1a2a_3a4a, 1), (1, 0x1a2a_3a4a), (1, 1)] {
        assert!(!are_pairs(&[(1, 2), bad]), "{:?}", bad);
    }
}

#[test]
fn choice_refusals() {
    let long = vec![7; 16_383];
    assert_eq!(choose(&[], &long), Err(40));
    assert_eq!(choose(&[7], &long), Err(40));
    assert_eq!(choose(&[7], &long[1..]), Ok(7));
    assert_eq!(choose(&[7, 7], &[7]), Err(41));
    assert_eq!(choose(&[7, 8], &[9]), Err(42));
}

#[test]
fn server_order() {
    let good = in_fours(&[3, 3]);
    let bad_pair = [(3, 3)];
    let call = |readable: &[u32], accepted: &[u32], pairs: &[(u32, u32)], version| {
        server_choice(readable, accepted, pairs, &[], version, Some(&good))
    };
    assert_eq!(call(&[], &[3], &bad_pair, 9), Err(41));
    assert_eq!(call(&[3], &[3, 3], &bad_pair, 9), Err(41));
    assert_eq!(call(&[3], &[3], &bad_pair, 9), Err(43));
    // Not readable comes before the information is looked at.
    let broken = server_choice(&[3], &[3], &[], &[], 9, Some(&[]));
    assert_eq!(broken, Ok(Decision::Negotiate));
    assert_eq!(call(&[4], &[3], &[], 3), Ok(Decision::Negotiate));
    assert_eq!(call(&[3, 4], &[3], &[], 4), Err(51));
    assert_eq!(call(&[3], &[3], &[], 3), Ok(Decision::Use(3)));
    let without = |accepted: &[u32]| server_choice(&[3], accepted, &[], &[], 3, None);
    assert_eq!(without(&[4, 3]), Ok(Decision::Use(3)));
    assert_eq!(without(&[4]), Ok(Decision::Negotiate));
    let cases: [(&[u32], u8); 4] = [(&[0], 34), (&[4, 4, 0], 35), (&[4, 3], 36), (&[4, 4], 51)];
    for (versions, no) in cases {
        let information = in_fours(versions);
        let answer = server_choice(&[3], &[3], &[], &[], 3, Some(&information));
        assert_eq!(answer, Err(no));
    }
    // Pairs are not chained: 3 to 4 to 5.
    let list = in_fours(&[3, 3, 4, 5]);
    let answer = server_choice(&[3], &[5, 4], &[(3, 4), (4, 5)], &[], 3, Some(&list));
    assert_eq!(answer, Ok(Decision::Use(4)));
    // Paired, but not in Available.
    let answer = server_choice(&[3], &[4, 3], &[(3, 4)], &[], 3, Some(&good));
    assert_eq!(answer, Ok(Decision::Use(3)));
}

// Document 02, C-15: lists as words, and the second way to choose.

/// The word of a list, the choice from the word and from the list, by both ways, and the count.
#[track_caller]
fn by_word(table: &[u32], list: &[u32], word: u64, choice: Result<u32, u8>, count: usize) {
    assert_eq!(list_word(table, list), Ok(word));
    assert_eq!(choose_from_word(table, word), choice);
    assert_eq!(choose_by_word(table, list), choice);
    assert_eq!(choose(table, list), choice);
    assert_eq!(count_held(table, list), Ok(count));
}

#[test]
fn p1_to_p3_by_words() {
    let table = [14, 12, 10];
    by_word(&table, &[10, 13, 14], 0b101, Ok(14), 2);
    by_word(&table, &[], 0, Err(42), 0);
    by_word(&table, &[13, 0x1a2a_3a4a], 0, Err(42), 0);
}

#[test]
fn words_of_a_full_table() {
    let table: Vec<u32> = (1..=64).collect();
    by_word(&table, &[64], 1 << 63, Ok(64), 1);
    by_word(&table, &[65, 64, 0, 64], 1 << 63, Ok(64), 1);
    by_word(&table, &[1], 1, Ok(1), 1);
    by_word(&table, &[33], 1 << 32, Ok(33), 1);
    by_word(&table, &[64, 1], 1 << 63 | 1, Ok(1), 2);
    let turned: Vec<u32> = (1..=64).rev().collect();
    by_word(&table, &turned, u64::MAX, Ok(1), 64);
    by_word(&turned, &table, u64::MAX, Ok(64), 64);
    by_word(&turned, &[64, 63], 0b11, Ok(64), 2);
    by_word(&table, &turned[..63], u64::MAX - 1, Ok(2), 63);
}

#[test]
fn words_of_repeats_and_unheld_numbers() {
    let table = [14, 12, 10];
    by_word(&table, &[10, 10, 10], 0b100, Ok(10), 1);
    by_word(&table, &[10, 12, 10, 12, 12], 0b110, Ok(12), 2);
    let list = [0, 10, 0x1a2a_3a4a, 99, 12, 0, 10, 99];
    by_word(&table, &list, 0b110, Ok(12), 2);
    by_word(&[7], &[7, 7], 1, Ok(7), 1);
}

#[test]
fn word_refusals() {
    let long = vec![7; 16_383];
    for table in [&[7][..], &[7, 7], &[], &[9]] {
        assert_eq!(list_word(table, &long), Err(40));
        assert_eq!(choose_by_word(table, &long), Err(40));
        assert_eq!(count_held(table, &long), Err(40));
    }
    by_word(&[7], &long[1..], 1, Ok(7), 1);
    by_word(&[9], &long[1..], 0, Err(42), 0);
    let many: Vec<u32> = (1..=65).collect();
    for table in [&many[..], &[7, 7], &[], &[7, 0], &[7, 0x1a2a_3a4a]] {
        // 41 before 42.
        for list in [&[7][..], &[9_000], &[], &long[1..]] {
            assert_eq!(list_word(table, list), Err(41));
            assert_eq!(choose_by_word(table, list), Err(41));
            assert_eq!(count_held(table, list), Err(41));
        }
        for word in [0, 1, u64::MAX] {
            assert_eq!(choose_from_word(table, word), Err(41));
        }
    }
}

#[test]
fn words_with_bits_past_the_table() {
    let table = [14, 12, 10];
    assert_eq!(choose_from_word(&table, !0b111), Err(42));
    assert_eq!(choose_from_word(&table, 1 << 3), Err(42));
    assert_eq!(choose_from_word(&table, 1 << 63), Err(42));
    assert_eq!(choose_from_word(&table, !0b11), Ok(10));
    assert_eq!(choose_from_word(&table, 1 << 63 | 0b010), Ok(12));
    assert_eq!(choose_from_word(&table, u64::MAX), Ok(14));
}

/// "Joining lists is joining words, where the joined list keeps within 40."
#[test]
fn joined_words() {
    let table = [14, 12, 10];
    let (one, other) = (list_word(&table, &[10, 13]), list_word(&table, &[12, 10]));
    assert_eq!((one, other), (Ok(0b100), Ok(0b110)));
    by_word(&table, &[10, 13, 12, 10], 0b100 | 0b110, Ok(12), 2);
    let (one, other) = (vec![10; 8_191], vec![12; 8_192]);
    by_word(&table, &one, 0b100, Ok(10), 1);
    by_word(&table, &other, 0b010, Ok(12), 1);
    let joined = [&one[..], &other].concat();
    assert_eq!(list_word(&table, &joined), Err(40));
    by_word(&table, &joined[1..], 0b110, Ok(12), 2);
}

/// "It must give the same choice, refusals included, as the plain way on every table and list."
#[test]
fn the_two_ways_agree() {
    let mut random = Random::new(15);
    for _ in 0..6_000 {
        let (table, list) = random.choose_call();
        assert_eq!(choose_by_word(&table, &list), choose(&table, &list));
        let (table, list) = random.word_call();
        assert_eq!(choose_by_word(&table, &list), choose(&table, &list));
        let word = list_word(&table, &list);
        let ones = word.map(|word| word.count_ones() as usize);
        assert_eq!(ones, count_held(&table, &list));
        let place = word.map(|word| word.trailing_zeros() as usize);
        let chosen = place.and_then(|place| table.get(place).copied().ok_or(42));
        assert_eq!(chosen, choose(&table, &list));
        let (table, one, other) = random.joined_call();
        let joined = [&one[..], &other].concat();
        let words = (list_word(&table, &one), list_word(&table, &other));
        if let (Ok(one), Ok(other), true) = (words.0, words.1, joined.len() <= 16_382) {
            assert_eq!(list_word(&table, &joined), Ok(one | other));
            assert_eq!(
                choose_from_word(&table, one | other),
                choose(&table, &joined)
            );
        }
    }
}
