//! Calls of lists as words, of the second way to choose, and of joined words.

use crate::checks::*;
use crate::random::{self, Random};
use crate::seen::Seen;

pub fn calls(seen: &mut Seen, random: &mut Random, stream: usize) {
    of_numbers(seen, random, stream);
    of_bytes(seen, random, stream);

    let (table, word) = random.choose_from_word_call();
    compare!(
        seen,
        stream,
        "qv_choose_from_word",
        check_choose_from_word(&table[..], word)
    );

    let (table, one, other) = random.joined_call();
    compare!(
        seen,
        stream,
        "qv_choose_by_word, joined lists",
        check_joined(&table[..], &one[..], &other[..])
    );
}

fn of_numbers(seen: &mut Seen, random: &mut Random, stream: usize) {
    let (table, list) = random.word_call();
    compare!(
        seen,
        stream,
        "qv_list_word",
        check_list_word(&table[..], &list[..])
    );
    compare!(
        seen,
        stream,
        "qv_choose_by_word",
        check_choose_by_word(&table[..], &list[..])
    );
    compare!(
        seen,
        stream,
        "qv_count_held",
        check_count_held(&table[..], &list[..])
    );
}

fn of_bytes(seen: &mut Seen, random: &mut Random, stream: usize) {
    let (table, list) = random.word_call();
    let mut bytes = random::in_fours(&list);
    if random.one_in(3) {
        let more = 1 + random.below(3);
        bytes.extend(random.bytes(more));
    }
    compare!(
        seen,
        stream,
        "qv_list_word_from_bytes",
        check_list_word_from_bytes(&table[..], &bytes[..])
    );
    compare!(
        seen,
        stream,
        "qv_choose_by_word_from_bytes",
        check_choose_by_word_from_bytes(&table[..], &bytes[..])
    );
    compare!(
        seen,
        stream,
        "qv_count_held_from_bytes",
        check_count_held_from_bytes(&table[..], &bytes[..])
    );
}
