//! The seeded inputs: every answer comes up, and the same seed gives the same inputs.

mod barred;
mod configurations;
mod journal;
mod parameters;
mod reserved;

use crate::model::*;
use crate::random::Random;
use std::collections::BTreeMap;

/// How often each answer came up: a refusal's number, or 0 for none.
#[derive(Default)]
struct Reach(BTreeMap<u8, usize>);

impl Reach {
    fn note<T>(&mut self, answer: &Result<T, u8>) {
        let number = answer.as_ref().err().copied().unwrap_or(0);
        *self.0.entry(number).or_insert(0) += 1;
    }

    /// Exactly these numbers came up, each at least `least` times.
    #[track_caller]
    fn holds(&self, numbers: &[u8], least: usize) {
        let all: Vec<u8> = self.0.keys().copied().collect();
        assert_eq!(all, numbers, "{:?}", self.0);
        assert!(self.0.values().all(|n| *n >= least), "{:?}", self.0);
    }
}

#[test]
fn reach_of_the_calls() {
    let mut random = Random::new(1);
    let (mut read, mut write, mut choice) = <(Reach, Reach, Reach)>::default();
    let (mut server, mut starts) = <(Reach, Reach)>::default();
    let (mut client_reads, mut server_reads) = <(Reach, Reach)>::default();
    let (mut client_writes, mut server_writes) = <(Reach, Reach)>::default();
    for _ in 0..4_000 {
        let c = random.read_call();
        read.note(&read_header(&c.datagram, c.told));
        let c = random.negotiation_call();
        write.note(&c.packet());
        let (table, list) = random.choose_call();
        choice.note(&choose(&table, &list));
        let (sender, bytes) = random.information_bytes();
        match sender {
            Sender::Client => client_reads.note(&read_information(sender, &bytes)),
            Sender::Server => server_reads.note(&read_information(sender, &bytes)),
        }
        let c = random.information_call();
        let answer = information(c.sender, c.chosen, &c.available, c.room);
        match c.sender {
            Sender::Client => client_writes.note(&answer),
            Sender::Server => server_writes.note(&answer),
        }
        let c = random.server_call();
        server.note(&c.choice());
        let c = random.start_call();
        starts.note(&c.start());
    }
    read.holds(&[0, 11, 12, 13], 40);
    write.holds(&[0, 11, 12, 20, 21, 22, 23, 24, 25, 26, 28], 40);
    choice.holds(&[0, 40, 41, 42], 40);
    client_reads.holds(&[0, 31, 32, 33, 34, 35, 36], 20);
    server_reads.holds(&[0, 31, 32, 33, 34, 35], 20);
    client_writes.holds(&[0, 33, 34, 35, 36, 37], 20);
    server_writes.holds(&[0, 33, 34, 35, 37], 20);
    server.holds(&[0, 31, 32, 33, 34, 35, 36, 41, 43, 51], 20);
    starts.holds(&[0, 41, 43, 44, 45], 40);
}

/// Datagrams to answer: just too small, just large enough, and larger, with each
/// answer that depends on it.
#[test]
fn reach_of_the_fewest_bytes() {
    let mut random = Random::new(3);
    let (mut under, mut at, mut over) = <(Reach, Reach, Reach)>::default();
    for _ in 0..8_000 {
        let c = random.negotiation_call();
        let answer = c.packet();
        if let Ok(packet) = &answer {
            assert!(packet.len() <= c.received.len());
        }
        match c.received.len() {
            1_199 => under.note(&answer),
            1_200 => at.note(&answer),
            1_201..=1_600 => over.note(&answer),
            _ => {}
        }
    }
    under.holds(&[20], 400);
    at.holds(&[0, 21, 22, 23, 24, 25, 26, 28], 20);
    over.holds(&[0, 21, 22, 23, 24, 25, 26, 28], 20);
}

/// How often each size came up.
#[derive(Default)]
struct Sizes(BTreeMap<usize, usize>);

impl Sizes {
    fn note<T>(&mut self, items: &[T]) {
        *self.0.entry(items.len()).or_insert(0) += 1;
    }

    /// Each of these sizes came up so often, and none above the last of them.
    #[track_caller]
    fn hold(&self, sizes: &[usize], least: usize) {
        for size in sizes {
            let seen = self.0.get(size).copied().unwrap_or(0);
            assert!(seen >= least, "{} of size {}", seen, size);
        }
        assert_eq!(self.0.keys().last(), sizes.last());
    }
}

/// Tables and pairs on both sides of their limits, alone and in each call that takes them.
#[test]
fn reach_of_the_limits() {
    let mut random = Random::new(4);
    let mut tables: [Sizes; 6] = Default::default();
    let mut pairs: [Sizes; 3] = Default::default();
    let (mut started, mut decided) = (0, 0);
    for _ in 0..30_000 {
        let (start, server) = (random.start_call(), random.server_call());
        let drawn = [
            &random.table(),
            &random.choose_call().0,
            &random.negotiation_call().offered,
            &start.table,
            &server.readable,
            &server.accepted,
        ];
        for (sizes, table) in tables.iter_mut().zip(drawn) {
            sizes.note(table);
        }
        for (sizes, drawn) in pairs
            .iter_mut()
            .zip([&random.pairs(), &start.pairs, &server.pairs])
        {
            sizes.note(drawn);
        }
        let full = (start.table.len(), start.pairs.len()) == (MAX_TABLE, MAX_PAIRS);
        started += usize::from(full && start.start().is_ok());
        let full = (server.accepted.len(), server.pairs.len()) == (MAX_TABLE, MAX_PAIRS);
        decided += usize::from(full && server.choice().is_ok());
    }
    for sizes in &tables {
        sizes.hold(&(0..=66).collect::<Vec<usize>>(), 10);
        sizes.hold(&[0, 1, 63, 64, 65, 66], 50);
    }
    for sizes in &pairs {
        sizes.hold(&[0, 1, 1_023, 1_024, 1_025, 1_026], 50);
    }
    // Full tables with all pairs that are not refused.
    assert!(started >= 20 && decided >= 20, "{} {}", started, decided);
}

/// Words of lists: every refusal, every place as the lowest one and as the only one, no place and
/// all of them.
#[test]
fn reach_of_the_words() {
    let mut random = Random::new(5);
    let (mut words, mut choices, mut counts) = <(Reach, Reach, Reach)>::default();
    let (mut lowest, mut alone) = (vec![0; MAX_TABLE], vec![0; MAX_TABLE]);
    let (mut none, mut all, mut tables) = (0, 0, Sizes::default());
    for _ in 0..20_000 {
        let (table, list) = random.word_call();
        tables.note(&table);
        choices.note(&choose_by_word(&table, &list));
        counts.note(&count_held(&table, &list));
        let word = list_word(&table, &list);
        words.note(&word);
        match word {
            Ok(0) => none += 1,
            Ok(word) => {
                let place = word.trailing_zeros() as usize;
                lowest[place] += 1;
                alone[place] += usize::from(word.is_power_of_two());
                all += usize::from(word == u64::MAX);
            }
            Err(_) => {}
        }
    }
    words.holds(&[0, 40, 41], 40);
    choices.holds(&[0, 40, 41, 42], 40);
    counts.holds(&[0, 40, 41], 40);
    tables.hold(&(0..=66).collect::<Vec<usize>>(), 10);
    assert!(lowest.iter().all(|n| *n >= 20), "{:?}", lowest);
    assert!(alone.iter().all(|n| *n >= 10), "{:?}", alone);
    assert!(none >= 400 && all >= 400, "{} {}", none, all);
}

/// Words of any origin: bits past the table beside others, and alone. Joined lists: the choice from
/// either, as many entries together as there may be, and one more, with each list short enough.
#[test]
fn reach_of_joined_and_other_words() {
    let mut random = Random::new(6);
    let (mut choices, mut past_alone, mut past_beside) = <(Reach, Reach, Reach)>::default();
    let (mut joined, mut sizes) = (Reach::default(), Sizes::default());
    let (mut first, mut second, mut apart) = (0, 0, 0);
    for _ in 0..20_000 {
        let (table, word) = random.choose_from_word_call();
        let answer = choose_from_word(&table, word);
        choices.note(&answer);
        let past = word.checked_shr(table.len() as u32).unwrap_or(0);
        match word.trailing_zeros() as usize {
            _ if past == 0 => {}
            lowest if lowest < table.len() => past_beside.note(&answer),
            _ => past_alone.note(&answer),
        }
        let (table, one, other) = random.joined_call();
        let both = [&one[..], &other].concat();
        sizes.note(&both);
        let answer = choose_by_word(&table, &both);
        joined.note(&answer);
        let short = one.len() <= MAX_LIST && other.len() <= MAX_LIST;
        apart += usize::from(short && answer == Err(40));
        let (one, other) = (choose(&table, &one), choose(&table, &other));
        first += usize::from(answer.is_ok() && answer == one && answer != other);
        second += usize::from(answer.is_ok() && answer == other && answer != one);
    }
    choices.holds(&[0, 41, 42], 400);
    past_alone.holds(&[41, 42], 200);
    past_beside.holds(&[0, 41], 200);
    joined.holds(&[0, 40, 41, 42], 40);
    sizes.hold(&[0, 1, 16_382, 16_383], 40);
    assert!(first >= 400 && second >= 400, "{} {}", first, second);
    assert!(apart >= 40, "{}", apart);
}

/// "So "unchanged" and "alone" in document 01 leave this journal out" (document 02, C-20).
fn without_journal(attempt: &Attempt) -> Attempt {
    Attempt {
        history: History::empty(),
        ..attempt.clone()
    }
}

/// Event lists: their reach, and the step by step answer against the
/// statement on the whole list.
#[test]
fn reach_of_the_events() {
    let mut random = Random::new(2);
    let mut reach = Reach::default();
    let (mut acted, mut stood_in, mut by_pair, mut after_heard) = (0, 0, 0, 0);
    for round in 0..8_000 {
        let c = random.good_start_call();
        let started = c.start().unwrap();
        let events = random.events(&started);
        assert!(events.len() <= 20);
        let mut attempt = started.clone();
        for event in &events {
            let before = attempt.clone();
            let answer = attempt.event(event);
            reach.note(&answer);
            match answer {
                Err(61..=64) => assert_eq!(without_journal(&attempt), without_journal(&before)),
                Err(no) => assert_eq!(attempt.end, End::Closed(no)),
                Ok(Effect::Completed(v)) => assert_eq!(attempt.end, End::Completed(v)),
                Ok(_) => assert_eq!(attempt.end, End::Open),
            }
            if let (Ok(Effect::Completed(v)), Event::Outcome { information, .. }) = (answer, event)
            {
                acted += usize::from(attempt.acted);
                stood_in += usize::from(attempt.acted && information.is_none());
                by_pair += usize::from(attempt.acted && v != attempt.attempted);
                after_heard += usize::from(attempt.heard);
            }
        }
        let end = match attempt.end {
            End::Completed(v) => Some(v),
            _ => None,
        };
        assert_eq!(completed(&started, &events), end, "round {}", round);
    }
    let all = [
        0, 31, 32, 33, 34, 35, 61, 62, 63, 64, 65, 71, 72, 73, 74, 75,
    ];
    reach.holds(&all, 20);
    for count in [acted, stood_in, by_pair, after_heard] {
        assert!(count >= 20, "{:?}", (acted, stood_in, by_pair, after_heard));
    }
}

#[test]
fn same_seed_same_inputs() {
    let (mut one, mut two) = (Random::new(7), Random::new(7));
    for _ in 0..50 {
        assert_eq!(
            one.datagram(b"a", b"bc", &[1]),
            two.datagram(b"a", b"bc", &[1])
        );
    }
    // The first numbers of splitmix64 from 0.
    let mut zero = Random::new(0);
    assert_eq!(zero.next_u64(), 0xe220_a839_7b1d_cdaf);
    assert_eq!(zero.next_u64(), 0x6e78_9e6a_a1b9_65f4);
}
