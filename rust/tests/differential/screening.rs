//! The search of a list on the wire (C-16) against the model: on tables of every size and lists about
//! every border, hostile ones among them, drawn from a seed.

use crate::model;
use crate::random::screening::{SearchCall, Tables, LISTS, TABLES};
use crate::random::slots::left_by_rounds;
use crate::random::Random;
use crate::seeded::screening::one_stream;
use crate::seen::{Counts, Seen};
use crate::{all_streams, number_of, say, Found, DEFAULT_ROUNDS, DEFAULT_SEED};

/// The fewest lists of a run with the default number of rounds.
const FEWEST: usize = 200_000;
/// The draws for one entry of a clashing table.
const DRAWS: usize = 20_000;

/// What the calls have to answer, among others: that something is found, and that nothing is.
const ANSWERS: [(&str, &[u32]); 5] = [
    ("qv_choose_from_bytes", &[0, 42]),
    ("qv_choose_by_word_from_bytes", &[0, 42]),
    ("qv_event", &[0, 35, 64, 65, 75]),
    ("qv_server_choice", &[0, 35]),
    ("qv_read_information", &[0, 35]),
];

/// What was searched.
#[derive(Default)]
pub struct Searched {
    pub seen: Seen,
    counts: Counts,
}

impl Found for Searched {
    fn join(&mut self, other: Searched) {
        self.seen.join(other.seen);
        self.counts.join(other.counts);
    }
}

impl Searched {
    pub fn note(&mut self, c: &SearchCall) {
        let kind = c.tables as usize * LISTS.len() + c.lists as usize;
        let choice = model::choose(&c.table, &c.list);
        let rank = c.table.iter().position(|v| choice == Ok(*v));
        for (property, value) in [
            ("kind", kind),
            ("table", c.table.len()),
            ("list", c.list.len()),
            ("lying", 4 * c.left_over + c.address),
            ("by slots", usize::from(c.is_by_slots())),
            ("answer", rank.unwrap_or(model::MAX_TABLE)),
        ] {
            self.counts.add(property, value);
        }
        if c.tables == Tables::Clashing && c.is_by_slots() {
            self.counts.add("rounds", left_by_rounds(&c.table).len());
        }
    }

    /// What a run with the default number of rounds has to have had, and had not.
    fn lacking(&self) -> Vec<(&'static str, usize)> {
        let borders = [0, 1, 2, 15, 16, 17, 31, 32, 33, 47, 48, 49, 63, 64, 65];
        let longer = [127, 128, 129, 255, 256, 257, model::MAX_LIST];
        let counts = &self.counts;
        [
            // Every kind of list with every kind of table.
            counts.rare("kind", 0..TABLES.len() * LISTS.len(), 1_000),
            counts.rare("table", 1..=model::MAX_TABLE, 1_000),
            counts.rare("list", borders.into_iter().chain(longer), 50),
            counts.rare("lying", 0..16, 10_000),
            counts.rare("by slots", [0, 1], FEWEST / 4),
            // What a list costs where nothing is found: up to so many rounds, then passes.
            counts.rare("rounds", [1, 2, 3], 500),
            // Each place of a table, and none.
            counts.rare("answer", 0..=model::MAX_TABLE, 200),
        ]
        .concat()
    }
}

#[test]
fn searches_and_model_agree() {
    let seed = number_of("QUIC_VERSION_SEED", DEFAULT_SEED);
    let lists = number_of("QUIC_VERSION_ROUNDS", DEFAULT_ROUNDS as u64) as usize;
    let mut random = Random::new(seed);
    let clashing: Vec<Vec<u32>> = (0..8).map(|_| random.clashing_table(DRAWS)).collect();
    let searched: Searched = all_streams(lists, |searched, stream, lists| {
        one_stream(searched, seed, stream, lists, &clashing);
    });
    let by_slots = searched.counts.count("by slots", 1);
    let compared = by_slots + searched.counts.count("by slots", 0);
    say(&format!(
        "\n  {:>8}  lists searched, {} of them by slots\n{}\n",
        compared,
        by_slots,
        searched.seen.compared()
    ));
    if lists >= DEFAULT_ROUNDS {
        assert!(compared >= FEWEST, "{}", compared);
        let lacking = searched.lacking();
        assert!(lacking.is_empty(), "too rare: {:?}", lacking);
        for (function, answers) in ANSWERS {
            let lacking = searched.seen.lacking(function, answers);
            assert!(lacking.is_empty(), "{}: never {:?}", function, lacking);
        }
    }
}
