//! Large sequences of transport parameters (C-11), and sequences that are cut at every byte, against
//! the model: drawn from a seed.

use crate::model::{MAX_PARAMETERS, MAX_SEQUENCE};
use crate::random::hostile::{Encodings, HostileCall, Repeats, ENCODINGS, ORDERS, REPEATS};
use crate::random::parameters::{SequenceCall, MOST};
use crate::seeded::parameters::one_stream;
use crate::seen::{Counts, Seen};
use crate::{all_streams, number_of, say, Found, DEFAULT_ROUNDS, DEFAULT_SEED};

/// One large sequence for so many rounds of the other calls.
const ROUNDS_EACH: usize = 32;

/// What the calls have to answer: all that they can.
const ANSWERS: [(&str, &[u32]); 4] = [
    ("qv_read_parameters, large", &[80, 81, 82, 85]),
    ("qv_write_parameters, large", &[80, 81, 82, 85]),
    ("qv_read_parameters, cut", &[0, 81, 82, 85]),
    ("qv_write_parameters, cut", &[0, 81, 82, 85]),
];

/// What was read and written.
#[derive(Default)]
pub struct Carried {
    pub seen: Seen,
    counts: Counts,
}

impl Found for Carried {
    fn join(&mut self, other: Carried) {
        self.seen.join(other.seen);
        self.counts.join(other.counts);
    }
}

/// The number of a kind of large sequences.
fn kind(c: &HostileCall) -> usize {
    let order = c.encodings as usize * ORDERS.len() + c.orders as usize;
    order * REPEATS.len() + c.repeats as usize
}

impl Carried {
    pub fn note_large(&mut self, c: &HostileCall) {
        self.counts.add("kind", kind(c));
        self.counts.add("bytes", c.sequence.len());
        if c.repeats == Repeats::None && c.encodings != Encodings::Mixed {
            self.counts.add("parameters", c.parameters);
        }
    }

    pub fn note_cut(&mut self, c: &SequenceCall) {
        self.counts.add("cut", c.parameters.len());
    }

    /// What a run with the default number of rounds has to have had, and had not.
    fn lacking(&self) -> Vec<(&'static str, usize)> {
        let kinds = ENCODINGS.len() * ORDERS.len() * REPEATS.len();
        let most = [3, 5, 9].map(|size| MAX_SEQUENCE / size);
        let counts = &self.counts;
        [
            counts.rare("kind", 0..kinds, 8),
            counts.rare("bytes", MAX_SEQUENCE - 1..=MAX_SEQUENCE + 1, 40),
            // As many parameters as there can be, none twice.
            counts.rare("parameters", most, 40),
            counts.rare("cut", 0..16, 10),
            counts.rare("cut", MAX_PARAMETERS - 1..=MAX_PARAMETERS + 1, 10),
            counts.rare("cut", [MOST], 1),
        ]
        .concat()
    }
}

#[test]
fn parameters_and_model_agree() {
    let seed = number_of("QUIC_VERSION_SEED", DEFAULT_SEED);
    let rounds = number_of("QUIC_VERSION_ROUNDS", DEFAULT_ROUNDS as u64) as usize;
    let carried: Carried = all_streams(rounds / ROUNDS_EACH, |carried, stream, rounds| {
        one_stream(carried, seed, stream, rounds);
    });
    say(&format!("\n{}\n", carried.seen.compared()));
    if rounds >= DEFAULT_ROUNDS {
        let lacking = carried.lacking();
        assert!(lacking.is_empty(), "too rare: {:?}", lacking);
        for (function, answers) in ANSWERS {
            let lacking = carried.seen.lacking(function, answers);
            assert!(lacking.is_empty(), "{}: never {:?}", function, lacking);
        }
    }
}
