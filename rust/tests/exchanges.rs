//! Both ends together, through the crate alone: drawn exchanges between a client and a server whose
//! configuration is safe, with the statements of the two theorems as the check. There is no model of
//! the protocol here; the model's part is to draw configurations.
//!
//! `honest`: an honest exchange completes. `forged`: a forged packet never leads down. `broken`: what
//! happens where one part of the safe rule is broken, case by case.
//!
//! QUIC_VERSION_SEED (a number) gives other exchanges, QUIC_VERSION_ROUNDS (a number) more or fewer
//! of them. A failing exchange is printed with both ends, and is the only one of its seed and round.

#[path = "exchanges/around.rs"]
mod around;
#[path = "exchanges/broken.rs"]
mod broken;
#[path = "exchanges/ends.rs"]
mod ends;
#[path = "exchanges/forged.rs"]
mod forged;
#[path = "exchanges/honest.rs"]
mod honest;
#[allow(unused_imports)]
mod model;
mod random;

use random::Random;
use std::collections::BTreeMap;
use std::env;
use std::io::Write;

/// How often each of these was so.
#[derive(Default)]
struct Seen(BTreeMap<&'static str, usize>);

impl Seen {
    fn note(&mut self, what: &'static str, so: bool) {
        *self.0.entry(what).or_insert(0) += usize::from(so);
    }

    fn count(&self, what: &str) -> usize {
        self.0.get(what).copied().unwrap_or(0)
    }
}

/// So many exchanges, each from a seed of its own. Prints what was seen, past the test harness, and
/// fails where something was seen less often than it has to be in so many rounds.
fn exchanges(
    name: &str,
    rounds: usize,
    one: impl Fn(&mut Seen, &mut Random),
    due: &[(&'static str, usize)],
) {
    let seed = number_of("QUIC_VERSION_SEED", 9368);
    let count = number_of("QUIC_VERSION_ROUNDS", rounds as u64) as usize;
    let mut seen = Seen::default();
    for round in 0..count {
        let mut random = Random::new(Random::new(seed ^ (round as u64) << 20).next_u64());
        one(&mut seen, &mut random);
    }
    let mut text = format!("\n  {:>7}  {}, seed {}\n", count, name, seed);
    for (what, count) in &seen.0 {
        text += &format!("  {:>7}  {}\n", count, what);
    }
    std::io::stdout().write_all(text.as_bytes()).unwrap();
    if count >= rounds {
        for (what, least) in due {
            let count = seen.count(what);
            assert!(count >= *least, "{}: {} is under {}", what, count, least);
        }
    }
}

fn number_of(variable: &str, otherwise: u64) -> u64 {
    match env::var(variable) {
        Ok(text) => text
            .parse()
            .unwrap_or_else(|_| panic!("{} is no number: {}", variable, text)),
        Err(_) => otherwise,
    }
}
