//! Calls on inputs drawn from a seed, each compared.

use crate::random::Random;
use crate::seen::Seen;

/// One comparison. A difference is printed as a call that can be pasted.
macro_rules! compare {
    ($seen:ident, $stream:ident, $function:expr, $check:ident($($input:expr),*)) => {
        match $check($($input),*) {
            Ok(number) => $seen.note($function, number),
            Err(difference) => panic!(
                "\nlibrary and model differ in {} (stream {}):\n{}\n\n    {}({}).unwrap();\n",
                $function,
                $stream,
                difference,
                stringify!($check),
                [$(Paste::paste(&$input)),*].join(", "),
            ),
        }
    };
}

mod attempts;
mod barred;
mod choices;
mod configurations;
mod journal;
pub mod parameters;
mod reserved;
pub mod screening;
mod wire;
mod words;

/// So many rounds of all calls, on the inputs of one stream.
pub fn one_stream(seen: &mut Seen, seed: u64, stream: usize, rounds: usize) {
    let random = &mut Random::new(Random::new(seed ^ (stream as u64) << 32).next_u64());
    let apart = &mut Random::new(Random::new(!seed ^ (stream as u64) << 32).next_u64());
    for _ in 0..rounds {
        wire::calls(seen, random, stream);
        choices::calls(seen, random, stream);
        words::calls(seen, random, stream);
        attempts::calls(seen, random, stream);
        barred::calls(seen, random, stream);
        journal::calls(seen, random, stream);
        parameters::calls(seen, random, stream);
        reserved::calls(seen, random, stream);
        configurations::calls(seen, apart, stream);
    }
}
