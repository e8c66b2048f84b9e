//! Calls of the readers and writers of variable-length integers and of transport parameters.

use crate::checks::*;
use crate::parameters::Carried;
use crate::random::parameters::Sequences;
use crate::random::Random;
use crate::seen::Seen;

pub fn calls(seen: &mut Seen, random: &mut Random, stream: usize) {
    let bytes = random.integer_bytes();
    compare!(
        seen,
        stream,
        "qv_read_integer",
        check_read_integer(&bytes[..])
    );

    let (value, room) = random.integer_call();
    compare!(
        seen,
        stream,
        "qv_write_integer",
        check_write_integer(value, room)
    );

    let c = random.sequence_call();
    compare!(
        seen,
        stream,
        "qv_read_parameters",
        check_read_parameters(&c.sequence[..])
    );

    let c = random.parameters_call();
    let old = &c.old.sequence[..];
    compare!(
        seen,
        stream,
        "qv_write_parameters",
        check_write_parameters(old, &c.value[..], c.room)
    );
    if random.one_in(4) {
        compare!(
            seen,
            stream,
            "qv_write_parameters, laws",
            check_laws(old, &c.value[..])
        );
    }
}

/// So many rounds of one stream: a large sequence in each, and in one of eight a sequence that is
/// cut at every byte.
pub fn one_stream(carried: &mut Carried, seed: u64, stream: usize, rounds: usize) {
    // Other numbers than those of the other calls.
    let seed = seed ^ (stream as u64) << 32 ^ 1 << 62;
    let random = &mut Random::new(Random::new(seed).next_u64());
    for _ in 0..rounds {
        large(carried, random, stream);
        if random.one_in(8) {
            cuts(carried, random, stream);
        }
    }
}

fn large(carried: &mut Carried, random: &mut Random, stream: usize) {
    let c = random.hostile_call();
    carried.note_large(&c);
    let seen = &mut carried.seen;
    compare!(
        seen,
        stream,
        "qv_read_parameters, large",
        check_read_parameters(&c.sequence[..])
    );
    if random.one_in(8) {
        let value = random.bytes(8);
        let room = c.sequence.len() + 16;
        compare!(
            seen,
            stream,
            "qv_write_parameters, large",
            check_write_parameters(&c.sequence[..], &value[..], room)
        );
    }
}

fn cuts(carried: &mut Carried, random: &mut Random, stream: usize) {
    let sequences = *random.pick(&[
        Sequences::Shortest,
        Sequences::AnyWidths,
        Sequences::Repeated,
    ]);
    let c = random.sequence_of(sequences);
    carried.note_cut(&c);
    let value = random.bytes(4);
    let writes = random.one_in(8);
    let seen = &mut carried.seen;
    for length in 0..=c.sequence.len() {
        let cut = &c.sequence[..length];
        compare!(
            seen,
            stream,
            "qv_read_parameters, cut",
            check_read_parameters(cut)
        );
        if writes {
            let room = length + 16;
            compare!(
                seen,
                stream,
                "qv_write_parameters, cut",
                check_write_parameters(cut, &value[..], room)
            );
        }
    }
}
