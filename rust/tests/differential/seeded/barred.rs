//! Calls that what is barred decides, and its laws (C-17).

use super::attempts::whole_attempt;
use crate::checks::*;
use crate::random::choices::ServerCall;
use crate::random::Random;
use crate::seen::Seen;

pub fn calls(seen: &mut Seen, random: &mut Random, stream: usize) {
    if random.one_in(4) {
        start_laws(seen, random, stream);
    }
    attempt(seen, random, stream);

    let c = random.barring_server_call();
    first_flight(seen, &c, stream);
    if random.one_in(8) {
        server_laws(seen, &c, stream);
    }
    if random.one_in(8) {
        server_laws(seen, &random.server_call(), stream);
    }
}

fn start_laws(seen: &mut Seen, random: &mut Random, stream: usize) {
    let c = random.start_call();
    compare!(
        seen,
        stream,
        "qv_start, laws",
        check_start_laws(&c.table[..], &c.pairs[..], &c.barred[..], c.original)
    );
}

fn attempt(seen: &mut Seen, random: &mut Random, stream: usize) {
    let (c, events) = random.barring_call();
    whole_attempt(seen, "qv_event, barred pairs", &c, &events, stream);
    if random.one_in(4) {
        compare!(
            seen,
            stream,
            "qv_event, laws",
            check_event_laws(
                &c.table[..],
                &c.pairs[..],
                &c.barred[..],
                c.original,
                &events[..]
            )
        );
    }
}

fn first_flight(seen: &mut Seen, c: &ServerCall, stream: usize) {
    let presence = u32::from(c.information.is_some());
    let bytes = c.information.as_deref().unwrap_or(&[]);
    compare!(
        seen,
        stream,
        "qv_server_choice, barred versions",
        check_server_choice(
            &c.readable[..],
            &c.accepted[..],
            &c.pairs[..],
            &c.barred[..],
            c.version,
            presence,
            bytes
        )
    );
}

fn server_laws(seen: &mut Seen, c: &ServerCall, stream: usize) {
    let bytes = c.information.as_deref().unwrap_or(&[]);
    compare!(
        seen,
        stream,
        "qv_server_choice, laws",
        check_server_laws(
            &c.readable[..],
            &c.accepted[..],
            &c.pairs[..],
            &c.barred[..],
            c.version,
            bytes
        )
    );
}
