//! Calls of the search of a list on the wire, and the other calls that search one, with the same list.

use super::attempts::failing_attempt;
use crate::checks::*;
use crate::model::{Event, MAX_AVAILABLE};
use crate::random::attempts::StartCall;
use crate::random::screening::SearchCall;
use crate::random::Random;
use crate::screening::Searched;
use crate::seen::Seen;

/// So many lists of one stream. `clashing` are tables that clash.
pub fn one_stream(
    searched: &mut Searched,
    seed: u64,
    stream: usize,
    lists: usize,
    clashing: &[Vec<u32>],
) {
    // Other numbers than those of the other calls.
    let seed = seed ^ (stream as u64) << 32 ^ 1 << 63;
    let random = &mut Random::new(Random::new(seed).next_u64());
    for _ in 0..lists {
        let call = random.search_call(clashing);
        searched.note(&call);
        let seen = &mut searched.seen;
        searches(seen, &call, stream);
        if call.list.is_empty() {
            continue;
        }
        let (start, packet) = random.search_event(&call);
        attempt(seen, &start, &[Event::Datagram(packet)], stream);
        if call.list.len() <= MAX_AVAILABLE && random.one_in(4) {
            available_versions(seen, random, &call, stream);
        }
    }
}

fn searches(seen: &mut Seen, c: &SearchCall, stream: usize) {
    compare!(
        seen,
        stream,
        "qv_choose_from_bytes",
        check_search(&c.table[..], &c.list[..], c.left_over, c.address)
    );
    if c.list.len() <= MAX_AVAILABLE {
        compare!(
            seen,
            stream,
            "qv_choose_by_word_from_bytes",
            check_search_by_word(&c.table[..], &c.list[..], c.left_over, c.address)
        );
    }
}

fn attempt(seen: &mut Seen, c: &StartCall, events: &[Event], stream: usize) {
    match check_events(
        &c.table,
        &[],
        &[],
        c.original,
        &c.destination,
        &c.source,
        events,
    ) {
        Ok(numbers) => {
            for number in numbers {
                seen.note("qv_event", number);
            }
        }
        Err(_) => panic!("{}", failing_attempt(c, events, stream)),
    }
}

/// The list as Available Versions: an outcome, the server's choice, and the reader.
fn available_versions(seen: &mut Seen, random: &mut Random, call: &SearchCall, stream: usize) {
    if call.table.len() > 1 {
        let (start, events) = random.search_outcome(call);
        attempt(seen, &start, &events, stream);
    }
    let c = random.search_server_call(call);
    let bytes = c.information.unwrap_or_default();
    compare!(
        seen,
        stream,
        "qv_server_choice",
        check_server_choice(
            &c.readable[..],
            &c.accepted[..],
            &c.pairs[..],
            &c.barred[..],
            c.version,
            1_u32,
            &bytes[..]
        )
    );
    let sender = random.below(2) as u32;
    compare!(
        seen,
        stream,
        "qv_read_information",
        check_read_information(sender, &bytes[..])
    );
}
