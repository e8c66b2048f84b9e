//! Long lists of events, journals that begin near eight or near the stop, and journals of any record.

use super::attempts::whole_attempt;
use crate::any_record::any_record;
use crate::checks::*;
use crate::random::Random;
use crate::seen::Seen;

/// Lists of events in one round of eight: each of their events is compared with all that it leaves.
pub fn calls(seen: &mut Seen, random: &mut Random, stream: usize) {
    let record = any_record(random);
    compare!(seen, stream, "qv_read_journal", check_any_journal(&record));
    match random.below(16) {
        0 => {
            let c = random.good_start_call();
            let events = random.long_events(&c.start().unwrap());
            whole_attempt(seen, "qv_event, over eight events", &c, &events, stream);
        }
        1 => near_the_stop(seen, random, stream),
        _ => {}
    }
}

fn near_the_stop(seen: &mut Seen, random: &mut Random, stream: usize) {
    let c = random.good_start_call();
    let (count, answers) = (random.event_count(), random.given_answers());
    let started = c.start().unwrap();
    let events = match random.below(2) {
        0 => random.few_events(&started),
        _ => random.long_events(&started),
    };
    compare!(
        seen,
        stream,
        "qv_event, journal near its stop",
        check_events_after(
            &c.table[..],
            &c.pairs[..],
            &c.barred[..],
            c.original,
            &c.destination[..],
            &c.source[..],
            count,
            &answers[..],
            &events[..]
        )
    );
    compare!(
        seen,
        stream,
        "qv_event, journal laws",
        check_journal_laws(
            &c.table[..],
            c.original,
            &c.destination[..],
            &c.source[..],
            &events[..]
        )
    );
}
