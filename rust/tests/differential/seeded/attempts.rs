//! Starts and lists of events; a list that fails is cut to the fewest events.

use crate::checks::*;
use crate::model::Event;
use crate::random::attempts::StartCall;
use crate::random::Random;
use crate::seen::Seen;

pub fn calls(seen: &mut Seen, random: &mut Random, stream: usize) {
    let c = random.start_call();
    compare!(
        seen,
        stream,
        "qv_start",
        check_start(
            &c.table[..],
            &c.pairs[..],
            &c.barred[..],
            c.original,
            &c.destination[..],
            &c.source[..]
        )
    );

    let c = random.good_start_call();
    let events = random.events(&c.start().unwrap());
    whole_attempt(seen, "qv_event, qv_own_list", &c, &events, stream);
    no_attempts(seen, random, stream, &c, &events[..events.len().min(3)]);
}

/// A start that is not refused, and its events.
pub(super) fn whole_attempt(
    seen: &mut Seen,
    function: &'static str,
    c: &StartCall,
    events: &[Event],
    stream: usize,
) {
    let (destination, source) = (&c.destination, &c.source);
    let answers = check_events(
        &c.table,
        &c.pairs,
        &c.barred,
        c.original,
        destination,
        source,
        events,
    );
    match answers {
        Ok(numbers) => {
            for number in numbers {
                seen.note(function, number);
            }
        }
        Err(_) => panic!("{}", failing_attempt(c, events, stream)),
    }
}

fn no_attempts(
    seen: &mut Seen,
    random: &mut Random,
    stream: usize,
    c: &StartCall,
    events: &[Event],
) {
    // A record that no attempt has, and an event of an unknown kind.
    let field = random.below(DAMAGES);
    let value = *random.pick(&[0, 1, 2, 3, 5, 20, 254, 1 << 8, 1 << 16, 1 << 31, u32::MAX]);
    let kind = random.below(4) as u32;
    compare!(
        seen,
        stream,
        "qv_event, damaged record",
        check_damaged(
            &c.table[..],
            &c.pairs[..],
            c.original,
            events,
            field,
            value,
            kind
        )
    );
    let kind = *random.pick(&[4, 5, 255, 256, 257, 258, 259, 1 << 16, 1 << 31, u32::MAX]);
    compare!(
        seen,
        stream,
        "qv_event, unknown kind",
        check_unknown_kind(&c.table[..], &c.pairs[..], c.original, events, kind)
    );
}

/// A failing attempt as a call to paste, without the pairs, barred pairs and events that it fails
/// without.
pub(super) fn failing_attempt(c: &StartCall, events: &[Event], stream: usize) -> String {
    let check = |pairs: &[(u32, u32)], barred: &[(u32, u32)], events: &[Event]| {
        let (destination, source) = (&c.destination, &c.source);
        let (table, original) = (&c.table, c.original);
        check_events(table, pairs, barred, original, destination, source, events).err()
    };
    let pairs = fewest(&c.pairs, |pairs| check(pairs, &c.barred, events).is_some());
    let barred = fewest(&c.barred, |barred| check(&pairs, barred, events).is_some());
    let events = fewest(events, |events| check(&pairs, &barred, events).is_some());
    let inputs = [
        (&c.table[..]).paste(),
        (&pairs[..]).paste(),
        (&barred[..]).paste(),
        c.original.paste(),
        (&c.destination[..]).paste(),
        (&c.source[..]).paste(),
        (&events[..]).paste(),
    ];
    format!(
        "\nlibrary and model differ in an attempt (stream {}):\n{}\n\n    check_events({}).unwrap();\n",
        stream,
        check(&pairs, &barred, &events).unwrap_or_default(),
        inputs.join(", ")
    )
}

/// `items` without those that it still fails without, one after the other.
fn fewest<T: Clone>(items: &[T], fails: impl Fn(&[T]) -> bool) -> Vec<T> {
    let mut left = items.to_vec();
    for place in (0..left.len()).rev() {
        let mut fewer = left.clone();
        fewer.remove(place);
        if fails(&fewer) {
            left = fewer;
        }
    }
    left
}
