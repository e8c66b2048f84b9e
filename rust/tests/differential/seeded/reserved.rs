//! Calls that reserved numbers decide, and what they leave as it is (C-18).

use crate::checks::*;
use crate::random::reserved::ClientCall;
use crate::random::Random;
use crate::seen::Seen;

pub fn calls(seen: &mut Seen, random: &mut Random, stream: usize) {
    let c = random.reserved_packet_call();
    compare!(
        seen,
        stream,
        "qv_write_version_negotiation, reserved numbers",
        check_write_version_negotiation(
            &c.received[..],
            &c.offered[..],
            &c.reserved[..],
            c.unused_bits,
            c.room
        )
    );

    if random.one_in(2) {
        client_information(seen, &random.client_call(), stream);
    }
    if random.one_in(4) {
        let c = random.client_call_without_ids();
        what_is_sent(seen, random, &c, stream);
        what_is_answered(seen, random, &c, stream);
    }
}

fn client_information(seen: &mut Seen, c: &ClientCall, stream: usize) {
    let start = &c.start;
    compare!(
        seen,
        stream,
        "qv_write_client_information",
        check_write_client_information(
            &start.table[..],
            &start.pairs[..],
            &start.barred[..],
            start.original,
            &start.destination[..],
            &start.source[..],
            &c.events[..],
            &c.reserved[..],
            c.room
        )
    );
}

fn what_is_sent(seen: &mut Seen, random: &mut Random, c: &ClientCall, stream: usize) {
    let (start, events, reserved) = (&c.start, &c.events[..], &c.reserved[..]);
    let (table, pairs, original) = (&start.table[..], &start.pairs[..], start.original);
    let barred = &start.barred[..];
    compare!(
        seen,
        stream,
        "qv_write_client_information, laws",
        check_sent_laws(table, pairs, barred, original, events, reserved)
    );
    let server = random.server_for(&c.attempt());
    compare!(
        seen,
        stream,
        "qv_server_choice, reserved numbers",
        check_server_takes_no_notice(
            table,
            pairs,
            barred,
            original,
            events,
            reserved,
            &server.readable[..],
            &server.accepted[..],
            &server.pairs[..],
            &server.barred[..],
            server.version
        )
    );
}

fn what_is_answered(seen: &mut Seen, random: &mut Random, c: &ClientCall, stream: usize) {
    let (attempt, start, events) = (c.attempt(), &c.start, &c.events[..]);
    let (table, pairs, original) = (&start.table[..], &start.pairs[..], start.original);
    let barred = &start.barred[..];
    let outcome = &[random.reserved_outcome(&attempt, &c.reserved)][..];
    compare!(
        seen,
        stream,
        "qv_event, reserved Chosen",
        check_reserved_chosen(table, pairs, barred, original, events, outcome)
    );
    let answer = random.answer_to(&attempt);
    compare!(
        seen,
        stream,
        "qv_event, reserved numbers listed",
        check_client_takes_no_notice(
            table,
            pairs,
            barred,
            original,
            events,
            &answer.received[..],
            &answer.offered[..],
            &answer.reserved[..],
            answer.unused_bits
        )
    );
}
