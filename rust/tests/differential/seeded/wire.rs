//! Calls of the readers and writers.

use crate::checks::*;
use crate::model::Sender;
use crate::random::{self, Random};
use crate::seen::Seen;

pub fn calls(seen: &mut Seen, random: &mut Random, stream: usize) {
    let c = random.read_call();
    compare!(
        seen,
        stream,
        "qv_read_header",
        check_read_header(&c.datagram[..], c.told)
    );

    let c = random.negotiation_call();
    compare!(
        seen,
        stream,
        "qv_write_version_negotiation",
        check_write_version_negotiation(
            &c.received[..],
            &c.offered[..],
            &c.reserved[..],
            c.unused_bits,
            c.room
        )
    );

    let (sender, bytes) = random.information_bytes();
    let sender = sender_number(random, sender);
    compare!(
        seen,
        stream,
        "qv_read_information",
        check_read_information(sender, &bytes[..])
    );

    let c = random.information_call();
    let sender = sender_number(random, c.sender);
    compare!(
        seen,
        stream,
        "qv_write_information",
        check_write_information(sender, c.chosen, &c.available[..], c.room)
    );

    let table = random.good_table();
    let mut bytes = random::in_fours(&random.list(&table));
    bytes.truncate(bytes.len() - random.below(4).min(bytes.len()));
    let place = match random.below(8) {
        0 => *random.pick(&[
            usize::MAX,
            usize::MAX / 4,
            usize::MAX / 4 + 1,
            1 << 62,
            1 << 32,
        ]),
        _ => random.below(bytes.len() / 4 + 2),
    };
    compare!(seen, stream, "qv_entry", check_entry(&bytes[..], place));
}

/// 0 for a client, 1 for a server, now and then a number that is neither.
fn sender_number(random: &mut Random, sender: Sender) -> u32 {
    if random.one_in(32) {
        return *random.pick(&[2, 3, 255, 256, 257, 1 << 16, 1 << 31, u32::MAX]);
    }
    match sender {
        Sender::Client => 0,
        Sender::Server => 1,
    }
}
