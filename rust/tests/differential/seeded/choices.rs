//! Calls of the rules of tables and pairs, and of the choices.

use crate::checks::*;
use crate::random::{self, Random};
use crate::seen::Seen;

pub fn calls(seen: &mut Seen, random: &mut Random, stream: usize) {
    let version = match random.below(4) {
        0 => random.reserved(),
        1 => random.near_reserved(),
        _ => random.version(),
    };
    compare!(seen, stream, "qv_is_reserved", check_is_reserved(version));

    let table = random.table();
    compare!(seen, stream, "qv_is_table", check_is_table(&table[..]));

    let pairs = random.pairs();
    compare!(seen, stream, "qv_are_pairs", check_are_pairs(&pairs[..]));

    let (table, list) = random.choose_call();
    compare!(
        seen,
        stream,
        "qv_choose",
        check_choose(&table[..], &list[..])
    );

    let (table, list) = random.choose_call();
    let mut bytes = random::in_fours(&list);
    if random.one_in(3) {
        let more = 1 + random.below(3);
        bytes.extend(random.bytes(more));
    }
    compare!(
        seen,
        stream,
        "qv_choose_from_bytes",
        check_choose_from_bytes(&table[..], &bytes[..])
    );

    let c = random.server_call();
    let (presence, bytes) = match &c.information {
        _ if random.one_in(64) => (*random.pick(&[2, 3, 256, 257, 1 << 31, u32::MAX]), vec![]),
        Some(bytes) => (1, bytes.clone()),
        // Bytes that nobody may read.
        None => (0, random.bytes(8)),
    };
    compare!(
        seen,
        stream,
        "qv_server_choice",
        check_server_choice(
            &c.readable[..],
            &c.accepted[..],
            &c.pairs[..],
            &c.barred[..],
            c.version,
            presence,
            &bytes[..]
        )
    );
}
