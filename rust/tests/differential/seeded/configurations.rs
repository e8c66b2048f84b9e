//! Calls of the test of a server's configuration.

use crate::checks::*;
use crate::random::Random;
use crate::seen::Seen;

/// What is noted, by the part of the safe rule that the model finds broken.
const BY_PART: [&str; 6] = [
    "qv_judge_configuration, safe",
    "qv_judge_configuration, accepted and not offered",
    "qv_judge_configuration, offered and not accepted",
    "qv_judge_configuration, offered and not readable",
    "qv_judge_configuration, Available and not offered",
    "qv_judge_configuration, offered and not Available",
];

pub fn calls(seen: &mut Seen, random: &mut Random, stream: usize) {
    let c = random.configuration();
    let function = match c.judged() {
        Ok((part, _)) => BY_PART[part as usize],
        Err(_) => "qv_judge_configuration, refused",
    };
    compare!(
        seen,
        stream,
        function,
        check_judge_configuration(
            &c.readable[..],
            &c.accepted[..],
            &c.offered[..],
            &c.available[..],
            &c.pairs[..]
        )
    );
}
