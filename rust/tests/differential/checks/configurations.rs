//! The test of a server's configuration.

use super::{number, paired, same, Compared, FOUND};
use crate::model::{Configuration, Finding};
use crate::raw;
use quic_version::{ConfigurationFault, ServerConfiguration};

/// The crate's answer by the numbers of the header.
fn in_numbers(answer: Result<(), ConfigurationFault>) -> Result<Finding, u8> {
    match answer {
        Ok(()) => Ok((0, 0)),
        Err(ConfigurationFault::Refused(refusal)) => Err(refusal.number()),
        Err(ConfigurationFault::AcceptedNotOffered(version)) => Ok((1, version)),
        Err(ConfigurationFault::OfferedNotAccepted(version)) => Ok((2, version)),
        Err(ConfigurationFault::OfferedNotReadable(version)) => Ok((3, version)),
        Err(ConfigurationFault::AvailableNotOffered(version)) => Ok((4, version)),
        Err(ConfigurationFault::OfferedNotAvailable(version)) => Ok((5, version)),
    }
}

/// Answer, part and version; places that hold other numbers before the call, each of its own.
pub fn check_judge_configuration(
    readable: &[u32],
    accepted: &[u32],
    offered: &[u32],
    available: &[u32],
    pairs: &[(u32, u32)],
) -> Compared {
    let model = Configuration {
        readable: readable.to_vec(),
        accepted: accepted.to_vec(),
        offered: offered.to_vec(),
        available: available.to_vec(),
        pairs: pairs.to_vec(),
    }
    .judged();
    let pairs = paired(pairs);
    for (one, other) in [(FOUND[0], FOUND[1]), (FOUND[1], FOUND[0])] {
        let (mut part, mut version) = (one, other);
        let answer = raw::judge_configuration(
            readable,
            accepted,
            offered,
            available,
            &pairs,
            &mut part,
            &mut version,
        );
        same("answer", answer, number(&model))?;
        same("left", (part, version), model.unwrap_or((one, other)))?;
    }
    let configuration = ServerConfiguration {
        readable,
        accepted,
        offered,
        available,
        pairs: &pairs,
    };
    same("check", in_numbers(configuration.check()), model)?;
    Ok(number(&model))
}
