//! The tests of a version, of a table, of pairs and of a configuration, each as a call of its own.

use super::choices;
use quic_version::ConfigurationFault::{
    self, AcceptedNotOffered, AvailableNotOffered, OfferedNotAccepted, OfferedNotAvailable,
    OfferedNotReadable, Refused,
};
use quic_version::{ConfigurationRefusal, Pair, ServerConfiguration, MAX_AVAILABLE};

/// One comparison on the whole number.
#[inline(never)]
pub fn is_reserved(version: u32) -> bool {
    choices::is_reserved(version)
}

#[inline(never)]
pub fn is_table(table: &[u32]) -> bool {
    choices::is_table(table)
}

#[inline(never)]
pub fn are_pairs(pairs: &[Pair]) -> bool {
    choices::are_pairs(pairs)
}

/// The first version of a list that the other does not hold.
fn outside(list: &[u32], other: &[u32]) -> Option<u32> {
    list.iter()
        .copied()
        .find(|version| !other.contains(version))
}

#[inline(never)]
pub fn check(c: &ServerConfiguration<'_>) -> Result<(), ConfigurationFault> {
    if !choices::is_table(c.offered) {
        return Err(Refused(ConfigurationRefusal::BadOfferedTable));
    }
    if c.available.len() > MAX_AVAILABLE {
        return Err(Refused(ConfigurationRefusal::InformationTooLong));
    }
    if !choices::is_table(c.readable) || !choices::is_table(c.accepted) {
        return Err(Refused(ConfigurationRefusal::BadTable));
    }
    if !choices::are_pairs(c.pairs) {
        return Err(Refused(ConfigurationRefusal::BadPairs));
    }
    if let Some(version) = outside(c.accepted, c.offered) {
        return Err(AcceptedNotOffered(version));
    }
    if let Some(version) = outside(c.offered, c.accepted) {
        return Err(OfferedNotAccepted(version));
    }
    if let Some(version) = outside(c.offered, c.readable) {
        return Err(OfferedNotReadable(version));
    }
    if let Some(version) = outside(c.available, c.offered) {
        return Err(AvailableNotOffered(version));
    }
    if let Some(version) = outside(c.offered, c.available) {
        return Err(OfferedNotAvailable(version));
    }
    Ok(())
}
