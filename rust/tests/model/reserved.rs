//! The model of reserved numbers on the wire (document 02, C-18).

use super::attempts::Attempt;
use super::choices::{is_reserved, set};
use super::wire::written;
use super::MAX_RESERVED;
use std::collections::BTreeMap;

/// "up to four distinct reserved numbers": no fault "Where a number is not
/// reserved, [..] repeated, or there are over four".
pub(super) fn may_be_sent(numbers: &[u32]) -> bool {
    let distinct = set(numbers);
    numbers.len() <= MAX_RESERVED
        && distinct.len() == numbers.len()
        && distinct.iter().all(|v| is_reserved(*v))
}

/// The list as sent: "each at a place the caller gives", "Places are counted from
/// 0 in the list as sent". The own list, as may be answered, has the other places
/// in its order. `None` where "a place is taken twice or past the end".
fn list_as_sent(own: &[u32], reserved: &[(u32, u32)]) -> Option<Vec<u32>> {
    let entries = own.len() + reserved.len();
    let taken: BTreeMap<usize, u32> = reserved
        .iter()
        .map(|(number, place)| (*place as usize, *number))
        .collect();
    let twice = taken.len() < reserved.len();
    let past_the_end = taken.keys().any(|place| *place >= entries);
    if twice || past_the_end {
        return None;
    }
    let mut own = own.iter();
    let at = |place: usize| taken.get(&place).or_else(|| own.next()).copied();
    Some((0..entries).filter_map(at).collect())
}

/// The client's Version Information: 37 and 47. `own` is the own list, `reserved`
/// has numbers with their places, `room` is the length of the lent buffer.
pub fn client_information(
    attempted: u32,
    own: &[u32],
    reserved: &[(u32, u32)],
    room: usize,
) -> Result<Vec<u8>, u8> {
    // "26 and 37 count all given"
    if room < 4 + 4 * (own.len() + reserved.len()) {
        return Err(37);
    }
    let numbers: Vec<u32> = reserved.iter().map(|(number, _)| *number).collect();
    if !may_be_sent(&numbers) {
        return Err(47);
    }
    let sent = list_as_sent(own, reserved).ok_or(47)?;
    Ok([written(&[attempted]), written(&sent)].concat())
}

impl Attempt {
    /// "A call of its own, no event, writes the client's Version Information from
    /// the record, with the attempted version as Chosen."
    pub fn information(&self, reserved: &[(u32, u32)], room: usize) -> Result<Vec<u8>, u8> {
        client_information(self.attempted, &self.own_list(), reserved, room)
    }
}
