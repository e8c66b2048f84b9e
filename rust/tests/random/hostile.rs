//! Large sequences of transport parameters (C-11), as one would send them who wants the search for
//! repeats to be slow, or to go wrong.

use super::{bits_of, in_sequence, least_width, Parameter, Random};
use crate::model::{MAX_PARAMETERS, MAX_SEQUENCE, VERSION_INFORMATION};

/// The bytes of a parameter: its identifier has all but one, its value none.
#[derive(Debug, Clone, Copy, PartialEq, Eq, PartialOrd, Ord)]
pub enum Encodings {
    Three,
    Five,
    Nine,
    /// Identifiers and lengths in any widths, some short values.
    Mixed,
}

pub const ENCODINGS: [Encodings; 4] = [
    Encodings::Three,
    Encodings::Five,
    Encodings::Nine,
    Encodings::Mixed,
];

/// Which identifiers there are, and in which order.
#[derive(Debug, Clone, Copy, PartialEq, Eq, PartialOrd, Ord)]
pub enum Orders {
    /// In even steps.
    Rising,
    Falling,
    /// The least, the largest, the next least and so on.
    Inwards,
    Shuffled,
    /// Shuffled, all with the same low bits.
    LowBits,
    /// Shuffled, all with the same high bits.
    HighBits,
    /// Shuffled, about 16,384, which is the library's border between small and large ones. In three
    /// bytes there are those below it alone.
    Border,
    /// Small ones, and a few large ones among them.
    FewLarge,
}

pub const ORDERS: [Orders; 8] = [
    Orders::Rising,
    Orders::Falling,
    Orders::Inwards,
    Orders::Shuffled,
    Orders::LowBits,
    Orders::HighBits,
    Orders::Border,
    Orders::FewLarge,
];

/// Where an identifier stands a second time.
#[derive(Debug, Clone, Copy, PartialEq, Eq, PartialOrd, Ord)]
pub enum Repeats {
    None,
    FirstTwo,
    LastTwo,
    MiddleTwo,
    FirstAndLast,
    /// At two places of which one is a power of two.
    AtAPower,
    AtAny,
    /// All identifiers are the same.
    All,
}

pub const REPEATS: [Repeats; 8] = [
    Repeats::None,
    Repeats::FirstTwo,
    Repeats::LastTwo,
    Repeats::MiddleTwo,
    Repeats::FirstAndLast,
    Repeats::AtAPower,
    Repeats::AtAny,
    Repeats::All,
];

/// A large sequence.
#[derive(Debug, Clone)]
pub struct HostileCall {
    pub encodings: Encodings,
    pub orders: Orders,
    pub repeats: Repeats,
    pub parameters: usize,
    pub sequence: Vec<u8>,
}

impl Random {
    /// Over 64 parameters, mostly as many as there is room for. One in eight is cut, one in sixteen
    /// is too long.
    pub fn hostile_call(&mut self) -> HostileCall {
        let encodings = *self.pick(&ENCODINGS);
        let (orders, repeats) = (*self.pick(&ORDERS), *self.pick(&REPEATS));
        let mut parameters = self.hostile_parameters(encodings, orders);
        if self.one_in(4) {
            self.put_ours(&mut parameters);
        }
        if let Some((one, other)) = self.hostile_repeat(repeats, parameters.len()) {
            let (from, to) = if self.one_in(2) {
                (one, other)
            } else {
                (other, one)
            };
            if orders == Orders::FewLarge && self.one_in(2) {
                let largest = place_of_largest(&parameters);
                parameters.swap(largest, from);
            }
            copy_identifier(&mut parameters, from, to);
        }
        if repeats == Repeats::All {
            // That of the least width, which all others hold.
            let identifier = parameters.iter().min_by_key(|p| p.widths.0);
            let identifier = identifier.map_or(0, |p| p.identifier);
            for parameter in &mut parameters {
                parameter.identifier = identifier;
            }
        }
        let mut sequence = in_sequence(&parameters);
        match self.below(16) {
            0 | 1 => {
                sequence.pop();
            }
            2 => {
                let more = 1 + self.below(9);
                sequence.resize(MAX_SEQUENCE + more, 0);
            }
            _ => {}
        }
        HostileCall {
            encodings,
            orders,
            repeats,
            parameters: parameters.len(),
            sequence,
        }
    }

    /// Parameters with different identifiers, over 64 and at most as many as there is room for. If
    /// they are as many, the last one's value fills the sequence, half of the time.
    fn hostile_parameters(&mut self, encodings: Encodings, orders: Orders) -> Vec<Parameter> {
        let size = match encodings {
            Encodings::Three => 3,
            Encodings::Five | Encodings::Mixed => 5,
            Encodings::Nine => 9,
        };
        let most = MAX_SEQUENCE / size;
        let count = match self.below(4) {
            0 => MAX_PARAMETERS + 1 + self.below(most - MAX_PARAMETERS),
            1 => MAX_PARAMETERS + 1 + self.below(80),
            _ => most,
        };
        let width = match encodings {
            Encodings::Mixed => 8,
            _ => size - 1,
        };
        let mut room = MAX_SEQUENCE;
        let mut parameters = Vec::with_capacity(count);
        for identifier in self.hostile_identifiers(orders, count, bits_of(width)) {
            let mut parameter = Parameter::shortest(identifier, Vec::new());
            parameter.widths.0 = width;
            if encodings == Encodings::Mixed {
                let length = self.below(16) / 15;
                parameter.value = self.bytes(length);
                parameter.widths = (self.width_for(identifier), self.width_for(length as u64));
            }
            let bytes = parameter.widths.0 + parameter.widths.1 + parameter.value.len();
            if bytes > room {
                break;
            }
            room -= bytes;
            parameters.push(parameter);
        }
        if room < 50 && self.one_in(2) {
            if let Some(last) = parameters.last_mut() {
                last.value.extend(vec![0; room]);
            }
        }
        parameters
    }

    /// So many identifiers of at most so many bits, none twice.
    fn hostile_identifiers(&mut self, orders: Orders, count: usize, bits: u32) -> Vec<u64> {
        let space = 1 << bits;
        let mut identifiers = match orders {
            Orders::Rising | Orders::Falling | Orders::Inwards => {
                let step = 1 + self.up_to(space / count as u64 - 1);
                let first = self.up_to(space - 1 - step * (count as u64 - 1));
                (0..count as u64).map(|k| first + step * k).collect()
            }
            Orders::Shuffled => self.spread(count, space),
            Orders::LowBits => {
                let high = bits - count.next_power_of_two().trailing_zeros();
                let shift = self.below(high as usize + 1) as u32;
                let low = self.up_to((1 << shift) - 1);
                let others = self.spread(count, space >> shift);
                others.into_iter().map(|k| k << shift | low).collect()
            }
            Orders::HighBits => {
                let window = (2 * count as u64).next_power_of_two().min(space);
                let first = self.up_to(space / window - 1) * window;
                let others = self.spread(count, window);
                others.into_iter().map(|k| first + k).collect()
            }
            Orders::Border => {
                let first = (1 << 14) - self.below(count + 1) as u64;
                let first = first.min(space - count as u64);
                (first..first + count as u64).collect()
            }
            Orders::FewLarge => self.few_large(count, bits),
        };
        match orders {
            Orders::Rising => {}
            Orders::Falling => identifiers.reverse(),
            Orders::Inwards => identifiers = inwards(&identifiers),
            _ => self.shuffle(&mut identifiers),
        }
        identifiers
    }

    /// At most this number.
    fn up_to(&mut self, most: u64) -> u64 {
        match most.checked_add(1) {
            Some(n) => self.next_u64() % n,
            None => self.next_u64(),
        }
    }

    /// So many numbers below `space`, none twice, rising by steps of any size.
    fn spread(&mut self, count: usize, space: u64) -> Vec<u64> {
        let most = space / count as u64;
        let mut next = 0;
        let mut numbers = Vec::with_capacity(count);
        for _ in 0..count {
            numbers.push(next + self.up_to(most - 1));
            next += most;
        }
        numbers
    }

    /// Numbers below 16,384, and up to four of those from there on, if there are so many bits.
    fn few_large(&mut self, count: usize, bits: u32) -> Vec<u64> {
        let border = 1 << 14;
        let large = match bits {
            14 => 0,
            _ => self.below(5).min(count),
        };
        let mut identifiers = self.spread(count - large, border);
        if large > 0 {
            let others = self.spread(large, (1 << bits) - border);
            identifiers.extend(others.into_iter().map(|k| border + k));
        }
        identifiers
    }

    /// Our identifier in the place of another, if it is not there.
    fn put_ours(&mut self, parameters: &mut [Parameter]) {
        let ours = |p: &Parameter| p.identifier == VERSION_INFORMATION;
        if !parameters.iter().any(ours) {
            let place = self.below(parameters.len());
            parameters[place].identifier = VERSION_INFORMATION;
        }
    }

    /// The places of the identifier that stands twice, if there is just one.
    fn hostile_repeat(&mut self, repeats: Repeats, count: usize) -> Option<(usize, usize)> {
        let last = count - 1;
        let (one, other) = (self.below(count), self.below(last));
        match repeats {
            Repeats::None | Repeats::All => None,
            Repeats::FirstTwo => Some((0, 1)),
            Repeats::LastTwo => Some((last - 1, last)),
            Repeats::MiddleTwo => Some((count / 2 - 1, count / 2)),
            Repeats::FirstAndLast => Some((0, last)),
            Repeats::AtAPower => {
                let powers = count.next_power_of_two().trailing_zeros();
                let power = 1 << self.below(powers as usize);
                let others = [power - 1, power + 1, 2 * power, 2 * power - 1, 0, last];
                let other = (*self.pick(&others)).min(last);
                Some(if other == power {
                    (power - 1, power)
                } else {
                    (power, other)
                })
            }
            Repeats::AtAny => Some((one, if other < one { other } else { other + 1 })),
        }
    }
}

/// The identifier of one place in the other too; or the other's in the one, whose width holds it,
/// where the other's does not.
fn copy_identifier(parameters: &mut [Parameter], one: usize, other: usize) {
    let identifier = parameters[one].identifier;
    if least_width(identifier) <= parameters[other].widths.0 {
        parameters[other].identifier = identifier;
    } else {
        parameters[one].identifier = parameters[other].identifier;
    }
}

fn place_of_largest(parameters: &[Parameter]) -> usize {
    let places = 0..parameters.len();
    let largest = places.max_by_key(|place| parameters[*place].identifier);
    largest.unwrap_or(0)
}

/// The first, the last, the second, the last but one and so on.
fn inwards(numbers: &[u64]) -> Vec<u64> {
    let count = numbers.len();
    let place = |k: usize| if k % 2 == 0 { k / 2 } else { count - 1 - k / 2 };
    (0..count).map(|k| numbers[place(k)]).collect()
}
