//! Variable-length integers and sequences of transport parameters (C-11), and whole calls of their
//! readers and writers.

use super::{in_sequence, integer_in, least_width, Parameter, Random, WIDTHS};
use crate::model::{MAX_INTEGER, MAX_PARAMETERS, MAX_SEQUENCE, VERSION_INFORMATION};

/// The least integers that a width no longer holds.
const BORDERS: [u64; 4] = [1 << 6, 1 << 14, 1 << 30, 1 << 62];

/// The most parameters of a sequence that is drawn here; `hostile` has larger ones.
pub const MOST: usize = MAX_PARAMETERS + 6;

/// How a sequence is drawn.
#[derive(Debug, Clone, Copy, PartialEq, Eq, PartialOrd, Ord)]
pub enum Sequences {
    /// No identifier twice, every integer in its least width.
    Shortest,
    /// The same in any widths.
    AnyWidths,
    /// An identifier twice, or more often, in any widths.
    Repeated,
    /// One of the above without its end.
    Cut,
    /// One of the above with a parameter more, whose value runs past the end.
    PastTheEnd,
    /// One of the above with some bytes more.
    LeftOver,
    /// One of the above with a bit changed.
    Changed,
    /// About 16,384 bytes.
    Long,
    /// Any bytes.
    Noise,
}

pub const SEQUENCES: [Sequences; 9] = [
    Sequences::Shortest,
    Sequences::AnyWidths,
    Sequences::Repeated,
    Sequences::Cut,
    Sequences::PastTheEnd,
    Sequences::LeftOver,
    Sequences::Changed,
    Sequences::Long,
    Sequences::Noise,
];

/// A sequence to read, and the parameters that it was made of. A cut sequence lacks the end of
/// them; one with bytes left over has more.
#[derive(Debug, Clone)]
pub struct SequenceCall {
    pub sequences: Sequences,
    pub parameters: Vec<Parameter>,
    pub sequence: Vec<u8>,
}

impl SequenceCall {
    /// Whether it is drawn with no identifier twice, and not damaged.
    pub fn is_whole(&self) -> bool {
        use Sequences::{AnyWidths, Long, Shortest};
        matches!(self.sequences, Shortest | AnyWidths | Long)
    }
}

/// Inputs of the writer of a sequence.
#[derive(Debug, Clone)]
pub struct ParametersCall {
    pub old: SequenceCall,
    pub value: Vec<u8>,
    pub room: usize,
}

// Integers.

impl Random {
    /// An integer that can be written, of any number of bits.
    pub fn integer(&mut self) -> u64 {
        match self.below(4) {
            0 => self.integer_about_a_border().min(MAX_INTEGER),
            1 => self.below(64) as u64,
            _ => self.next_u64() >> (2 + self.below(62)),
        }
    }

    fn integer_about_a_border(&mut self) -> u64 {
        *self.pick(&BORDERS) - 2 + self.below(4) as u64
    }

    /// A width that holds the integer, half of the time the least.
    pub(super) fn width_for(&mut self, value: u64) -> usize {
        let least = least_width(value);
        if self.one_in(2) {
            least
        } else {
            (*self.pick(&WIDTHS)).max(least)
        }
    }

    /// Bytes to read an integer from: in any width that holds it, whatever follows. One in six is
    /// cut, one in eight is any bytes.
    pub fn integer_bytes(&mut self) -> Vec<u8> {
        if self.one_in(8) {
            let count = self.below(10);
            return self.bytes(count);
        }
        let value = self.integer();
        let width = self.width_for(value);
        let mut bytes = integer_in(value, width);
        if self.one_in(6) {
            bytes.truncate(self.below(width));
        } else {
            let count = *self.pick(&[0, 0, 1, 2, 7, 8, 20]);
            let more = self.bytes(count);
            bytes.extend(more);
        }
        bytes
    }

    /// An integer to write, and a buffer's length; 83 and 84 among the answers, and both at once.
    pub fn integer_call(&mut self) -> (u64, usize) {
        let value = match self.below(8) {
            0 => self.next_u64() | 1 << (62 + self.below(2)),
            1 => *self.pick(&[MAX_INTEGER, MAX_INTEGER + 1, 1 << 63, u64::MAX]),
            2 | 3 => self.integer_about_a_border(),
            _ => self.integer(),
        };
        let room = match self.below(3) {
            0 => self.below(10),
            _ => self.room(least_width(value)),
        };
        (value, room)
    }
}

// Parameters.

impl Random {
    /// Any identifier but ours.
    fn other_identifier(&mut self) -> u64 {
        let bit = 1 << self.below(62);
        let identifier = match self.below(16) {
            // Where the registered ones are.
            0..=5 => self.below(0x21) as u64,
            // One bit from ours.
            6 => VERSION_INFORMATION ^ bit,
            // About the library's border between small and large ones.
            7 | 8 => (1 << 14) - 40 + self.below(80) as u64,
            // Small ones with a bit more.
            9 => self.below(64) as u64 | bit,
            // Reserved by RFC 9000 section 18.1, to be stepped over.
            10 => 27 + 31 * (self.next_u64() >> 7),
            _ => self.integer(),
        };
        if identifier == VERSION_INFORMATION {
            self.other_identifier()
        } else {
            identifier
        }
    }

    /// So many identifiers, none twice and none ours.
    fn other_identifiers(&mut self, count: usize) -> Vec<u64> {
        let mut identifiers = Vec::with_capacity(count);
        while identifiers.len() < count {
            let identifier = self.other_identifier();
            if !identifiers.contains(&identifier) {
                identifiers.push(identifier);
            }
        }
        identifiers
    }

    /// A value; one in four looks like parameters, ours among them.
    fn parameter_value(&mut self) -> Vec<u8> {
        let any = self.below(160);
        let length = *self.pick(&[0, 0, 0, 1, 1, 2, 3, 4, 4, 8, 16, 20, 62, 63, 64, any]);
        if self.one_in(4) {
            let alike = [VERSION_INFORMATION as u8, 0];
            alike.iter().copied().cycle().take(length).collect()
        } else {
            self.bytes(length)
        }
    }

    /// 0 to `MOST` parameters, none twice, half of the time ours among them. All integers are in
    /// their least width, or in any.
    fn parameters(&mut self, in_any_widths: bool) -> Vec<Parameter> {
        let count = match self.below(8) {
            0 | 1 => self.below(MOST + 1),
            2 => MAX_PARAMETERS - 1 + self.below(3),
            _ => self.below(16),
        };
        let mut identifiers = self.other_identifiers(count);
        if count > 0 && self.one_in(2) {
            let place = self.place_of_ours(count);
            identifiers[place] = VERSION_INFORMATION;
        }
        let shortest = |identifier| Parameter::shortest(identifier, self.parameter_value());
        let mut parameters: Vec<Parameter> = identifiers.into_iter().map(shortest).collect();
        if in_any_widths {
            for parameter in &mut parameters {
                self.widen(parameter);
            }
        }
        parameters
    }

    /// Often the first or the last.
    fn place_of_ours(&mut self, count: usize) -> usize {
        let any = self.below(count);
        *self.pick(&[0, count - 1, any, any])
    }

    /// Other widths for a parameter.
    fn widen(&mut self, parameter: &mut Parameter) {
        let length = parameter.value.len() as u64;
        parameter.widths = (self.width_for(parameter.identifier), self.width_for(length));
    }

    /// One identifier a second time, at any place; if there is none, ours is put in twice. Half of
    /// the time it is ours, if it is there.
    fn repeat(&mut self, parameters: &mut Vec<Parameter>) {
        let ours = |p: &&Parameter| p.identifier == VERSION_INFORMATION;
        let mut again = match parameters.iter().find(ours) {
            Some(ours) if self.one_in(2) => ours.clone(),
            _ if !parameters.is_empty() => self.pick(parameters).clone(),
            _ => {
                parameters.push(Parameter::shortest(VERSION_INFORMATION, Vec::new()));
                parameters[0].clone()
            }
        };
        again.value = self.parameter_value();
        self.widen(&mut again);
        // Before the others, after them, or anywhere.
        match self.below(4) {
            0 => parameters.insert(0, again),
            1 => parameters.push(again),
            _ => self.insert(parameters, again),
        }
    }
}

// Sequences.

impl Random {
    /// Of each kind as many as of the others, but fewer of the long ones.
    pub fn sequence_call(&mut self) -> SequenceCall {
        let sequences = match *self.pick(&SEQUENCES) {
            Sequences::Long if !self.one_in(4) => Sequences::AnyWidths,
            sequences => sequences,
        };
        self.sequence_of(sequences)
    }

    pub fn sequence_of(&mut self, sequences: Sequences) -> SequenceCall {
        let in_any_widths = match sequences {
            Sequences::Shortest => false,
            Sequences::AnyWidths | Sequences::Repeated => true,
            _ => self.one_in(2),
        };
        let mut parameters = self.parameters(in_any_widths);
        let again = match sequences {
            Sequences::Shortest | Sequences::AnyWidths | Sequences::Long => 0,
            Sequences::Repeated => 1 + self.below(8) / 7,
            // To try the order of the refusals.
            _ => self.below(2),
        };
        for _ in 0..again {
            self.repeat(&mut parameters);
        }
        if sequences == Sequences::Long {
            self.lengthen(&mut parameters);
        }
        let mut sequence = in_sequence(&parameters);
        match sequences {
            Sequences::Cut => {
                let missing = match self.below(2) {
                    0 => 1 + self.below(4),
                    _ => 1 + self.below(sequence.len().max(1)),
                };
                sequence.truncate(sequence.len().saturating_sub(missing));
            }
            Sequences::PastTheEnd => sequence.extend(self.past_the_end()),
            Sequences::LeftOver => {
                let count = 1 + self.below(10);
                sequence.extend(self.noise(count));
            }
            Sequences::Changed if !sequence.is_empty() => {
                let place = self.below(sequence.len());
                sequence[place] ^= 1 << self.below(8);
            }
            Sequences::Noise => {
                let count = self.below(40);
                sequence = self.noise(count);
            }
            _ => {}
        }
        SequenceCall {
            sequences,
            parameters,
            sequence,
        }
    }

    /// Any bytes, half of the time small ones, which are parameters more often.
    fn noise(&mut self, count: usize) -> Vec<u8> {
        let small = self.one_in(2);
        let mut bytes = self.bytes(count);
        for byte in bytes.iter_mut().filter(|_| small) {
            *byte = *self.pick(&[0, 0, 1, 2, 5, 0x11, 0x40, *byte & 0x1f]);
        }
        bytes
    }

    /// A parameter whose value has fewer bytes than its length tells: by one to three, by about a
    /// power of two, or by nearly as many as a length can tell.
    fn past_the_end(&mut self) -> Vec<u8> {
        let value = self.parameter_value();
        let shorter = value.len() as u64;
        let power = 1 << self.below(62);
        let length = match self.below(4) {
            0 | 1 => shorter + 1 + self.below(3) as u64,
            2 => shorter + *self.pick(&[1 << 16, 1 << 31, 1 << 32, power]),
            _ => MAX_INTEGER - self.below(20_000) as u64,
        };
        let length = length.min(MAX_INTEGER);
        let identifier = self.integer();
        let (one, other) = (self.width_for(identifier), self.width_for(length));
        [
            integer_in(identifier, one),
            integer_in(length, other),
            value,
        ]
        .concat()
    }

    /// One value is made longer, so that the sequence has about as many bytes as there may be.
    fn lengthen(&mut self, parameters: &mut Vec<Parameter>) {
        let aim = MAX_SEQUENCE - 2 + self.below(5);
        if parameters.is_empty() {
            parameters.push(Parameter::shortest(VERSION_INFORMATION, Vec::new()));
        }
        let place = self.below(parameters.len());
        parameters[place].value.clear();
        // Beside the identifier 2 bytes hold any length that is left.
        parameters[place].widths.1 = *self.pick(&[2, 2, 4, 8]);
        let length = aim - in_sequence(parameters).len();
        parameters[place].value = self.bytes(length);
    }
}

// Whole calls of the writer.

impl Random {
    /// About two of three old sequences can be read.
    pub fn parameters_call(&mut self) -> ParametersCall {
        let old = match self.below(2) {
            0 => {
                let sequences = *self.pick(&[Sequences::Shortest, Sequences::AnyWidths]);
                self.sequence_of(sequences)
            }
            _ => self.sequence_call(),
        };
        let value = match self.below(48) {
            0 => {
                let aim = MAX_SEQUENCE - 2 + self.below(5);
                self.value_up_to(aim, &old.parameters)
            }
            _ => self.our_value(),
        };
        let need = new_length(&old.parameters, value.len());
        let room = match self.below(16) {
            0 => 0,
            _ => self.room(need),
        };
        ParametersCall { old, value, room }
    }

    /// Our value: 0 to 1,024 bytes, a few of 16,000 and more.
    fn our_value(&mut self) -> Vec<u8> {
        let any = self.below(1_025);
        let length = match self.below(64) {
            0 => *self.pick(&[16_000, 16_380, 16_381, 16_383, 16_384, 16_385, 20_000]),
            1..=7 => *self.pick(&[62, 63, 64, 65, 1_024]),
            8..=15 => any,
            _ => 4 * self.below(10),
        };
        self.bytes(length)
    }

    /// A value with which the new sequence has so many bytes, or as near to it as can be.
    fn value_up_to(&mut self, aim: usize, old: &[Parameter]) -> Vec<u8> {
        // A length of over 63 bytes takes 2; those that take 4 are too long.
        let without = new_length(old, 0) + 1;
        self.bytes(aim.saturating_sub(without))
    }
}

/// The bytes of the new sequence, with a value of so many.
pub fn new_length(old: &[Parameter], value: usize) -> usize {
    let length =
        |identifier: u64, value: usize| least_width(identifier) + least_width(value as u64) + value;
    let others = old.iter().filter(|p| p.identifier != VERSION_INFORMATION);
    let others = others.map(|p| length(p.identifier, p.value.len()));
    others.sum::<usize>() + length(VERSION_INFORMATION, value)
}
