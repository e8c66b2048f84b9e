//! Journals, and lists of events that fill them.

use super::{in_fours, long_packet, Random};
use crate::model::{Attempt, Event, JOURNAL_PLACES, MAX_EVENTS};

/// The numbers that an event gives, 0 for no refusal.
pub const GIVEN: [u8; 16] = [
    0, 31, 32, 33, 34, 35, 61, 62, 63, 64, 65, 71, 72, 73, 74, 75,
];

impl Random {
    /// A count of events: few, about eight, about the stop, about a width's border, or any.
    pub fn event_count(&mut self) -> u32 {
        let most = MAX_EVENTS as u32;
        match self.below(8) {
            0 => self.below(JOURNAL_PLACES) as u32,
            1 | 2 => 7 + self.below(3) as u32,
            3 | 4 => most - self.below(3) as u32,
            5 => most - self.below(20) as u32,
            6 => *self.pick(&[
                255,
                256,
                65_535,
                65_536,
                1 << 31,
                (1 << 31) - 1,
                (1 << 24) - 1,
            ]),
            _ => self.next_u32(),
        }
    }

    /// Answers that events gave.
    pub fn given_answers(&mut self) -> [u8; JOURNAL_PLACES] {
        [0; JOURNAL_PLACES].map(|_| *self.pick(&GIVEN))
    }

    /// Eight bytes of any value, often ones that no event gives, or 0.
    pub fn any_answers(&mut self) -> [u8; JOURNAL_PLACES] {
        [0; JOURNAL_PLACES].map(|_| match self.below(4) {
            0 => 0,
            1 => *self.pick(&GIVEN),
            2 => *self.pick(&[1, 7, 30, 36, 60, 66, 76, 254, 255]),
            _ => self.next_u32() as u8,
        })
    }

    /// A list of 9 to 20 events, so that the eight run over. The first of them, up to all, are
    /// datagrams that are ignored; then any come.
    pub fn long_events(&mut self, attempt: &Attempt) -> Vec<Event> {
        let mut state = attempt.clone();
        let count = 9 + self.below(12);
        let ignored = self.below(count + 1);
        let mut events = Vec::new();
        while events.len() < count {
            let event = if events.len() < ignored {
                Event::Datagram(self.ignored_datagram(&state))
            } else {
                self.event(&state)
            };
            let _ = state.event(&event);
            events.push(event);
        }
        events
    }

    /// A datagram that is a 61, 63 or 64 on an attempt that neither acted nor heard.
    fn ignored_datagram(&mut self, attempt: &Attempt) -> Vec<u8> {
        let (source, mut destination) = (&attempt.destination, attempt.source.clone());
        let list = in_fours(&[self.version(), attempt.original, self.version()]);
        match self.below(3) {
            0 => {
                let count = self.below(7);
                return self.bytes(count);
            }
            1 => destination.push(self.next_u32() as u8),
            _ => {}
        }
        long_packet(self.next_u32() as u8, 0, &destination, source, &list)
    }
}
