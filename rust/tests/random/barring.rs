//! Calls that what is barred decides, or nearly does (document 02, C-17).

use super::attempts::StartCall;
use super::choices::ServerCall;
use super::{in_fours, information, long_packet, Random};
use crate::model::{Event, MAX_BARRED, MAX_PAIRS};

/// The versions that a call of this file is about.
struct About {
    /// The version of the flight: attempted, or Chosen by the client.
    flight: u32,
    /// The version that it may be converted to, if that is not barred.
    answer: u32,
    /// Another one: the Original Version where the flight's is not.
    original: u32,
}

impl Random {
    /// A start, mostly a packet on which it acts, and an outcome with a version that is mostly
    /// paired from the attempted one. Mostly nothing but a barred pair keeps it from completing.
    pub fn barring_call(&mut self) -> (StartCall, Vec<Event>) {
        let table = self.table_of_three();
        let (about, acts) = (self.about(&table), !self.one_in(4));
        let mut pairs = self.good_pairs_among(&table);
        pairs.truncate(MAX_PAIRS - 1);
        if !self.one_in(8) {
            self.insert(&mut pairs, (about.flight, about.answer));
        }
        let barred = self.barred_about(&about, &table, &pairs);
        let mut events = Vec::new();
        if acts {
            let list = in_fours(&[about.flight]);
            events.push(Event::Datagram(long_packet(0, 0, &[], &[], &list)));
        }
        if self.one_in(8) {
            events.push(Event::Processed);
        }
        events.push(self.outcome_about(&about));
        let start = StartCall {
            table,
            pairs,
            barred,
            original: if acts { about.original } else { about.flight },
            destination: Vec::new(),
            source: Vec::new(),
        };
        (start, events)
    }

    fn table_of_three(&mut self) -> Vec<u32> {
        loop {
            let table = self.good_table();
            if table.len() > 2 {
                return table;
            }
        }
    }

    /// Three entries of a table. Mostly it prefers the flight's version to the one that it may be
    /// converted to, as the renewed choice asks.
    fn about(&mut self, table: &[u32]) -> About {
        let mut places: Vec<usize> = (0..table.len()).collect();
        self.shuffle(&mut places);
        places.truncate(3);
        if places[0] > places[1] && !self.one_in(8) {
            places.swap(0, 1);
        }
        About {
            flight: table[places[0]],
            answer: table[places[1]],
            original: table[places[2]],
        }
    }

    fn outcome_about(&mut self, about: &About) -> Event {
        let chosen = match self.below(8) {
            0 => about.flight,
            1 => about.original,
            _ => about.answer,
        };
        let available: &[u32] = match self.below(12) {
            0 => &[],
            1 => &[about.answer],
            2 => &[about.flight, about.answer, about.original],
            _ => &[about.answer, about.flight],
        };
        Event::Outcome {
            in_use: if self.one_in(12) {
                about.flight
            } else {
                chosen
            },
            information: match self.below(16) {
                0 => None,
                _ => Some(information(chosen, available)),
            },
        }
    }

    /// The pair that decides, one that would by a slip, or several, among others.
    fn barred_about(
        &mut self,
        about: &About,
        table: &[u32],
        pairs: &[(u32, u32)],
    ) -> Vec<(u32, u32)> {
        let (flight, answer, original) = (about.flight, about.answer, about.original);
        let outside = self.plain_version_outside(table);
        let mut barred = match self.below(12) {
            0..=3 => vec![(flight, answer)],
            4 => vec![(answer, flight)],
            5 => vec![(original, answer)],
            6 => vec![(flight, original)],
            7 => vec![(outside, answer), (flight, outside)],
            8 => vec![(flight, original), (original, answer)],
            9 => vec![(answer, original), (original, flight)],
            _ => Vec::new(),
        };
        if self.one_in(2) {
            let mut others = self.good_barred_pairs(table, pairs, original);
            if self.one_in(2) {
                others.retain(|pair| *pair != (flight, answer));
            }
            others.truncate(MAX_PAIRS - barred.len());
            barred.extend(others);
            self.shuffle(&mut barred);
        }
        barred
    }
}

// The server.

impl Random {
    /// A first flight that the server can read, with an accepted version that is mostly paired from
    /// Chosen and Available, so that it is used unless it is barred.
    pub fn barring_server_call(&mut self) -> ServerCall {
        let table = self.table_of_three();
        let about = self.about(&table);
        let mut accepted = table.clone();
        if self.one_in(2) {
            accepted.retain(|v| *v != about.flight);
        }
        self.shuffle(&mut accepted);
        let mut pairs = vec![(about.flight, about.answer)];
        let some = self.one_in(2);
        for to in table.iter().filter(|to| some && **to != about.flight) {
            if self.one_in(3) {
                pairs.push((about.flight, *to));
            }
        }
        if self.one_in(4) {
            pairs.extend(self.good_pairs_among(&table));
            pairs.truncate(MAX_PAIRS);
        }
        let barred = self.versions_about(&about, &accepted, &pairs);
        let mut available = table.clone();
        available.retain(|v| *v == about.flight || !self.one_in(4));
        self.shuffle(&mut available);
        let given = !self.one_in(8);
        ServerCall {
            readable: vec![about.flight],
            accepted,
            pairs,
            barred,
            version: about.flight,
            information: given.then(|| information(about.flight, &available)),
        }
    }

    /// The versions that decide, or would by a slip, among others.
    fn versions_about(
        &mut self,
        about: &About,
        accepted: &[u32],
        pairs: &[(u32, u32)],
    ) -> Vec<u32> {
        let mut barred = match self.below(8) {
            0..=2 => vec![about.answer],
            3 => vec![about.flight],
            4 => vec![about.flight, about.answer],
            5 => accepted
                .iter()
                .copied()
                .filter(|_| self.one_in(2))
                .collect(),
            _ => Vec::new(),
        };
        barred.extend(self.barred_versions(accepted, pairs, about.flight));
        // Mostly not too many of them.
        if !self.one_in(8) {
            barred.truncate(MAX_BARRED);
        }
        self.shuffle(&mut barred);
        barred
    }
}
