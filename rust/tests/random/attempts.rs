//! Starts, and lists of events that suit an attempt.

use super::{in_fours, information, long_packet, Random};
use crate::model::{self, Attempt, End, Event};

/// Inputs of a start.
#[derive(Debug, Clone)]
pub struct StartCall {
    pub table: Vec<u32>,
    pub pairs: Vec<(u32, u32)>,
    pub barred: Vec<(u32, u32)>,
    pub original: u32,
    pub destination: Vec<u8>,
    pub source: Vec<u8>,
}

impl StartCall {
    /// The model's answer.
    pub fn start(&self) -> Result<Attempt, u8> {
        model::start(
            &self.table,
            &self.pairs,
            &self.barred,
            self.original,
            &self.destination,
            &self.source,
        )
    }
}

impl Random {
    /// A start that may be refused: 41, 43, 44 and 45 among the answers.
    pub fn start_call(&mut self) -> StartCall {
        let table = self.table();
        let pairs = self.pairs_among(&table);
        let original = if table.is_empty() || self.one_in(8) {
            self.version()
        } else {
            *self.pick(&table)
        };
        let barred = self.barred_pairs(&table, &pairs, original);
        let max = *self.pick(&[20, 20, 20, 20, 21, 255]);
        let destination = self.connection_id(max);
        let source = self.source_beside(&destination);
        let (destination, source) = if self.one_in(2) {
            (source, destination)
        } else {
            (destination, source)
        };
        StartCall {
            table,
            pairs,
            barred,
            original,
            destination,
            source,
        }
    }

    /// A source ID that is not refused, now and then equal to `destination`.
    fn source_beside(&mut self, destination: &[u8]) -> Vec<u8> {
        if self.one_in(8) {
            destination.to_vec()
        } else {
            self.connection_id(20)
        }
    }

    /// A start that is not refused, often with a version 1 to fall back to.
    pub fn good_start_call(&mut self) -> StartCall {
        let table = if self.one_in(3) {
            self.good_table_with(1)
        } else {
            self.good_table()
        };
        let pairs = self.good_pairs_among(&table);
        let original = *self.pick(&table);
        let barred = self.good_barred_pairs(&table, &pairs, original);
        let destination = self.connection_id(20);
        let source = self.source_beside(&destination);
        StartCall {
            table,
            pairs,
            barred,
            original,
            destination,
            source,
        }
    }
}

// Events.

impl Random {
    /// Up to 20 events, each made to suit the state that the ones before it
    /// leave; one list in eight goes on long after its end. `attempt` stays as it
    /// is.
    pub fn events(&mut self, attempt: &Attempt) -> Vec<Event> {
        let after_end = match self.below(8) {
            0 => self.below(20),
            _ => self.below(4),
        };
        self.events_up_to(attempt, 20, after_end)
    }

    /// The same, up to 12.
    pub fn few_events(&mut self, attempt: &Attempt) -> Vec<Event> {
        let after_end = self.below(4);
        self.events_up_to(attempt, 12, after_end)
    }

    fn events_up_to(&mut self, attempt: &Attempt, most: usize, mut after_end: usize) -> Vec<Event> {
        let mut state = attempt.clone();
        let mut events = Vec::new();
        let count = self.below(most + 1);
        while events.len() < count {
            let event = self.event(&state);
            // The answer is of no weight here; the state it leaves is.
            let _ = state.event(&event);
            events.push(event);
            if state.end != End::Open {
                if after_end == 0 {
                    break;
                }
                after_end -= 1;
            }
        }
        events
    }

    /// One event for an attempt in this state.
    pub fn event(&mut self, attempt: &Attempt) -> Event {
        let (datagrams, outcomes) = match attempt.end {
            End::Open if attempt.acted => (3, 5),
            End::Open if attempt.heard => (3, 4),
            End::Open => (8, 2),
            _ => (4, 4),
        };
        match self.below(11) {
            n if n < datagrams => Event::Datagram(self.event_datagram(attempt)),
            n if n < datagrams + outcomes => self.outcome(attempt),
            _ if self.one_in(2) => Event::Processed,
            _ => self.outcome(attempt),
        }
    }

    /// A datagram for this attempt: mostly Version Negotiation with matching
    /// IDs, now and then wrong in one of the ways that 61, 63, 64 and 65 name.
    pub fn event_datagram(&mut self, attempt: &Attempt) -> Vec<u8> {
        // The server sends our IDs back swapped.
        let (mut destination, mut source) = (attempt.source.clone(), attempt.destination.clone());
        match self.below(24) {
            0 => destination = self.other_id(&destination),
            1 => source = self.other_id(&source),
            2 => std::mem::swap(&mut destination, &mut source),
            3 => destination = self.connection_id(255),
            4 => source = self.connection_id(255),
            _ => {}
        }
        let list = self.event_list(attempt);
        let first = self.next_u64() as u8;
        match self.below(24) {
            // 61: empty list, bytes left over, another version, a short form.
            0 => long_packet(first, 0, &destination, &source, &[]),
            1 => {
                let mut rest = in_fours(&list);
                rest.extend(vec![0; 1 + self.below(3)]);
                long_packet(first, 0, &destination, &source, &rest)
            }
            2 => {
                let version = self.plain_version();
                long_packet(first, version, &destination, &source, &in_fours(&list))
            }
            3 => self.datagram(&destination, &source, &list),
            4 => {
                let whole = long_packet(first, 0, &destination, &source, &in_fours(&list));
                self.damage(whole)
            }
            5 if self.one_in(4) => self.huge_negotiation(&destination, &source, attempt),
            _ => long_packet(first, 0, &destination, &source, &in_fours(&list)),
        }
    }

    fn event_list(&mut self, attempt: &Attempt) -> Vec<u32> {
        let mut list = match self.below(12) {
            0 | 1 => self.list_outside(&attempt.table),
            2 => self.list(&[]),
            3 => vec![*self.pick(&attempt.table)],
            _ => self.list(&attempt.table),
        };
        list.retain(|v| *v != attempt.original);
        if self.one_in(8) {
            self.insert(&mut list, attempt.original);
        }
        list
    }

    /// As many versions as a datagram holds, and one table entry in the last
    /// place; or one entry more.
    fn huge_negotiation(
        &mut self,
        destination: &[u8],
        source: &[u8],
        attempt: &Attempt,
    ) -> Vec<u8> {
        let most = (65_535 - 7 - destination.len() - source.len()) / 4;
        let entries = most + self.below(2);
        let list = self.long_list(entries, &attempt.table);
        long_packet(128, 0, destination, source, &in_fours(&list))
    }

    /// An outcome for this attempt: mostly one that completes, now and then
    /// wrong in one of the ways that 31 to 35 and 71 to 75 name.
    pub fn outcome(&mut self, attempt: &Attempt) -> Event {
        let chosen = self.chosen(attempt);
        let in_use = match self.below(10) {
            0 => *self.pick(&attempt.table),
            1 => attempt.attempted,
            _ => chosen,
        };
        if self.one_in(6) {
            let in_use = if self.one_in(3) {
                in_use
            } else {
                attempt.attempted
            };
            return Event::Outcome {
                in_use,
                information: None,
            };
        }
        let available = self.outcome_list(attempt);
        // `information` damages one in three; keep two of three of these whole.
        let information = if self.one_in(3) {
            self.information(chosen, &available)
        } else {
            information(chosen, &available)
        };
        Event::Outcome {
            in_use,
            information: Some(information),
        }
    }

    /// A Chosen Version: mostly one of the own list, now and then one that is barred, or would be
    /// for another version than the attempted one.
    fn chosen(&mut self, attempt: &Attempt) -> u32 {
        let own = attempt.own_list();
        match self.below(12) {
            0 => self.version(),
            1 => *self.pick(&attempt.table),
            2 => attempt.original,
            3..=5 => attempt.attempted,
            6 | 7 => {
                let now = attempt.attempted;
                let barred = attempt.barred.iter().filter(|(from, _)| *from == now);
                let mut barred: Vec<u32> = barred.map(|(_, to)| *to).collect();
                if barred.is_empty() || self.one_in(4) {
                    barred.extend(attempt.barred.iter().map(|(_, to)| *to));
                    barred.push(now);
                }
                *self.pick(&barred)
            }
            _ => *self.pick(&own),
        }
    }

    fn outcome_list(&mut self, attempt: &Attempt) -> Vec<u32> {
        let preferred: Vec<u32> = attempt
            .table
            .iter()
            .copied()
            .take_while(|v| *v != attempt.attempted)
            .collect();
        let mut list = match self.below(10) {
            0 => Vec::new(),
            1 => self.list_outside(&attempt.table),
            2 | 3 => self.list(&attempt.table),
            // Nothing that the table prefers to the attempted version.
            _ => {
                let mut list = self.list(&attempt.table);
                list.retain(|v| !preferred.contains(v));
                if !self.one_in(4) {
                    self.insert(&mut list, attempt.attempted);
                }
                list
            }
        };
        // The Original may be there: rule 64 is not applied a second time.
        if self.one_in(6) {
            self.insert(&mut list, attempt.original);
        }
        if !self.one_in(10) {
            list.retain(|v| *v != 0);
        }
        list
    }
}
