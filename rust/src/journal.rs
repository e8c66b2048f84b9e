//! The journal of an attempt: what its events were answered with.

use crate::{Refusal, WriteRefusal, JOURNAL_PLACES, MAX_EVENTS};
use std::fmt;
use std::iter::FusedIterator;
use std::ops::Range;

/// The answer of one event, as a journal keeps it: no refusal, or one.
///
/// ```
/// # use quic_version::{Answer, Refusal};
/// let answer = Answer::from_number(64);
/// assert_eq!(answer.refusal(), Some(Refusal::ListsOriginal));
/// assert_eq!(answer.to_string(), "64 the packet lists the Original Version");
/// assert_eq!(Answer::from_number(0).to_string(), "0 no refusal");
/// ```
#[derive(Clone, Copy, PartialEq, Eq, Hash)]
pub struct Answer(u8);

impl Answer {
    /// The answer with this number, such as one of a log. Any number will do: one that no event
    /// gives is shown as what it is.
    pub fn from_number(number: u8) -> Answer {
        Answer(number)
    }

    /// 0 for no refusal, else the number of the refusal, as the C header has it.
    pub fn number(self) -> u8 {
        self.0
    }

    /// The refusal, `None` where the event was not refused. A number that [`Refusal`] does not have
    /// counts as [`Refusal::NotValid`]; no event gives one such.
    pub fn refusal(self) -> Option<Refusal> {
        match self.0 {
            0 => None,
            number => Some(Refusal::from_number(number).unwrap_or(Refusal::NotValid)),
        }
    }

    /// The words of the C header's `qv_refusal_text`.
    fn in_words(self) -> &'static str {
        let reading = Refusal::from_number(self.0).map(Refusal::in_words);
        let writing = || WriteRefusal::from_number(self.0).map(WriteRefusal::in_words);
        match self.0 {
            0 => "no refusal",
            _ => reading.or_else(writing).unwrap_or("an unknown number"),
        }
    }
}

impl fmt::Display for Answer {
    /// The number, and the cause in words.
    fn fmt(&self, f: &mut fmt::Formatter<'_>) -> fmt::Result {
        write!(f, "{} {}", self.number(), self.in_words())
    }
}

impl fmt::Debug for Answer {
    /// The name of the refusal.
    fn fmt(&self, f: &mut fmt::Formatter<'_>) -> fmt::Result {
        match (self.0, Refusal::from_number(self.0)) {
            (0, _) => f.write_str("NoRefusal"),
            (_, Some(refusal)) => refusal.fmt(f),
            (number, None) => f.debug_tuple("Unknown").field(&number).finish(),
        }
    }
}

/// What happened to an attempt: the answers of its last events, oldest first, and the count of all
/// of them. See [`Attempt::journal`](crate::Attempt::journal).
///
/// It is a copy: later events do not change it. `Display` is for the log, a line for each answer
/// that is kept.
#[derive(Clone, Copy, PartialEq, Eq, Hash)]
pub struct Journal {
    pub(crate) answers: [u8; JOURNAL_PLACES],
    /// At most `JOURNAL_PLACES`.
    pub(crate) used: usize,
    pub(crate) count: u32,
}

impl Journal {
    /// The count of all events of the attempt, those that were refused too. It stops at
    /// [`MAX_EVENTS`], while the answers go on.
    pub fn count(&self) -> u32 {
        self.count
    }

    /// How many answers are kept: those of the last [`JOURNAL_PLACES`] events, or of all where there
    /// were fewer.
    pub fn len(&self) -> usize {
        self.used
    }

    /// Whether there was no event yet.
    pub fn is_empty(&self) -> bool {
        self.used == 0
    }

    /// The answers that are kept, oldest first.
    pub fn iter(&self) -> Answers {
        Answers {
            answers: self.answers,
            left: 0..self.used,
        }
    }

    /// The number, within the attempt, of the event whose answer is the first one kept; the first
    /// event of an attempt has number 1. `None` where there was no event, and where the count stands
    /// at [`MAX_EVENTS`]: nobody can tell then how many there were.
    pub fn first_event(&self) -> Option<u32> {
        if self.is_empty() || self.count == MAX_EVENTS {
            return None;
        }
        Some(self.count - self.used as u32 + 1)
    }
}

impl IntoIterator for Journal {
    type Item = Answer;
    type IntoIter = Answers;

    fn into_iter(self) -> Answers {
        self.iter()
    }
}

impl IntoIterator for &Journal {
    type Item = Answer;
    type IntoIter = Answers;

    fn into_iter(self) -> Answers {
        self.iter()
    }
}

impl fmt::Display for Journal {
    /// A line for each answer that is kept, oldest first, with the number of its event:
    /// `event 13: 61 the datagram is no readable Version Negotiation packet`. Where the count stands
    /// at [`MAX_EVENTS`], the first line says so, and the others have no number. There is no line
    /// end after the last.
    fn fmt(&self, f: &mut fmt::Formatter<'_>) -> fmt::Result {
        if self.is_empty() {
            return f.write_str("no event");
        }
        match self.first_event() {
            Some(first) => {
                for (answer, number) in self.iter().zip(first..) {
                    let end = if number == self.count { "" } else { "\n" };
                    write!(f, "event {}: {}{}", number, answer, end)?;
                }
            }
            None => {
                write!(f, "{} events or more, the last of them:", MAX_EVENTS)?;
                for answer in self {
                    write!(f, "\nevent: {}", answer)?;
                }
            }
        }
        Ok(())
    }
}

impl fmt::Debug for Journal {
    fn fmt(&self, f: &mut fmt::Formatter<'_>) -> fmt::Result {
        f.debug_struct("Journal")
            .field("answers", &self.iter())
            .field("count", &self.count)
            .finish()
    }
}

/// The answers of a [`Journal`], oldest first.
#[derive(Clone)]
pub struct Answers {
    answers: [u8; JOURNAL_PLACES],
    left: Range<usize>,
}

impl Iterator for Answers {
    type Item = Answer;

    fn next(&mut self) -> Option<Answer> {
        self.left.next().map(|place| Answer(self.answers[place]))
    }

    fn size_hint(&self) -> (usize, Option<usize>) {
        self.left.size_hint()
    }
}

impl DoubleEndedIterator for Answers {
    fn next_back(&mut self) -> Option<Answer> {
        let place = self.left.next_back()?;
        Some(Answer(self.answers[place]))
    }
}

impl ExactSizeIterator for Answers {}

impl FusedIterator for Answers {}

impl fmt::Debug for Answers {
    /// The answers that are left.
    fn fmt(&self, f: &mut fmt::Formatter<'_>) -> fmt::Result {
        f.debug_list().entries(self.clone()).finish()
    }
}

/// What no attempt of a test has: counts near their stop, and numbers that no event gives.
#[cfg(test)]
mod tests {
    use super::{Answer, Journal};
    use crate::MAX_EVENTS;

    fn journal(answers: [u8; 8], count: u32) -> Journal {
        Journal {
            answers,
            used: count.min(8) as usize,
            count,
        }
    }

    /// The lines that are shown, of which the first seven are alike.
    fn last_line(count: u32) -> String {
        let shown = journal([61, 61, 61, 61, 61, 61, 61, 64], count).to_string();
        assert_eq!(shown.matches(": 61 the datagram is no readable").count(), 7);
        String::from(shown.lines().last().unwrap())
    }

    #[test]
    fn numbers_up_to_the_stop() {
        let words = "64 the packet lists the Original Version";
        assert_eq!(last_line(8), format!("event 8: {}", words));
        assert_eq!(last_line(20), format!("event 20: {}", words));
        assert_eq!(
            last_line(MAX_EVENTS - 1),
            format!("event 4294967294: {}", words)
        );
        assert_eq!(last_line(MAX_EVENTS), format!("event: {}", words));
        let stopped = journal([62; 8], MAX_EVENTS);
        assert_eq!(stopped.first_event(), None);
        let shown = stopped.to_string();
        assert_eq!(
            shown.lines().next(),
            Some("4294967295 events or more, the last of them:")
        );
        assert_eq!(shown.lines().count(), 9);
        // The only number of an event would be a wrong one.
        assert!(!shown.contains("event 4"));
        let near = journal([62; 8], MAX_EVENTS - 1);
        assert_eq!(near.first_event(), Some(MAX_EVENTS - 8));
        assert_eq!(near.to_string().lines().count(), 8);
    }

    /// Of a damaged record: nothing panics, and the number is shown.
    #[test]
    fn numbers_that_no_event_gives() {
        let damaged = journal([0, 7, 255, 20, 61, 1, 254, 99], 8);
        assert_eq!(
            format!("{:?}", damaged.iter()),
            "[NoRefusal, Unknown(7), NotValid, Unknown(20), NotVersionNegotiation, Unknown(1), \
             Unknown(254), Unknown(99)]"
        );
        let shown = damaged.to_string();
        assert!(
            shown.contains("event 2: 7 an unknown number\n"),
            "{}",
            shown
        );
        for number in 0..=u8::MAX {
            let answer = Answer::from_number(number);
            assert_eq!(answer.refusal().is_none(), number == 0);
        }
    }
}
