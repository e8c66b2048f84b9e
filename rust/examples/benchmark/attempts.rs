//! Rows of the client's attempt: starts, own lists, events on a small and on a full table, and the
//! journal.

use crate::measure::{calls, grouped, opaque, same, Part, Table};
use crate::packet::{in_fours, information, long_packet};
use crate::plain::PlainAttempt;
use crate::{raw, Pair};
use quic_version::{Attempt, Refusal, MAX_AVAILABLE, MAX_ID, MAX_PAIRS, MAX_TABLE};

pub fn rows(table: &mut Table) {
    starts(table);
    small_events(table);
    full_events(table);
    journals(table);
}

/// What an event answers: a version, or the number of a refusal.
type Answer = Result<u32, u8>;

/// The library's attempt and plain Rust's, after the same calls.
#[derive(Clone)]
pub struct Both {
    pub library: Part<Attempt>,
    pub plain: Part<PlainAttempt>,
}

impl Both {
    pub fn start(
        versions: &[u32],
        pairs: &[Pair],
        original: u32,
        destination: &[u8],
        source: &[u8],
    ) -> Both {
        let library = Attempt::start(versions, pairs, original, destination, source);
        let plain = PlainAttempt::start(versions, pairs, original, destination, source);
        Both::of(library.unwrap(), plain.unwrap())
    }

    fn of(library: Attempt, plain: PlainAttempt) -> Both {
        assert_eq!(library.attempted(), plain.attempted);
        assert_eq!(*library.own_list(), *plain.own_list());
        assert_same_journal(&library, &plain);
        Both {
            library: Part(library),
            plain: Part(plain),
        }
    }

    fn copies(&self) -> (Attempt, PlainAttempt) {
        (self.library.0.clone(), self.plain.0)
    }

    /// Both after one more datagram, on which they act.
    fn acted(&self, packet: &[u8]) -> Both {
        let (mut library, mut plain) = self.copies();
        assert!(same(library.datagram(packet), plain.datagram(packet)).is_ok());
        assert!(library.acted());
        Both::of(library, plain)
    }

    fn datagram_row(&self, table: &mut Table, name: &str, datagram: &[u8], answer: Answer) {
        let (mut library, mut plain) = self.copies();
        assert_eq!(
            same(library.datagram(datagram), plain.datagram(datagram)),
            answer
        );
        assert_same_journal(&library, &plain);
        table.row(
            name,
            calls!(opaque(&self.library.0)
                .clone()
                .datagram(opaque(datagram))
                .is_ok()),
            calls!(opaque(&self.plain.0)
                .clone()
                .datagram(opaque(datagram))
                .is_ok()),
        );
    }

    fn processed_row(&self, table: &mut Table, name: &str) {
        let (mut library, mut plain) = self.copies();
        assert!(same(library.packet_processed(), plain.packet_processed()).is_ok());
        assert!(library.heard());
        assert_same_journal(&library, &plain);
        table.row(
            name,
            calls!(opaque(&self.library.0).clone().packet_processed().is_ok()),
            calls!(opaque(&self.plain.0).clone().packet_processed().is_ok()),
        );
    }

    /// An outcome that completes.
    fn outcome_row(&self, table: &mut Table, name: &str, in_use: u32, bytes: Option<&[u8]>) {
        let (mut library, mut plain) = self.copies();
        assert_eq!(
            same(library.outcome(in_use, bytes), plain.outcome(in_use, bytes)),
            Ok(in_use)
        );
        assert_same_journal(&library, &plain);
        table.row(
            name,
            calls!(opaque(&self.library.0)
                .clone()
                .outcome(opaque(in_use), opaque(bytes))
                .is_ok()),
            calls!(opaque(&self.plain.0)
                .clone()
                .outcome(opaque(in_use), opaque(bytes))
                .is_ok()),
        );
    }
}

fn assert_same_journal(library: &Attempt, plain: &PlainAttempt) {
    let (one, other) = (library.journal(), plain.journal());
    assert_eq!(one.count(), other.count);
    let numbers = one.iter().map(quic_version::Answer::number);
    assert!(numbers.eq(other.iter().copied()));
}

/// `entries` versions and `count` pairs, `count / entries` of them from each entry to those after it.
fn table_and_pairs(entries: usize, count: usize) -> (Vec<u32>, Vec<Pair>) {
    let versions: Vec<u32> = (100..).take(entries).collect();
    let each = (count / entries).max(1);
    let pair = |k| Pair {
        from: versions[k / each],
        to: versions[(k / each + 1 + k % each) % entries],
    };
    let pairs = (0..count).map(pair).collect();
    (versions, pairs)
}

/// A full table, and as many pairs as there may be, from each entry to the 16 that follow it.
pub fn full() -> (Vec<u32>, Vec<Pair>) {
    table_and_pairs(MAX_TABLE, MAX_PAIRS)
}

fn starts(table: &mut Table) {
    let (destination, source) = (&[7; 8][..], &[8; 8][..]);
    // The second has 16 entries and 64 pairs, the limits before C-14, the third those of now.
    let (base, full) = (table_and_pairs(16, 64), full());
    let small = (&[14, 12, 10][..], &[][..], 12);
    let middle = (&base.0[..], &base.1[..], base.0[7]);
    let large = (&full.0[..], &full.1[..], full.0[MAX_TABLE / 2 - 1]);
    for (versions, pairs, original) in [small, middle, large] {
        let both = Both::start(versions, pairs, original, destination, source);
        table.row(
            &format!(
                "start, {} entries, {} pairs",
                versions.len(),
                grouped(pairs.len())
            ),
            calls!(Attempt::start(
                opaque(versions),
                opaque(pairs),
                opaque(original),
                opaque(destination),
                opaque(source)
            )
            .unwrap()
            .attempted()),
            calls!(
                PlainAttempt::start(
                    opaque(versions),
                    opaque(pairs),
                    opaque(original),
                    opaque(destination),
                    opaque(source)
                )
                .unwrap()
                .attempted
            ),
        );
        own_list_row(table, &both, versions.len());
    }
    own_list_row(table, &longest_own_list(), MAX_TABLE);
}

/// The longest own list: every entry of a full table.
pub fn longest_own_list() -> Both {
    let versions = full().0;
    let last = versions[MAX_TABLE - 1];
    let all = |to: &u32| Pair {
        from: last,
        to: *to,
    };
    let pairs: Vec<Pair> = versions[..MAX_TABLE - 1].iter().map(all).collect();
    Both::start(&versions, &pairs, last, &[7; 8], &[8; 8])
}

fn own_list_row(table: &mut Table, both: &Both, entries: usize) {
    table.row(
        &format!(
            "own list of {}, {} entries",
            both.library.0.own_list().len(),
            entries
        ),
        calls!(opaque(&both.library.0).own_list().len()),
        calls!(opaque(&both.plain.0).own_list().len()),
    );
}

fn copy_row(table: &mut Table, begun: &Both) {
    // Kept in a place that the compiler cannot tell from another.
    let (mut kept, mut other) = (
        [begun.clone(), begun.clone()],
        [begun.clone(), begun.clone()],
    );
    table.row(
        "copy of the record alone",
        calls!(kept[opaque(0)]
            .library
            .0
            .clone_from(opaque(&begun.library.0))),
        calls!(other[opaque(0)].plain.0.clone_from(opaque(&begun.plain.0))),
    );
    assert_eq!(
        kept[opaque(0)].library.0.attempted(),
        other[opaque(0)].plain.0.attempted
    );
}

fn small_events(table: &mut Table) {
    let (destination, source) = ([0xd1; 8], [0x51; 8]);
    let pairs = [Pair { from: 14, to: 10 }];
    let begun = Both::start(&[14, 12, 10], &pairs, 12, &destination, &source);
    copy_row(table, &begun);

    let packet = long_packet(0xc0, 0, &source, &destination, &in_fours(&[10, 13, 14]));
    begun.datagram_row(
        table,
        "event: Version Negotiation, acts (35 bytes, 3 entries)",
        &packet,
        Ok(14),
    );
    let other = long_packet(0xc0, 12, &source, &destination, &[9; 1_177]);
    begun.datagram_row(
        table,
        "event: another datagram, ignored (1,200 bytes)",
        &other,
        Err(61),
    );
    begun.processed_row(table, "event: packet processed");
    begun.acted(&packet).outcome_row(
        table,
        "event: outcome after acting, completes (12 bytes)",
        14,
        Some(&information(14, &[13, 14])),
    );
    begun.outcome_row(table, "event: outcome, information missing", 12, None);
}

/// Versions of a peer: none of ours but one, in the last place.
fn unknown_but(last: u32, count: usize) -> Vec<u32> {
    (1_000..).take(count - 1).chain([last]).collect()
}

/// No event has this kind.
const UNKNOWN_KIND: u32 = 4;

/// Events on a record without an unused place, on their longest way: the attempt begins with the
/// last version of its table, and the peer has one version of ours, the one before it.
fn full_events(table: &mut Table) {
    let (versions, pairs) = full();
    let (shared, original) = (versions[MAX_TABLE - 2], versions[MAX_TABLE - 1]);
    let (destination, source) = ([0xd1; MAX_ID], [0x51; MAX_ID]);
    let begun = Both::start(&versions, &pairs, original, &destination, &source);

    let list = in_fours(&unknown_but(shared, MAX_TABLE));
    let packet = long_packet(0xc0, 0, &source, &destination, &list);
    let name = format!(
        "event: Version Negotiation, acts ({} bytes, {} entries), full table",
        packet.len(),
        MAX_TABLE
    );
    begun.datagram_row(table, &name, &packet, Ok(shared));
    begun.processed_row(table, "event: packet processed, full table");

    let bytes = information(shared, &unknown_but(shared, MAX_AVAILABLE));
    let name = format!(
        "event: outcome after acting, completes ({} bytes), full table",
        grouped(bytes.len())
    );
    begun
        .acted(&packet)
        .outcome_row(table, &name, shared, Some(&bytes));

    // The crate has no such event: both sides by their numbers.
    let record = Part(raw::start(&versions, &pairs, &[], original, &destination, &source).attempt);
    let packet = &packet[..];
    let refused = u32::from(Refusal::NotValid.number());
    assert_eq!(
        raw::event(&mut record.0.clone(), UNKNOWN_KIND, 0, packet),
        refused
    );
    assert_eq!(begun.copies().1.event(UNKNOWN_KIND, 0, packet), refused);
    table.row(
        "event: unknown kind, refused with 255, full table",
        calls!(raw::event(
            &mut opaque(&record.0).clone(),
            opaque(UNKNOWN_KIND),
            opaque(0),
            opaque(packet)
        )),
        calls!(opaque(&begun.plain.0).clone().event(
            opaque(UNKNOWN_KIND),
            opaque(0),
            opaque(packet)
        )),
    );
}

/// Journals that are read, with places left and with none, and an event that pushes the oldest answer
/// out.
fn journals(table: &mut Table) {
    let (versions, pairs) = full();
    let original = versions[MAX_TABLE - 1];
    let (destination, source) = ([0xd1; MAX_ID], [0x51; MAX_ID]);
    let begun = Both::start(&versions, &pairs, original, &destination, &source);
    for events in [3, 20] {
        let (mut library, mut plain) = begun.copies();
        for place in 0..events {
            let datagram = [0; 3];
            match place % 2 {
                0 => assert_eq!(
                    same(library.datagram(&datagram), plain.datagram(&datagram)),
                    Err(61)
                ),
                _ => assert!(same(library.packet_processed(), plain.packet_processed()).is_ok()),
            }
        }
        let both = Both::of(library, plain);
        let kept = both.library.0.journal().len();
        table.row(
            &format!("journal of {} answers, {} events", kept, events),
            calls!(opaque(&both.library.0).journal().len()),
            calls!(opaque(&both.plain.0).journal().len()),
        );
        if events > kept {
            both.processed_row(table, "event: packet processed, full journal, full table");
        }
    }
}
