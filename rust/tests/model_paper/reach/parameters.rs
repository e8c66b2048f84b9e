//! Integers and transport parameters (C-11): every answer comes up, about every border.

use super::{Reach, Sizes};
use crate::model::*;
use crate::random::hostile::Repeats;
use crate::random::parameters::{new_length, Sequences, MOST, SEQUENCES};
use crate::random::{least_width, Random, WIDTHS};
use std::collections::BTreeMap;

/// Integers: every refusal, each width with each that would do, and both sides of every border.
#[test]
fn reach_of_the_integers() {
    let mut random = Random::new(8);
    let (mut reads, mut writes) = <(Reach, Reach)>::default();
    let mut widths = BTreeMap::new();
    let mut written = BTreeMap::new();
    for _ in 0..20_000 {
        let answer = read_integer(&random.integer_bytes());
        reads.note(&answer);
        if let Ok((value, width)) = answer {
            *widths.entry((least_width(value), width)).or_insert(0) += 1;
        }
        let (value, room) = random.integer_call();
        let answer = write_integer(value, room);
        writes.note(&answer);
        let number = answer.err().unwrap_or(0);
        *written.entry((value, number)).or_insert(0) += 1;
    }
    reads.holds(&[0, 81], 400);
    writes.holds(&[0, 83, 84], 400);
    for least in WIDTHS {
        for width in WIDTHS.into_iter().filter(|width| least <= *width) {
            assert!(widths[&(least, width)] >= 100, "{:?}", widths);
        }
    }
    let borders = [6, 14, 30].map(|bits| 1 << bits);
    for value in borders.into_iter().flat_map(|least| [least - 1, least]) {
        for number in [0, 84] {
            let seen = written.get(&(value, number)).copied().unwrap_or(0);
            assert!(seen >= 20, "{} {}: {}", value, number, seen);
        }
    }
    for (value, number) in [(MAX_INTEGER, 0), (MAX_INTEGER, 84), (MAX_INTEGER + 1, 83)] {
        assert!(written[&(value, number)] >= 20, "{} {}", value, number);
    }
}

/// Sequences: every refusal, of each kind that has it, every number of parameters, ours at any place
/// and missing, each two widths, and lengths on both sides of the limit.
#[test]
fn reach_of_the_sequences() {
    let mut random = Random::new(9);
    let (mut all, mut by_kind) = (Reach::default(), BTreeMap::<Sequences, Reach>::new());
    let (mut parameters, mut bytes) = <(Sizes, BTreeMap<usize, usize>)>::default();
    let mut widths = BTreeMap::new();
    let (mut missing, mut first, mut last, mut between) = (0, 0, 0, 0);
    for _ in 0..20_000 {
        let c = random.sequence_call();
        let answer = read_parameters(&c.sequence);
        all.note(&answer);
        by_kind.entry(c.sequences).or_default().note(&answer);
        *bytes.entry(c.sequence.len()).or_insert(0) += 1;
        if !c.is_whole() {
            continue;
        }
        parameters.note(&c.parameters);
        for parameter in &c.parameters {
            *widths.entry(parameter.widths).or_insert(0) += 1;
        }
        let ours = |id: u64| id == VERSION_INFORMATION;
        match c.parameters.iter().position(|p| ours(p.identifier)) {
            None => missing += 1,
            Some(0) => first += 1,
            Some(place) if place + 1 == c.parameters.len() => last += 1,
            Some(_) => between += 1,
        }
    }
    all.holds(&[0, 80, 81, 82, 85], 100);
    assert_eq!(by_kind.len(), SEQUENCES.len());
    for (kind, reach) in &by_kind {
        match kind {
            Sequences::Shortest | Sequences::AnyWidths => reach.holds(&[0, 85], 100),
            Sequences::Repeated => reach.holds(&[82], 400),
            Sequences::PastTheEnd => reach.holds(&[81], 400),
            Sequences::Long => reach.holds(&[0, 80, 85], 10),
            Sequences::Cut => reach.holds(&[0, 81, 82, 85], 1),
            Sequences::LeftOver => reach.holds(&[0, 81, 82, 85], 1),
            Sequences::Changed => reach.holds(&[0, 81, 82, 85], 40),
            Sequences::Noise => reach.holds(&[0, 81, 82], 20),
        }
    }
    parameters.hold(&(0..=MOST).collect::<Vec<usize>>(), 8);
    for length in [MAX_SEQUENCE - 1, MAX_SEQUENCE, MAX_SEQUENCE + 1] {
        assert!(bytes[&length] >= 40, "{} of {}", bytes[&length], length);
    }
    for one in WIDTHS {
        for other in WIDTHS {
            assert!(widths[&(one, other)] >= 400, "{:?}", widths);
        }
    }
    for count in [missing, first, last, between] {
        assert!(count >= 400, "{:?}", (missing, first, last, between));
    }
}

/// Sequences to write: every refusal, for the old one and for the new; buffers one byte too short,
/// of the length that it takes, longer and empty; new ones shorter than the old, and as long as they
/// may be.
#[test]
fn reach_of_the_new_sequences() {
    let mut random = Random::new(10);
    let (mut all, mut new, mut one_more) = <(Reach, Reach, Reach)>::default();
    let (mut short, mut exact, mut longer, mut empty) = <(Reach, Reach, Reach, Reach)>::default();
    let (mut shorter, mut longest, mut values) = (0, 0, BTreeMap::new());
    for _ in 0..20_000 {
        let c = random.parameters_call();
        let old = &c.old.sequence;
        let answer = write_parameters(old, &c.value, c.room);
        all.note(&answer);
        if !c.old.is_whole() || read_parameters(old).is_err() {
            continue;
        }
        new.note(&answer);
        if c.old.parameters.len() == MAX_PARAMETERS && read_parameters(old) == Ok(None) {
            one_more.note(&answer);
        }
        if let Ok(bytes) = &answer {
            shorter += usize::from(bytes.len() < old.len());
            longest += usize::from(bytes.len() == MAX_SEQUENCE);
            *values.entry(c.value.len()).or_insert(0) += 1;
        }
        match new_length(&c.old.parameters, c.value.len()) {
            _ if c.room == 0 => empty.note(&answer),
            need if need == c.room + 1 => short.note(&answer),
            need if need == c.room => exact.note(&answer),
            need if need < c.room => longer.note(&answer),
            _ => {}
        }
    }
    all.holds(&[0, 80, 81, 82, 84, 85], 400);
    new.holds(&[0, 80, 84, 85], 100);
    one_more.holds(&[80, 84, 85], 4);
    short.holds(&[80, 84], 10);
    exact.holds(&[0, 80, 85], 10);
    longer.holds(&[0, 80, 85], 10);
    empty.holds(&[80, 84], 10);
    assert!(shorter >= 400 && longest >= 20, "{} {}", shorter, longest);
    for length in [0, 4, 8, 62, 63, 64, 65, 1_024] {
        assert!(values[&length] >= 40, "{} of {}", values[&length], length);
    }
    let long = values.range(16_000..).map(|(_, count)| count);
    assert!(long.sum::<usize>() >= 40, "{:?}", values);
}

/// Large sequences: the refusal is the repeat's, but where the end is cut or too long.
#[test]
fn reach_of_the_large_sequences() {
    let mut random = Random::new(11);
    let (mut without, mut with) = <(Reach, Reach)>::default();
    for _ in 0..2_000 {
        let c = random.hostile_call();
        let answer = read_parameters(&c.sequence);
        match c.repeats {
            Repeats::None => without.note(&answer),
            _ => with.note(&answer),
        }
        assert!(c.parameters > MAX_PARAMETERS);
    }
    without.holds(&[80, 81, 85], 4);
    with.holds(&[80, 81, 82], 40);
}
