//! The test of a server's configuration: the parts of the rule, their order, and the refusals. The
//! papers have no such test; the rule is that of docs/INTEGRATION.md.

use crate::model::*;

fn configuration(
    readable: &[u32],
    accepted: &[u32],
    offered: &[u32],
    available: &[u32],
) -> Configuration {
    Configuration {
        readable: readable.to_vec(),
        accepted: accepted.to_vec(),
        offered: offered.to_vec(),
        available: available.to_vec(),
        pairs: vec![(1, 2)],
    }
}

#[test]
fn safe_configurations() {
    for c in [
        configuration(&[1], &[1], &[1], &[1]),
        configuration(&[2, 1], &[2, 1], &[2, 1], &[2, 1]),
        // Readable may hold more; order and repeats do not matter.
        configuration(&[3, 1, 2], &[2, 1], &[1, 2], &[1, 2, 1]),
        configuration(
            &[1, 2],
            &[2, 1],
            &[1, 2],
            &[[1; 128], [2; 128]].concat()[1..],
        ),
    ] {
        assert!(c.keeps_the_safe_rule());
        assert_eq!(c.judged(), Ok((0, 0)));
    }
}

/// Each part alone, with the version that breaks it.
#[test]
fn each_part_of_the_rule() {
    let both = &[2, 1];
    for (c, found) in [
        (configuration(both, both, &[1], &[1]), (1, 2)),
        (configuration(both, &[1], both, both), (2, 2)),
        (configuration(&[1], both, both, both), (3, 2)),
        (configuration(both, &[1], &[1], &[1, 2, 3]), (4, 2)),
        (configuration(both, &[1], &[1], &[1, 0]), (4, 0)),
        (
            configuration(both, &[1], &[1], &[0x1a2a_3a4a, 1]),
            (4, 0x1a2a_3a4a),
        ),
        (configuration(both, both, both, &[1]), (5, 2)),
        (configuration(both, both, both, &[]), (5, 2)),
    ] {
        assert!(!c.keeps_the_safe_rule());
        assert_eq!(c.judged(), Ok(found));
    }
}

/// "in this order", and "the first version, in the order of the list that is named first".
#[test]
fn order_of_the_parts() {
    let c = |readable: &[u32], accepted: &[u32], offered: &[u32], available: &[u32]| {
        configuration(readable, accepted, offered, available).judged()
    };
    assert_eq!(c(&[1], &[3, 1, 2], &[1, 4, 5], &[6]), Ok((1, 3)));
    assert_eq!(c(&[1], &[1], &[1, 5, 4], &[6]), Ok((2, 5)));
    assert_eq!(c(&[1], &[4, 5, 1], &[1, 5, 4], &[6]), Ok((3, 5)));
    assert_eq!(
        c(&[1, 4, 5], &[4, 5, 1], &[1, 5, 4], &[1, 7, 6]),
        Ok((4, 7))
    );
    assert_eq!(c(&[1, 4, 5], &[4, 5, 1], &[1, 5, 4], &[1, 1]), Ok((5, 5)));
}

/// Lowest first: 23, 33, 41, 43; all before the parts.
#[test]
fn refused_configurations() {
    let many = [1; 256];
    for bad in [
        &[][..],
        &[1, 1],
        &[0],
        &[0x1a2a_3a4a],
        &(1..=65).collect::<Vec<u32>>(),
    ] {
        assert_eq!(configuration(bad, bad, bad, &many).judged(), Err(23));
        assert_eq!(configuration(bad, bad, &[1], &many).judged(), Err(33));
        assert_eq!(configuration(bad, &[1], &[1], &many[1..]).judged(), Err(41));
        assert_eq!(configuration(&[1], bad, &[1], &[]).judged(), Err(41));
    }
    let mut c = configuration(&[1], &[2], &[3], &many[1..]);
    c.pairs = vec![(1, 2); 1_025];
    assert_eq!(c.judged(), Err(43));
    c.pairs.pop();
    assert_eq!(c.judged(), Ok((1, 2)));
    c.pairs[1_023] = (2, 2);
    assert_eq!(c.judged(), Err(43));
}
