//! Records that no attempt has.

use crate::checks::*;
use crate::raw::Record;

/// Every damage of a record, with every value that is not allowed at its edge.
#[test]
fn every_damage_of_a_record() {
    for field in 0..DAMAGES {
        for value in 0..300 {
            for kind in 0..4 {
                check_damaged(&[14, 12], &[(12, 14)], 12, &[], field, value, kind).unwrap();
            }
        }
    }
}

/// Zeroed memory, whatever its end mark says.
#[test]
fn zeroed_records() {
    for end_mark in 0..4 {
        let record = Record {
            end_mark,
            ..Record::default()
        };
        check_no_record(&record).unwrap();
    }
}

/// 41, 43, 44 and 45; `check_start` asks 255 from every call with what they hand back.
#[test]
fn records_of_refused_starts() {
    for (table, pairs, barred, original, id, number) in [
        (&[14, 14][..], &[][..], &[][..], 14, &[][..], 41),
        (&[14], &[(12, 12)], &[], 14, &[], 43),
        (&[14], &[], &[(12, 12)], 14, &[], 43),
        (&[14], &[], &[], 0, &[], 44),
        (&[14], &[], &[], 14, &[7; 21], 45),
    ] {
        let seen = check_start(table, pairs, barred, original, id, &[]).unwrap();
        assert_eq!(seen, number);
    }
}
