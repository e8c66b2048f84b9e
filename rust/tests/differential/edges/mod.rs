//! Whole ranges and edges, without a seed.

use crate::checks::*;
use crate::model::{self, Event};
use quic_version::transport_parameters;

mod attempts;
mod barred_pairs;
mod barred_versions;
mod choices;
mod configurations;
mod hostile;
mod integers;
mod journal;
mod parameters;
mod reserved_in_lists;
mod reserved_in_packets;
mod screening;
mod tables;
mod wire;
mod words;

/// A table of so many entries: 100 and the numbers that follow.
fn versions(count: usize) -> Vec<u32> {
    (100..).take(count).collect()
}

/// The crate's limits are those of the model, which the library is compared with.
#[test]
fn limits() {
    assert_eq!(quic_version::MAX_TABLE, model::MAX_TABLE);
    assert_eq!(quic_version::MAX_PAIRS, model::MAX_PAIRS);
    assert_eq!(quic_version::MAX_BARRED, model::MAX_BARRED);
    assert_eq!(quic_version::MAX_RESERVED, model::MAX_RESERVED);
    assert_eq!(quic_version::MAX_PACKET, model::MAX_PACKET);
    assert_eq!(quic_version::MAX_LIST, model::MAX_LIST);
    assert_eq!(quic_version::MAX_ID, model::MAX_ID);
    assert_eq!(quic_version::JOURNAL_PLACES, model::JOURNAL_PLACES);
    assert_eq!(u64::from(quic_version::MAX_EVENTS), model::MAX_EVENTS);
    assert_eq!(quic_version::MAX_DATAGRAM, model::MAX_DATAGRAM);
    assert_eq!(quic_version::MAX_CONNECTION_ID, model::MAX_WIRE_ID);
    assert_eq!(quic_version::MIN_ANSWERED_DATAGRAM, model::MIN_ANSWERED);
    assert_eq!(quic_version::MAX_UNUSED_BITS, model::MAX_UNUSED_BITS);
    assert_eq!(quic_version::MAX_INFORMATION, model::MAX_INFORMATION);
    assert_eq!(quic_version::MAX_AVAILABLE, model::MAX_AVAILABLE);
    assert_eq!(transport_parameters::MAX_SEQUENCE, model::MAX_SEQUENCE);
    assert_eq!(transport_parameters::MAX_PARAMETERS, model::MAX_PARAMETERS);
    assert_eq!(transport_parameters::MAX_INTEGER, model::MAX_INTEGER);
    let ours = transport_parameters::VERSION_INFORMATION;
    assert_eq!(ours, model::VERSION_INFORMATION);
}

#[test]
fn every_close_code() {
    // Past 255 too: a number that is cut to its low byte or half would have a code.
    for number in 0..=u32::from(u8::MAX) {
        for number in [number, number | 1 << 8, number | 1 << 16, number | 1 << 31] {
            for call in [0, 1, 2, 255, 256, 1 << 31, u32::MAX] {
                check_close_code(number, call).unwrap();
            }
        }
    }
}

#[test]
fn empty_inputs() {
    check_read_header(&[], 0).unwrap();
    check_write_version_negotiation(&[], &[], &[], 0, 0).unwrap();
    check_read_information(0, &[]).unwrap();
    check_write_information(1, 1, &[], 0).unwrap();
    check_read_integer(&[]).unwrap();
    check_write_integer(0, 0).unwrap();
    check_read_parameters(&[]).unwrap();
    check_write_parameters(&[], &[], 0).unwrap();
    check_entry(&[], 0).unwrap();
    check_is_table(&[]).unwrap();
    check_are_pairs(&[]).unwrap();
    check_choose(&[], &[]).unwrap();
    check_choose_from_bytes(&[], &[]).unwrap();
    check_list_word(&[], &[]).unwrap();
    check_list_word_from_bytes(&[], &[]).unwrap();
    check_choose_by_word(&[], &[]).unwrap();
    check_choose_by_word_from_bytes(&[], &[]).unwrap();
    check_choose_from_word(&[], 0).unwrap();
    check_count_held(&[], &[]).unwrap();
    check_count_held_from_bytes(&[], &[]).unwrap();
    check_server_choice(&[], &[], &[], &[], 0, 0, &[]).unwrap();
    check_server_choice(&[1], &[1], &[], &[], 1, 1, &[]).unwrap();
    check_judge_configuration(&[], &[], &[], &[], &[]).unwrap();
    check_judge_configuration(&[1], &[1], &[1], &[], &[]).unwrap();
    check_start(&[], &[], &[], 0, &[], &[]).unwrap();
    let events = [
        Event::Datagram(vec![]),
        Event::Outcome {
            in_use: 0,
            information: Some(vec![]),
        },
    ];
    check_events(&[1], &[], &[], 1, &[], &[], &events).unwrap();
    check_events(&[1], &[], &[], 1, &[], &[], &[]).unwrap();
    check_write_client_information(&[1], &[], &[], 1, &[], &[], &[], &[], 0).unwrap();
}
