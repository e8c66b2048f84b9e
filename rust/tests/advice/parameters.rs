//! Runs what the page says of transport parameters, and what it warns of.

use crate::link::{carrying, information, SHORTEST, STACK};
use quic_version::transport_parameters::{
    find_version_information, read_integer, write_integer, write_version_information, MAX_INTEGER,
    MAX_PARAMETERS, MAX_SEQUENCE, VERSION_INFORMATION,
};
use quic_version::{Refusal, Sender, WriteRefusal, MAX_INFORMATION, VERSION_1, VERSION_2};

/// The page's client and the page's server, by what each has TLS send.
#[test]
fn client_and_server() {
    let completed = crate::client::run::against(|version, parameters| {
        assert_eq!(version, VERSION_1);
        crate::server::run::goes_on_with(version, parameters)
    });
    assert_eq!(completed, Some(VERSION_2));
    // A server that does not know Version Information.
    assert_eq!(
        crate::client::run::against(|version, _| (version, STACK.to_vec())),
        Some(VERSION_1)
    );
}

/// A sequence with the value in the place of what was there: written into a buffer of so many bytes.
fn written(old: &[u8], value: &[u8], room: usize) -> Result<Vec<u8>, WriteRefusal> {
    let mut buffer = vec![0; room];
    let count = write_version_information(old, value, &mut buffer)?;
    buffer.truncate(count);
    Ok(buffer)
}

/// An integer in the width of a form, 0 to 3.
fn integer(form: u32, value: u64) -> Vec<u8> {
    let width = 1 << form;
    let mut bytes = value.to_be_bytes()[8 - width..].to_vec();
    bytes[0] |= (form as u8) << 6;
    bytes
}

/// "Two sizes of a buffer are never too short", whatever stands in the old sequence.
#[test]
fn a_buffer_that_is_never_too_short() {
    let mut olds = vec![
        vec![],
        STACK.to_vec(),
        SHORTEST.to_vec(),
        carrying(&[7; 63]),
    ];
    for (id, length) in (0..4).flat_map(|id| (0..4).map(move |length| (id, length))) {
        let ours = [
            integer(id, VERSION_INFORMATION),
            integer(length, 5),
            vec![0xff; 5],
        ];
        olds.push([&STACK[..], &ours.concat(), &[0x05, 0]].concat());
        olds.push(ours.concat());
    }
    let bytes = [0xcc; MAX_SEQUENCE + 1];
    let lengths = (0..=MAX_INFORMATION + 1).chain(16_300..=MAX_SEQUENCE + 1);
    let mut tight = 0;
    for length in lengths {
        let value = &bytes[..length];
        for old in &olds {
            let least = match written(old, value, MAX_SEQUENCE) {
                Ok(sequence) => sequence.len(),
                Err(refusal) => {
                    assert_eq!(refusal, WriteRefusal::SequenceTooLong);
                    assert!(length > 16_300);
                    let sum = written(old, value, old.len() + length + 3);
                    assert_eq!(sum, Err(refusal));
                    continue;
                }
            };
            assert!(least <= old.len() + length + 3);
            assert!(written(old, value, old.len() + length + 3).is_ok());
            if length < 64 {
                assert!(least <= old.len() + length + 2);
            }
            if least == old.len() + length + 3 {
                tight += 1;
                assert_eq!(
                    written(old, value, least - 1),
                    Err(WriteRefusal::NoRoomToWrite)
                );
            }
        }
    }
    assert!(tight > 1_000);
}

/// From 15 Available Versions on the value has 64 bytes, and its length takes 2.
#[test]
fn three_bytes_more_from_fifteen_versions_on() {
    let versions: Vec<u32> = (1..=15).collect();
    for (count, more) in [(14, 2), (15, 3)] {
        let value = information(Sender::Client, 1, &versions[..count]);
        let sequence = written(&SHORTEST, &value, MAX_SEQUENCE).unwrap();
        assert_eq!(sequence.len(), SHORTEST.len() + value.len() + more);
    }
}

/// The new sequence can be shorter than the old one: 14 bytes for a parameter.
#[test]
fn shorter_than_before() {
    let old = [integer(3, 5), integer(3, 1), vec![0xaa]].concat();
    let new = written(&old, &[], old.len()).unwrap();
    assert_eq!((old.len(), &new[..]), (17, &[0x05, 1, 0xaa, 0x11, 0][..]));
}

/// Ours takes the place of the old one, or goes last; the other values and the order stay.
#[test]
fn place_and_order() {
    let between = [&[0x11, 1, 0xff][..], &STACK].concat();
    let new = written(&between, &[1, 2], MAX_SEQUENCE).unwrap();
    assert_eq!(new, [&[0x11, 2, 1, 2][..], &SHORTEST].concat());
    let last = written(&STACK, &[1, 2], MAX_SEQUENCE).unwrap();
    assert_eq!(last, carrying(&[1, 2]));
    // What is written is found, and written once more it is the same.
    assert_eq!(find_version_information(&last), Ok(Some(&[1, 2][..])));
    assert_eq!(written(&last, &[1, 2], last.len()), Ok(last.clone()));
}

/// 64 parameters without Version Information cannot take it; 63 can, and 64 with it among them.
#[test]
fn a_place_is_left_for_it() {
    let ids = |range: std::ops::Range<u8>| -> Vec<u8> {
        range.flat_map(|id| [0x40, 0x40 + id, 0]).collect()
    };
    let most = MAX_PARAMETERS as u8;
    let refused = written(&ids(0..most), &[1; 8], MAX_SEQUENCE);
    assert_eq!(refused, Err(WriteRefusal::TooManyParameters));
    assert!(written(&ids(1..most), &[1; 8], MAX_SEQUENCE).is_ok());
    let among = [&[0x11, 0][..], &ids(1..most)].concat();
    assert!(written(&among, &[1; 8], MAX_SEQUENCE).is_ok());
    // A peer's 65 are refused, whatever they are.
    let peers = [&[0x11, 0][..], &ids(0..most)].concat();
    assert_eq!(
        find_version_information(&peers),
        Err(Refusal::TooManyParameters)
    );
}

/// What the page warns of: a part of the sequence is an 81; or it is cut between two parameters, and
/// what followed is missing.
#[test]
fn a_part_is_not_the_sequence() {
    let whole = carrying(&information(Sender::Client, 1, &[1]));
    assert!(find_version_information(&whole).unwrap().is_some());
    let borders = [0, 4, SHORTEST.len()];
    for cut in 0..whole.len() {
        let expected = match borders.contains(&cut) {
            true => Ok(None),
            false => Err(Refusal::RunsPastTheEnd),
        };
        assert_eq!(find_version_information(&whole[..cut]), expected);
    }
}

/// The same: with the type and the length of the TLS extension in front.
#[test]
fn extension_with_its_head() {
    let whole = carrying(&information(Sender::Client, 1, &[1]));
    let extension = [&[0, 0x39, 0, whole.len() as u8][..], &whole].concat();
    assert_eq!(
        find_version_information(&extension),
        Err(Refusal::RunsPastTheEnd)
    );
}

/// The same: appended by hand, in whatever width, where it is there already.
#[test]
fn appended_by_hand() {
    for form in 0..4 {
        let twice = [carrying(&[1; 8]), integer(form, 0x11), vec![0]].concat();
        let found = find_version_information(&twice);
        assert_eq!(found, Err(Refusal::IdentifierRepeated));
        assert_eq!(found.unwrap_err().close_code(), Some(0x08));
    }
}

/// Reserved identifiers, 31 * N + 27, are stepped over like all others that are not ours.
#[test]
fn reserved_parameters() {
    let ours = information(Sender::Server, VERSION_1, &[VERSION_1]);
    for n in [0, 1, 2, 0x1000, 0x1000_0000, (1 << 62) / 31 - 1] {
        let mut id = [0; 8];
        let width = write_integer(31 * n + 27, &mut id).unwrap();
        let reserved = [&id[..width], &[3, 0xfe, 0xff, 0x11]].concat();
        let sequence = [&reserved[..], &carrying(&ours)].concat();
        let found = find_version_information(&sequence);
        // 27 is among the stack's.
        let twice = Err(Refusal::IdentifierRepeated);
        assert_eq!(found, if n == 0 { twice } else { Ok(Some(&ours[..])) });
    }
}

/// The value is not judged here: it is found as it is, and judged by who takes it.
#[test]
fn the_value_is_not_judged() {
    for value in [&[][..], &[0], &[0; 4], &[1; 63]] {
        assert_eq!(find_version_information(&carrying(value)), Ok(Some(value)));
        assert_eq!(written(&STACK, value, 100), Ok(carrying(value)));
    }
}

/// One integer. The reader's 81 has the code of transport parameters, whatever the integer is of;
/// the writer's refusals have none.
#[test]
fn one_integer() {
    let mut buffer = [0; 8];
    for value in [0, 63, 64, 16_383, 16_384, 1 << 30, MAX_INTEGER] {
        let count = write_integer(value, &mut buffer).unwrap();
        let read = read_integer(&buffer[..count]).unwrap();
        assert_eq!((read.value, read.width), (value, count));
        let cut = read_integer(&buffer[..count - 1]).unwrap_err();
        assert_eq!(cut, Refusal::RunsPastTheEnd);
        assert_eq!(cut.close_code(), Some(0x08));
    }
    assert_eq!(
        write_integer(MAX_INTEGER + 1, &mut buffer),
        Err(WriteRefusal::IntegerTooLarge)
    );
}
