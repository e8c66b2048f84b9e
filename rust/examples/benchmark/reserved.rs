//! Rows of C-18: both writers with reserved numbers, small and at the limits, and refused.

use crate::attempts::{longest_own_list, Both};
use crate::measure::{calls, opaque, Table};
use crate::wire::{answered, large, most};
use crate::{plain, Reserved};
use quic_version::{
    write_version_negotiation_with_reserved, WriteRefusal, MAX_INFORMATION, MAX_PACKET,
    MAX_RESERVED, MAX_TABLE,
};

/// The highest ratio of each kind of row that has an aim, if one was measured.
pub struct Worst {
    pub packet: Option<f64>,
    pub information: Option<f64>,
}

pub fn rows(table: &mut Table) -> Worst {
    Worst {
        packet: packets(table).into_iter().reduce(f64::max),
        information: informations(table).into_iter().reduce(f64::max),
    }
}

const NUMBERS: [u32; MAX_RESERVED] = [0x1a2a_3a4a, 0x0a2a_3a4a, 0x5a6a_7a8a, 0xfafa_fafa];
/// The last is the first once more.
const REPEATED: [u32; MAX_RESERVED] = [0x1a2a_3a4a, 0x0a2a_3a4a, 0x5a6a_7a8a, 0x1a2a_3a4a];

/// The name of a row by its answer.
fn named(what: &str, given: usize, answer: Result<usize, u8>) -> String {
    match answer {
        Ok(count) => format!("{}, {} bytes, {} reserved", what, count, given),
        Err(number) => format!("{}, {} reserved, refused with {}", what, given, number),
    }
}

/// The ratios of the rows at the limits. What is refused is so after all else was judged.
fn packets(table: &mut Table) -> Vec<f64> {
    let (small, large, most) = (&answered()[..], &large()[..], &most()[..]);
    let few = &[14, 13, 10][..];
    let mut ratios = Vec::new();
    for (received, offered, reserved, room, answer) in [
        (small, few, &NUMBERS[..1], MAX_PACKET, Ok(26)),
        (large, most, &NUMBERS, MAX_PACKET, Ok(MAX_PACKET)),
        (large, most, &NUMBERS, MAX_PACKET - 1, Err(26)),
        (large, most, &REPEATED, MAX_PACKET, Err(28)),
    ] {
        let (mut buffer, mut other) = ([0; MAX_PACKET], [0; MAX_PACKET]);
        let (buffer, other) = (&mut buffer[..room], &mut other[..room]);
        let count =
            write_version_negotiation_with_reserved(received, offered, reserved, 64, buffer);
        let again =
            plain::write_version_negotiation_with_reserved(received, offered, reserved, 64, other);
        assert_eq!(count.map_err(WriteRefusal::number), answer);
        assert_eq!(again, answer);
        assert_eq!(buffer, other);
        let ratio = table.row(
            &named("packet writing", reserved.len(), answer),
            calls!(write_version_negotiation_with_reserved(
                opaque(received),
                opaque(offered),
                opaque(reserved),
                opaque(64),
                buffer
            )),
            calls!(plain::write_version_negotiation_with_reserved(
                opaque(received),
                opaque(offered),
                opaque(reserved),
                opaque(64),
                other
            )),
        );
        ratios.extend(ratio.filter(|_| answer == Ok(MAX_PACKET)));
    }
    ratios
}

/// Each number at a place.
fn at(numbers: &[u32], places: &[u32]) -> Vec<Reserved> {
    let both = numbers.iter().copied().zip(places.iter().copied());
    both.map(|(number, place)| Reserved { number, place })
        .collect()
}

/// The ratios of the rows at the limits that have reserved numbers.
fn informations(table: &mut Table) -> Vec<f64> {
    let small = Both::start(&[14, 12, 10], &[], 12, &[7; 8], &[8; 8]);
    let large = longest_own_list();
    let last = (MAX_TABLE + MAX_RESERVED) as u32 - 1;
    let about = at(&NUMBERS, &[last, 0, 33, 34]);
    let at_the_end = at(&NUMBERS, &[last, last - 1, last - 2, last - 3]);
    let twice = at(&NUMBERS, &[last, 0, 33, last]);
    let longest = 4 + 4 * (MAX_TABLE + MAX_RESERVED);
    let name = "client's information writing";
    let mut ratios = Vec::new();
    for (name, both, reserved, room, answer) in [
        (name, &small, &[][..], MAX_INFORMATION, Ok(8)),
        (name, &small, &about[1..2], MAX_INFORMATION, Ok(12)),
        (name, &large, &[], MAX_INFORMATION, Ok(4 + 4 * MAX_TABLE)),
        (name, &large, &about, MAX_INFORMATION, Ok(longest)),
        (
            "client's information writing, at the end",
            &large,
            &at_the_end,
            MAX_INFORMATION,
            Ok(longest),
        ),
        (name, &large, &about, longest - 1, Err(37)),
        (name, &large, &twice, longest, Err(47)),
    ] {
        let ratio = information_row(table, name, both, reserved, room, answer);
        ratios.extend(ratio.filter(|_| answer == Ok(longest)));
    }
    ratios
}

fn information_row(
    table: &mut Table,
    name: &str,
    both: &Both,
    reserved: &[Reserved],
    room: usize,
    answer: Result<usize, u8>,
) -> Option<f64> {
    let (mut buffer, mut other) = ([0; MAX_INFORMATION], [0; MAX_INFORMATION]);
    let (buffer, other) = (&mut buffer[..room], &mut other[..room]);
    let count = both.library.0.write_information(reserved, buffer);
    let again = both.plain.0.write_information(reserved, other);
    assert_eq!(count.map_err(WriteRefusal::number), answer);
    assert_eq!(again, answer);
    assert_eq!(buffer, other);
    table.row(
        &named(name, reserved.len(), answer),
        calls!(opaque(&both.library.0).write_information(opaque(reserved), buffer)),
        calls!(opaque(&both.plain.0).write_information(opaque(reserved), other)),
    )
}
