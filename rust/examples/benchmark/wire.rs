//! Rows of the readers and writers: headers, Version Negotiation packets, Version Information.

use crate::measure::{calls, grouped, opaque, same, Table};
use crate::packet::{information, long_packet};
use crate::{plain, raw};
use quic_version::{
    read_header, read_information, write_information, write_version_negotiation, Sender,
    WriteRefusal, MAX_AVAILABLE, MAX_CONNECTION_ID, MAX_INFORMATION, MAX_PACKET, MAX_RESERVED,
    MAX_TABLE, MIN_ANSWERED_DATAGRAM,
};

pub fn rows(table: &mut Table) {
    headers(table);
    header_places(table);
    packets(table);
    version_information(table);
}

/// A datagram in version 12: that of document 01's whole case.
fn small() -> Vec<u8> {
    long_packet(0xc0, 12, &[0xaa, 0xbb], &[0xcc], &[0xff])
}

/// The same, followed by zeros up to the fewest bytes that are answered.
pub fn answered() -> Vec<u8> {
    let mut datagram = small();
    datagram.resize(MIN_ANSWERED_DATAGRAM, 0);
    datagram
}

fn headers(table: &mut Table) {
    let large = long_packet(0xc0, 12, &[7; 20], &[8; 20], &[9; 1_153]);
    for datagram in [&small()[..], &large] {
        assert!(read_header(datagram, 0).is_ok() && plain::read_header(datagram, 0).is_ok());
        table.row(
            &format!("header reading, {} bytes", grouped(datagram.len())),
            calls!(read_header(opaque(datagram), opaque(0))),
            calls!(plain::read_header(opaque(datagram), opaque(0))),
        );
    }
}

/// The C call alone, which leaves places; the rest of the rows above is slices made of them.
fn header_places(table: &mut Table) {
    let datagram = &small()[..];
    let (mut form, mut version, mut places) = (0, 0, [0; 6]);
    table.row(
        "header reading, 11 bytes, the C call alone",
        calls!(raw::read_header(
            opaque(datagram),
            opaque(0),
            &mut form,
            &mut version,
            &mut places
        )),
        calls!(plain::read_header(opaque(datagram), opaque(0))),
    );
}

/// A datagram whose connection IDs are as long as they may be.
pub fn large() -> Vec<u8> {
    let ids = ([7; MAX_CONNECTION_ID], [8; MAX_CONNECTION_ID]);
    long_packet(0xc0, 12, &ids.0, &ids.1, &[9; MIN_ANSWERED_DATAGRAM])
}

/// As many versions as may be offered.
pub fn most() -> Vec<u32> {
    (100..).take(MAX_TABLE).collect()
}

/// Without reserved numbers.
fn packets(table: &mut Table) {
    let (large, most) = (large(), most());
    for (received, offered, answer) in [
        (&small()[..], &[14, 13, 10][..], Err(20)),
        (&answered(), &[14, 13, 10], Ok(22)),
        (&large, &most, Ok(MAX_PACKET - 4 * MAX_RESERVED)),
    ] {
        let (mut buffer, mut other) = ([0; MAX_PACKET], [0; MAX_PACKET]);
        let count = write_version_negotiation(received, offered, 64, &mut buffer);
        let again = plain::write_version_negotiation(received, offered, 64, &mut other);
        assert_eq!(count.map_err(WriteRefusal::number), answer);
        assert_eq!(again, answer);
        assert_eq!(buffer, other);
        let name = match answer {
            Ok(count) => format!("packet writing, {} bytes", count),
            Err(number) => format!("packet writing, refused with {}", number),
        };
        table.row(
            &name,
            calls!(write_version_negotiation(
                opaque(received),
                opaque(offered),
                opaque(64),
                &mut buffer
            )),
            calls!(plain::write_version_negotiation(
                opaque(received),
                opaque(offered),
                opaque(64),
                &mut other
            )),
        );
    }
}

fn version_information(table: &mut Table) {
    let most: Vec<u32> = (1_000..).take(MAX_AVAILABLE).collect();
    for available in [&[3, 2, 4][..], &most] {
        // A client's, with Chosen in the last place.
        let chosen = available[available.len() - 1];
        let bytes = &information(chosen, available)[..];
        let read =
            read_information(Sender::Client, bytes).map(|read| (read.chosen, read.available));
        assert!(same(read, plain::read_information(true, bytes)).is_ok());
        table.row(
            &format!("information reading, {} bytes", grouped(bytes.len())),
            calls!(read_information(opaque(Sender::Client), opaque(bytes)).is_ok()),
            calls!(plain::read_information(opaque(true), opaque(bytes)).is_ok()),
        );
        let (mut buffer, mut other) = ([0; MAX_INFORMATION], [0; MAX_INFORMATION]);
        let count = write_information(Sender::Client, chosen, available, &mut buffer);
        let again = plain::write_information(true, chosen, available, &mut other);
        assert_eq!(count, Ok(bytes.len()));
        assert_eq!(again, Ok(bytes.len()));
        assert_eq!(buffer, other);
        table.row(
            &format!("information writing, {} bytes", grouped(bytes.len())),
            calls!(write_information(
                opaque(Sender::Client),
                opaque(chosen),
                opaque(available),
                &mut buffer
            )),
            calls!(plain::write_information(
                opaque(true),
                opaque(chosen),
                opaque(available),
                &mut other
            )),
        );
    }
}
