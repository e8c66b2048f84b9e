//! Rows of variable-length integers, and of transport parameters read and written.

use crate::measure::{calls, opaque, same, Table};
use crate::packet::{in_sequence, information, Parameter};
use crate::plain;
use quic_version::transport_parameters::{
    find_version_information, read_integer, write_integer, write_version_information, MAX_INTEGER,
    MAX_PARAMETERS, VERSION_INFORMATION,
};
use quic_version::{WriteRefusal, VERSION_1, VERSION_2};

/// Answers the ratio that has an aim, if it was measured: 12 parameters read and written.
pub fn rows(table: &mut Table) -> Option<f64> {
    integers(table);
    let mut parameters = typical();
    let read_and_written = sequence(table, &parameters);
    parameters.retain(|parameter| parameter.identifier != VERSION_INFORMATION);
    sequence(table, &parameters);
    // As many as there may be, ours among them, all empty.
    let most = 0..MAX_PARAMETERS as u64;
    let most: Vec<_> = most.map(|id| Parameter::shortest(id, Vec::new())).collect();
    sequence(table, &most);
    read_and_written
}

/// One integer of each width.
fn integers(table: &mut Table) {
    for value in [37, 15_293, 494_878_333, MAX_INTEGER] {
        let (mut buffer, mut other) = ([0; 8], [0; 8]);
        let count = write_integer(value, &mut buffer);
        let again = plain::write_integer(value, &mut other);
        assert_eq!(count.map_err(WriteRefusal::number), again);
        assert_eq!(buffer, other);
        let width = again.expect("there is room");
        let bytes = &buffer.to_vec()[..width];
        let read = read_integer(bytes).map(|read| (read.value, read.width));
        let read = same(read, plain::read_integer(bytes));
        assert_eq!(read, Ok((value, width)));
        table.row(
            &format!("integer reading, width {}", width),
            calls!(read_integer(opaque(bytes))),
            calls!(plain::read_integer(opaque(bytes))),
        );
        table.row(
            &format!("integer writing, width {}", width),
            calls!(write_integer(opaque(value), &mut buffer)),
            calls!(plain::write_integer(opaque(value), &mut other)),
        );
    }
}

/// A server's parameters, of RFC 9000 section 18.2, with usual values; ours is the last but one.
fn typical() -> Vec<Parameter> {
    let ours = information(VERSION_1, &[VERSION_2, VERSION_1]);
    let parameters: [(u64, &[u8]); 12] = [
        (0x00, &[0xd1; 8]),                // original_destination_connection_id
        (0x01, &[0x80, 0x00, 0x75, 0x30]), // max_idle_timeout: 30,000 ms
        (0x02, &[0x5e; 16]),               // stateless_reset_token
        (0x03, &[0x45, 0xc0]),             // max_udp_payload_size: 1,472
        (0x04, &[0x80, 0x10, 0x00, 0x00]), // initial_max_data: 1,048,576
        (0x05, &[0x80, 0x04, 0x00, 0x00]), // initial_max_stream_data_bidi_local: 262,144
        (0x06, &[0x80, 0x04, 0x00, 0x00]), // initial_max_stream_data_bidi_remote
        (0x07, &[0x80, 0x04, 0x00, 0x00]), // initial_max_stream_data_uni
        (0x08, &[0x40, 0x64]),             // initial_max_streams_bidi: 100
        (0x09, &[0x40, 0x64]),             // initial_max_streams_uni
        (VERSION_INFORMATION, &ours),
        (0x0f, &[0x51; 8]), // initial_source_connection_id
    ];
    let parameters = parameters.iter();
    let parameters = parameters.map(|(id, value)| Parameter::shortest(*id, value.to_vec()));
    parameters.collect()
}

/// Read, written with another value of ours, and both. The ratio of both, if it was measured.
fn sequence(table: &mut Table, parameters: &[Parameter]) -> Option<f64> {
    let sequence = &in_sequence(parameters)[..];
    let is_ours = |parameter: &&Parameter| parameter.identifier == VERSION_INFORMATION;
    let ours = parameters.iter().find(is_ours);
    let found = same(
        find_version_information(sequence),
        plain::find_version_information(sequence),
    );
    assert_eq!(found, Ok(ours.map(|parameter| &parameter.value[..])));

    let value = &information(VERSION_2, &[VERSION_2, VERSION_1])[..];
    let (mut buffer, mut other) = ([0; 256], [0; 256]);
    let count = write_version_information(sequence, value, &mut buffer);
    let again = plain::write_version_information(sequence, value, &mut other);
    assert_eq!(count.map_err(WriteRefusal::number), again);
    assert_eq!(buffer, other);
    let written = &buffer[..again.expect("there is room")];
    assert_eq!(find_version_information(written), Ok(Some(value)));

    let missing = if ours.is_none() { ", ours missing" } else { "" };
    let (count, bytes) = (parameters.len(), sequence.len());
    let name = format!("{} parameters, {} bytes{}", count, bytes, missing);
    table.row(
        &format!("transport parameters reading, {}", name),
        calls!(find_version_information(opaque(sequence))),
        calls!(plain::find_version_information(opaque(sequence))),
    );
    table.row(
        &format!("transport parameters writing, {}", name),
        calls!(write_version_information(
            opaque(sequence),
            opaque(value),
            &mut buffer
        )),
        calls!(plain::write_version_information(
            opaque(sequence),
            opaque(value),
            &mut other
        )),
    );
    table.row(
        &format!("transport parameters reading and writing, {}", name),
        calls!((
            find_version_information(opaque(sequence)),
            write_version_information(opaque(sequence), opaque(value), &mut buffer)
        )),
        calls!((
            plain::find_version_information(opaque(sequence)),
            plain::write_version_information(opaque(sequence), opaque(value), &mut other)
        )),
    )
}
