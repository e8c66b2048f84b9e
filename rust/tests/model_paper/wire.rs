//! Headers, Version Negotiation packets and Version Information: worked calls,
//! edges, the order of the refusals.

use crate::model::*;
use crate::packet;
use crate::random::{in_fours, long_packet};

/// `bytes` followed by zeros up to `length`.
fn padded(bytes: &[u8], length: usize) -> Vec<u8> {
    let mut bytes = bytes.to_vec();
    bytes.resize(length, 0);
    bytes
}

#[test]
fn whole_case_of_22_bytes() {
    let received = [
        0xC0, 0x00, 0x00, 0x00, 0x0C, 0x02, 0xAA, 0xBB, 0x01, 0xCC, 0xFF,
    ];
    // "the 22 bytes now come from the same case followed by zeros up to 1,200"
    let padded = padded(&received, 1_200);
    let sent = [
        0xC0, 0x00, 0x00, 0x00, 0x00, 0x01, 0xCC, 0x02, 0xAA, 0xBB, 0x00, 0x00, 0x00, 0x0E, 0x00,
        0x00, 0x00, 0x0D, 0x00, 0x00, 0x00, 0x0A,
    ];
    let write = |room| version_negotiation(&padded, &[14, 13, 10], &[], 64, room);
    assert_eq!(write(22), Ok(sent.to_vec()));
    assert_eq!(write(1_000), Ok(sent.to_vec()));
    assert_eq!(write(21), Err(26));
    // "Document 01's 11-byte whole case becomes a 20"
    let small = version_negotiation(&received, &[14, 13, 10], &[], 64, 22);
    assert_eq!(small, Err(20));
    assert_eq!(
        read_header(&received, 0),
        Ok(Header::Long {
            version: 12,
            destination: 6..8,
            source: 9..10,
            rest: 10..11,
        })
    );
    assert_eq!(
        read_header(&sent, 0),
        Ok(Header::VersionNegotiation {
            destination: 6..7,
            source: 8..10,
            list: 10..22,
        })
    );
    assert_eq!(list_on_the_wire(&sent[10..22]), [14, 13, 10]);
}

#[test]
fn lengths_of_information() {
    let all = |length: usize| vec![1; length];
    for sender in [Sender::Client, Sender::Server] {
        let read = |length| read_information(sender, &all(length));
        assert_eq!(read(0), Err(31));
        assert_eq!(read(3), Err(31));
        assert_eq!(read(5), Err(32));
        assert_eq!(read(1_024), Ok((0x0101_0101, 4..1_024)));
        assert_eq!(read(1_026), Err(32));
        assert_eq!(read(1_028), Err(33));
    }
    assert_eq!(
        read_information(Sender::Server, &in_fours(&[7])),
        Ok((7, 4..4))
    );
    assert_eq!(read_information(Sender::Client, &in_fours(&[7])), Err(36));
}

#[test]
fn short_headers() {
    let bytes = vec![0x7f; 300];
    let short = |destination, rest| Ok(Header::Short { destination, rest });
    assert_eq!(read_header(&[], 0), Err(12));
    assert_eq!(read_header(&[0], 0), short(1..1, 1..1));
    assert_eq!(read_header(&[0], 1), Err(12));
    assert_eq!(read_header(&[0, 9], 1), short(1..2, 2..2));
    assert_eq!(read_header(&bytes, 255), short(1..256, 256..300));
    assert_eq!(read_header(&bytes, 256), Err(12));
    assert_eq!(read_header(&bytes, usize::MAX), Err(12));
    assert_eq!(read_header(&[0x7f; 65_535], 0), short(1..1, 1..65_535));
    assert_eq!(read_header(&[0x7f; 65_536], 256), Err(11));
}

#[test]
fn long_headers() {
    let whole = [0x80, 0, 0, 0, 1, 0, 0];
    for short in 0..7 {
        assert_eq!(read_header(&whole[..short], 0), Err(12));
    }
    let least = Ok(Header::Long {
        version: 1,
        destination: 6..6,
        source: 7..7,
        rest: 7..7,
    });
    assert_eq!(read_header(&whole, 0), least);
    // A long form takes no notice of the told length.
    assert_eq!(read_header(&whole, 256), least);
    let long = long_packet(0, 0x0102_0304, &[7; 255], &[8; 255], &[9]);
    assert_eq!(
        read_header(&long, 0),
        Ok(Header::Long {
            version: 0x0102_0304,
            destination: 6..261,
            source: 262..517,
            rest: 517..518,
        })
    );
    assert_eq!(read_header(&long[..516], 0), Err(12));
    assert_eq!(read_header(&long[..261], 0), Err(12));
    assert_eq!(read_header(&vec![0xff; 65_536], 0), Err(11));
}

#[test]
fn negotiation_headers() {
    let whole = |list| {
        Ok(Header::VersionNegotiation {
            destination: 6..6,
            source: 7..7,
            list,
        })
    };
    let empty = packet(&[], &[], &[]);
    assert_eq!(read_header(&empty[..6], 0), Err(12));
    assert_eq!(read_header(&empty, 0), Err(13));
    assert_eq!(read_header(&packet(&[], &[], &[0]), 0), whole(7..11));
    let most = packet(&[], &[], &vec![5; MAX_LIST]);
    assert_eq!(most.len(), MAX_DATAGRAM);
    assert_eq!(read_header(&most, 0), whole(7..65_535));
    assert_eq!(read_header(&most[..65_534], 0), Err(13));
    assert_eq!(
        read_header(&packet(&[], &[], &vec![5; MAX_LIST + 1]), 0),
        Err(11)
    );
}

#[test]
fn packet_writer_refusals() {
    let received = |version| long_packet(0, version, &[1], &[], &[0; 1_192]);
    let write =
        |received: &[u8], offered: &[u32]| version_negotiation(received, offered, &[], 128, 0);
    assert_eq!(write(&[0; 65_536], &[]), Err(11));
    assert_eq!(write(&[], &[]), Err(12));
    // "12 is then judged for emptiness only"
    assert_eq!(write(&[0; 1_200], &[]), Err(21));
    assert_eq!(write(&[0x7f; 1_200], &[]), Err(21));
    assert_eq!(write(&[0x80], &[]), Err(12));
    assert_eq!(write(&received(0), &[]), Err(22));
    assert_eq!(write(&received(0)[..7], &[]), Err(12));
    assert_eq!(write(&received(2), &[]), Err(23));
    assert_eq!(write(&received(2), &[3, 2, 2]), Err(23));
    assert_eq!(write(&received(2), &[3, 2]), Err(24));
    assert_eq!(write(&received(2), &[3]), Err(25));
    assert_eq!(
        version_negotiation(&received(2), &[3], &[], 127, 11),
        Err(26)
    );
    let sent = version_negotiation(&received(2), &[3], &[], 127, 12).unwrap();
    assert_eq!(sent, [255, 0, 0, 0, 0, 0, 1, 1, 0, 0, 0, 3]);
}

/// "when the received datagram is under 1,200 bytes, judged after 11 and 12 and
/// before 21"
#[test]
fn small_datagrams() {
    let write = |received: &[u8]| version_negotiation(received, &[], &[], 128, 0);
    for first in [0, 0x7f] {
        assert_eq!(write(&padded(&[first], 1)), Err(20));
        assert_eq!(write(&padded(&[first], 1_199)), Err(20));
        assert_eq!(write(&padded(&[first], 1_200)), Err(21));
    }
    // A long form that is cut is a 12 at any length.
    let long = |version| long_packet(0, version, &[1; 255], &[2; 255], &[3; 800]);
    for version in [0, 2] {
        for length in 1..517 {
            assert_eq!(write(&long(version)[..length]), Err(12));
        }
        for length in 517..1_200 {
            assert_eq!(write(&long(version)[..length]), Err(20));
        }
    }
    for length in 1_200..1_317 {
        // Whether the list is whole, or bytes are left over.
        assert_eq!(write(&long(0)[..length]), Err(22));
        assert_eq!(write(&long(2)[..length]), Err(23));
    }
}

#[test]
fn longest_packet() {
    let received = long_packet(0, 99, &[7; 255], &[8; 255], &[0; 683]);
    let offered: Vec<u32> = (1..=MAX_TABLE as u32).collect();
    let write = |room| version_negotiation(&received, &offered, &[], 0, room);
    assert_eq!(write(772), Err(26));
    // Document 02, C-14: "the largest packet sent is 773 bytes", before C-18.
    let sent = write(773).unwrap();
    assert_eq!(sent, packet(&[8; 255], &[7; 255], &offered));
    assert_eq!(sent.len(), 773);
}

#[test]
fn reader_of_information_refusals() {
    use Sender::{Client, Server};
    let read = |sender, versions: &[u32]| read_information(sender, &in_fours(versions));
    assert_eq!(read(Client, &[0, 0]), Err(34));
    assert_eq!(read(Client, &[1, 2, 0]), Err(35));
    assert_eq!(read(Server, &[1, 2, 0]), Err(35));
    assert_eq!(read(Client, &[1, 2]), Err(36));
    assert_eq!(read(Server, &[1, 2]), Ok((1, 4..8)));
    assert_eq!(read(Client, &[1, 2, 1]), Ok((1, 4..12)));
    // "Reserved numbers may be read."
    let reserved = 0x1a2a_3a4a;
    assert_eq!(read(Client, &[reserved, reserved]), Ok((reserved, 4..8)));
    assert_eq!(read(Server, &[0; 257]), Err(33));
    assert_eq!(read(Server, &[0; 256]), Err(34));
}

#[test]
fn writer_of_information_refusals() {
    use Sender::{Client, Server};
    assert_eq!(information(Client, 0, &[0; 256], 0), Err(33));
    assert_eq!(information(Client, 0, &[0; 255], 0), Err(34));
    assert_eq!(information(Client, 1, &[2, 0], 0), Err(35));
    assert_eq!(information(Client, 1, &[2], 0), Err(36));
    assert_eq!(information(Server, 1, &[2], 7), Err(37));
    assert_eq!(information(Server, 1, &[2], 8), Ok(in_fours(&[1, 2])));
    assert_eq!(information(Server, 1, &[], 4), Ok(in_fours(&[1])));
    assert_eq!(information(Server, 1, &[], 3), Err(37));
    let most = information(Client, 1, &[1; 255], 1_024).unwrap();
    assert_eq!(read_information(Client, &most), Ok((1, 4..1_024)));
}
