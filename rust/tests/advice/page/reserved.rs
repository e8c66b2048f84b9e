use quic_version::{write_version_negotiation_with_reserved, Attempt, Reserved, WriteRefusal};

/// A reserved number (RFC 9000 section 15), made of random bits.
fn reserved_number(random: u32) -> u32 {
    (random & 0xf0f0_f0f0) | 0x0a0a_0a0a
}

/// A client's Version Information, with none, one or two reserved numbers at any places of its list.
/// `random` hands out random bits.
fn client_information(
    attempt: &Attempt,
    mut random: impl FnMut() -> u32,
    buffer: &mut [u8],
) -> Result<usize, WriteRefusal> {
    let count = random() % 3;
    let entries = attempt.own_list().len() as u32 + count; // Of the list as it is sent.
    let mut reserved: Vec<Reserved> = Vec::new();
    for _ in 0..count {
        let (mut number, mut place) = (reserved_number(random()), random() % entries);
        // No number and no place twice, whatever was drawn.
        if let [first] = reserved[..] {
            if number == first.number {
                number ^= 0x10; // Still reserved.
            }
            if place == first.place {
                place = (place + 1) % entries;
            }
        }
        reserved.push(Reserved { number, place });
    }
    attempt.write_information(&reserved, buffer)
}

/// A server's packet for a datagram in `version`, with one reserved number at its end: another than
/// the version received.
fn server_packet(
    datagram: &[u8],
    version: u32,
    offered: &[u32],
    random: u32,
    buffer: &mut [u8],
) -> Result<usize, WriteRefusal> {
    let mut number = reserved_number(random);
    if number == version {
        number ^= 0x10;
    }
    write_version_negotiation_with_reserved(datagram, offered, &[number], 64, buffer)
}
