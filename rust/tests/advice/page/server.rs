use quic_version::transport_parameters::{find_version_information, write_version_information};
use quic_version::{
    are_pairs, is_table, read_header, server_choice, write_information, write_version_negotiation,
    Decision, Header, Pair, Sender, ServerConfiguration, WriteRefusal, MAX_INFORMATION, MAX_PACKET,
    VERSION_1, VERSION_2,
};

/// The length of the connection IDs that this server hands out.
const OUR_ID_LENGTH: usize = 8;

/// Readable, accepted, offered and Available, best first: the safe configuration.
const TABLE: [u32; 2] = [VERSION_2, VERSION_1];
const PAIRS: [Pair; 1] = [Pair {
    from: VERSION_1,
    to: VERSION_2,
}];

/// What the handshake layer made of the datagrams of a first flight so far.
enum Flight {
    /// This datagram cannot be read. That is not "missing".
    Unreadable,
    /// The client's transport parameters have not come whole.
    Incomplete,
    /// They have: the data of the TLS extension.
    Whole(Vec<u8>),
}

/// The layers around, which are yours.
trait Layers {
    /// Whether a version was chosen for this destination ID.
    fn has_connection(&self, id: &[u8]) -> bool;
    fn to_connection(&mut self, id: &[u8], datagram: &[u8]);
    /// Adds a datagram to the first flight with this destination ID, which has one version. One that
    /// is too small for this version is `Unreadable`.
    fn add_to_flight(&mut self, id: &[u8], version: u32, datagram: &[u8]) -> Flight;
    /// The server's transport parameters for this connection, as the stack encodes them.
    fn stack_parameters(&self, id: &[u8]) -> Vec<u8>;
    /// Goes on in a version, and has TLS send these transport parameters.
    fn go_on(&mut self, id: &[u8], version: u32, parameters: &[u8]);
    fn send_datagram(&mut self, datagram: &[u8]);
    /// Counts the datagrams that get no packet. Anyone can send them, so they get no line in a log.
    fn unanswered(&mut self, refusal: WriteRefusal);
    fn close_connection(&mut self, id: &[u8], code: u64);
    /// A fault of the configuration: for the log, not for the client.
    fn fault(&mut self, text: &str);
}

/// Whether the table and the pairs keep their rules.
fn is_configured() -> bool {
    is_table(&TABLE) && are_pairs(&PAIRS)
}

/// Once, when the server starts. One whose configuration is not safe does not start.
fn is_safe(layers: &mut impl Layers) -> bool {
    let configuration = ServerConfiguration {
        readable: &TABLE,
        accepted: &TABLE,
        offered: &TABLE,
        available: &TABLE,
        pairs: &PAIRS,
    };
    let tested = configuration.check();
    if let Err(fault) = tested {
        layers.fault(&fault.to_string()); // The part that is broken, and the version.
    }
    tested.is_ok()
}

fn datagram(layers: &mut impl Layers, datagram: &[u8]) {
    match read_header(datagram, OUR_ID_LENGTH) {
        Ok(Header::Long { destination, .. } | Header::Short { destination, .. })
            if layers.has_connection(destination) =>
        {
            layers.to_connection(destination, datagram)
        }
        Ok(Header::Long {
            destination,
            version,
            ..
        }) => first_flight(layers, destination, version, datagram),
        // Refused, Version Negotiation, or a short form of no connection: silence.
        _ => {}
    }
}

fn first_flight(layers: &mut impl Layers, id: &[u8], version: u32, datagram: &[u8]) {
    // A version that is not readable is negotiated at once, whatever the flight holds.
    let mut parameters = Vec::new();
    if TABLE.contains(&version) {
        match layers.add_to_flight(id, version, datagram) {
            Flight::Unreadable => return, // Drop it.
            Flight::Incomplete => return, // Wait for more.
            Flight::Whole(whole) => parameters = whole,
        }
    }
    let choice = find_version_information(&parameters).and_then(|information| {
        // `None` where it is missing; an empty value is not.
        server_choice(&TABLE, &TABLE, &PAIRS, version, information)
    });
    match choice {
        Ok(Decision::Use(version)) => match answer(&layers.stack_parameters(id), version) {
            Ok(parameters) => layers.go_on(id, version, &parameters),
            Err(refusal) => layers.fault(&refusal.to_string()), // 80 to 82, 85
        },
        Ok(Decision::Negotiate) => negotiate(layers, datagram),
        Err(refusal) => match refusal.close_code() {
            Some(code) => layers.close_connection(id, code),
            None => layers.fault(&refusal.to_string()), // 41, 43
        },
    }
}

/// The stack's transport parameters, and among them Version Information: the version that was
/// chosen, with the table as Available Versions.
fn answer(stack: &[u8], version: u32) -> Result<Vec<u8>, WriteRefusal> {
    let mut information = [0; MAX_INFORMATION];
    let count = write_information(Sender::Server, version, &TABLE, &mut information)?;
    let mut parameters = vec![0; stack.len() + count + 3]; // Never too short.
    let count = write_version_information(stack, &information[..count], &mut parameters)?;
    parameters.truncate(count);
    Ok(parameters)
}

/// Once for a datagram, with all of it.
fn negotiate(layers: &mut impl Layers, datagram: &[u8]) {
    use WriteRefusal::{DatagramTooLong, DatagramTooSmall, ShortForm, Truncated};

    let mut packet = [0; MAX_PACKET];
    match write_version_negotiation(datagram, &TABLE, 64, &mut packet) {
        Ok(count) => layers.send_datagram(&packet[..count]),
        Err(
            refusal @ (DatagramTooLong
            | Truncated
            | DatagramTooSmall
            | ShortForm
            | WriteRefusal::VersionNegotiationReceived),
        ) => layers.unanswered(refusal),
        Err(refusal) => layers.fault(&refusal.to_string()), // 23 to 26
    }
}
