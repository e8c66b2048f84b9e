use quic_version::transport_parameters::{find_version_information, write_version_information};
use quic_version::{
    read_header, write_information, Attempt, Header, Pair, Refusal, Sender, WriteRefusal,
    MAX_INFORMATION, VERSION_1, VERSION_2,
};

/// The length of the connection IDs that this client hands out.
const OUR_ID_LENGTH: usize = 8;

/// The layers around, which are yours.
trait Layers {
    /// The client's transport parameters, as the stack encodes them.
    fn stack_parameters(&self) -> Vec<u8>;
    /// Has TLS send these transport parameters, in datagrams of `MIN_ANSWERED_DATAGRAM` bytes or
    /// more.
    fn send_first_flight(&mut self, version: u32, parameters: &[u8]);
    /// Removes packet protection with the keys of a version, `None` for a short form; drops what it
    /// cannot read.
    fn remove_protection(&mut self, version: Option<u32>, datagram: &[u8]);
    /// Keeps the packet and its sender's address until the attempt ends.
    fn keep_packet(&mut self, packet: &[u8]);
    /// Logs a 74 or a 75, with the packet that was kept.
    fn report(&mut self, attempt: &Attempt, in_use: u32, information: Option<&[u8]>);
    fn close_connection(&mut self, code: u64);
    fn give_up(&mut self);
    fn connected(&mut self, version: u32);
    /// A fault on this side: for the log, not for the server.
    fn fault(&mut self, text: &str);
}

struct Client<L> {
    attempt: Attempt,
    layers: L,
}

impl<L: Layers> Client<L> {
    fn start(destination: &[u8], source: &[u8], layers: L) -> Result<Client<L>, Refusal> {
        // Best first. The first flight goes out in version 1.
        let table = [VERSION_2, VERSION_1];
        let pairs = [(VERSION_1, VERSION_2), (VERSION_2, VERSION_1)].map(Pair::from);
        let attempt = Attempt::start(&table, &pairs, VERSION_1, destination, source)?;
        let mut client = Client { attempt, layers };
        client.first_flight();
        Ok(client)
    }

    /// A first flight in the attempted version.
    fn first_flight(&mut self) {
        let version = self.attempt.attempted();
        match self.parameters() {
            Ok(parameters) => self.layers.send_first_flight(version, &parameters),
            Err(refusal) => self.layers.fault(&refusal.to_string()), // 80 to 82, 85
        }
    }

    /// The stack's transport parameters, and among them Version Information: the attempted version,
    /// with the own list as Available Versions.
    fn parameters(&self) -> Result<Vec<u8>, WriteRefusal> {
        let (version, own) = (self.attempt.attempted(), self.attempt.own_list());
        let mut information = [0; MAX_INFORMATION];
        let count = write_information(Sender::Client, version, &own, &mut information)?;
        let stack = self.layers.stack_parameters();
        let mut parameters = vec![0; stack.len() + count + 3]; // Never too short.
        let count = write_version_information(&stack, &information[..count], &mut parameters)?;
        parameters.truncate(count);
        Ok(parameters)
    }

    fn datagram(&mut self, datagram: &[u8]) {
        match self.attempt.datagram(datagram) {
            Ok(_) => {
                self.layers.keep_packet(datagram);
                self.first_flight(); // In the version that is attempted now.
            }
            Err(Refusal::NotVersionNegotiation) => self.packet(datagram),
            Err(Refusal::NoVersionLeft) => self.layers.give_up(),
            Err(_) => {} // Ignored.
        }
    }

    /// A packet other than Version Negotiation: in a version of the own list, or dropped.
    fn packet(&mut self, datagram: &[u8]) {
        match read_header(datagram, OUR_ID_LENGTH) {
            Ok(Header::Short { .. }) => self.layers.remove_protection(None, datagram),
            Ok(Header::Long { version, .. }) if self.attempt.own_list().contains(&version) => {
                self.layers.remove_protection(Some(version), datagram)
            }
            _ => {}
        }
    }

    /// The protection of a packet was removed, or the integrity tag of a Retry was right.
    fn packet_processed(&mut self) {
        let _ = self.attempt.packet_processed(); // 62: the attempt has ended.
    }

    /// The handshake is complete, and has authenticated these transport parameters of the server's.
    fn handshake_done(&mut self, in_use: u32, parameters: &[u8]) {
        match find_version_information(parameters) {
            Ok(information) => self.outcome(in_use, information),
            Err(refusal) => self.close(refusal), // 80 to 82, 85
        }
    }

    /// The same, where the stack has read the parameters itself: `None` if Version Information is
    /// missing from them.
    fn outcome(&mut self, in_use: u32, information: Option<&[u8]>) {
        let refusal = match self.attempt.outcome(in_use, information) {
            Ok(version) => return self.layers.connected(version),
            Err(refusal) => refusal,
        };
        if matches!(refusal, Refusal::AvailableEmpty | Refusal::Downgraded) {
            self.layers.report(&self.attempt, in_use, information);
        }
        self.close(refusal);
    }

    fn close(&mut self, refusal: Refusal) {
        // No code: the attempt had ended before.
        if let Some(code) = refusal.close_code() {
            self.layers.close_connection(code);
        }
    }
}
