//! The model against the worked calls of documents 01 and 02, their edges and slips that
//! well-known implementations made; and the seeded inputs' reach.

mod attempts;
mod barred;
mod choices;
mod configurations;
mod journal;
#[path = "../model/mod.rs"]
mod model;
mod parameters;
#[path = "../random/mod.rs"]
mod random;
mod reach;
mod reserved;
mod wire;

use model::close_code;
use random::{in_fours, long_packet};

/// A Version Negotiation packet.
fn packet(destination: &[u8], source: &[u8], list: &[u32]) -> Vec<u8> {
    long_packet(0, 0, destination, source, &in_fours(list))
}

#[test]
fn close_codes() {
    for number in 0..=1_000 {
        let code = match number {
            31..=36 | 80 | 81 | 82 | 85 => Some(0x08),
            51 | 71 | 72 | 73 | 74 | 75 => Some(0x11),
            _ => None,
        };
        assert_eq!(close_code(number, false), code, "{}", number);
        assert_eq!(close_code(number, true), None, "{}", number);
    }
}
