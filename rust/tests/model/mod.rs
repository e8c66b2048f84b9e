//! A second reading of document 01, and of document 02 as far as it is there (C-11, C-13 to C-15,
//! C-17, C-18, C-20), in plain Rust, to compare the library with. And the
//! test of a server's configuration, which no paper has.
//!
//! It is written from the paper's sentences with sets, slices and iterators;
//! speed is no aim. Refusals are the paper's numbers. Quoted comments are
//! sentences of document 01, or of document 02 where they say so.

#![allow(dead_code)]

mod attempts;
mod choices;
mod completed;
mod configurations;
mod journal;
mod parameters;
mod reserved;
mod wire;
mod words;

pub use attempts::*;
pub use choices::*;
pub use completed::*;
pub use configurations::*;
pub use journal::*;
pub use parameters::*;
pub use reserved::*;
pub use wire::*;
pub use words::*;

/// "A datagram has 0 to 65,535 bytes."
pub const MAX_DATAGRAM: usize = 65_535;
/// "Each ID has 0 to 255 bytes"; a short form's told length too.
pub const MAX_WIRE_ID: usize = 255;
/// "at most 16,382 of them"
pub const MAX_LIST: usize = 16_382;
/// "A table of versions has 1 to 16 entries"; document 02, C-14: "Tables go from 16 to 64 entries"
pub const MAX_TABLE: usize = 64;
/// "A table of compatible pairs (from, to) has 0 to 64 pairs"; document 02, C-14: "pairs from 64 to
/// 1,024"
pub const MAX_PAIRS: usize = 1_024;
/// Document 02, C-17: "up to 64 barred versions, of any value, for the flight at hand (more: 43)"
pub const MAX_BARRED: usize = 64;
/// Document 02, C-18: "up to four distinct reserved numbers" in a client's list; "the box's packet may
/// end with up to four"
pub const MAX_RESERVED: usize = 4;
/// "at most 581"; document 02, C-14: "the largest packet sent is 773 bytes"; C-18: "The packet's size
/// limit grows by 16."
pub const MAX_PACKET: usize = 773 + 16;
/// "0 to 255 Available Versions of 4 bytes"
pub const MAX_AVAILABLE: usize = 255;
/// "4 to 1,024 bytes"
pub const MAX_INFORMATION: usize = 1_024;
/// An attempt's connection IDs: "0 to 20 bytes each".
pub const MAX_ID: usize = 20;
/// Document 02, C-20: "the last eight event answers"
pub const JOURNAL_PLACES: usize = 8;
/// Document 02, C-20: "the count of all events, stopping at 4,294,967,295"
pub const MAX_EVENTS: u64 = 4_294_967_295;
/// Document 02, C-13: "when the received datagram is under 1,200 bytes"
pub const MIN_ANSWERED: usize = 1_200;
/// "a number 0 to 127 for the unused bits"
pub const MAX_UNUSED_BITS: u8 = 127;

/// Document 02, C-11: "a sequence over 16,384 bytes is an 80"
pub const MAX_SEQUENCE: usize = 16_384;
/// Document 02, C-11: "At most 64 parameters, else 85"
pub const MAX_PARAMETERS: usize = 64;
/// Document 02, C-11: "83 an integer over 2^62 minus 1 to write"
pub const MAX_INTEGER: u64 = 2_u64.pow(62) - 1;
/// Document 02, C-11: "Our parameter has identifier 0x11."
pub const VERSION_INFORMATION: u64 = 0x11;

/// The close code of a refusal: 0x08 for 31 to 36, 0x11 for 51 and 71 to 75.
/// "A writer's 33 to 36 close nothing"; no writer's refusal has a code.
/// Document 02, C-11: "New numbers, here and later, join document 01's table
/// without a close code, but this reader's have 0x08": 80, 81, 82 and 85. C-18's
/// 28 and 47 have none.
pub fn close_code(number: u32, writer: bool) -> Option<u64> {
    match number {
        _ if writer => None,
        31..=36 | 80..=82 | 85 => Some(0x08),
        51 | 71..=75 => Some(0x11),
        _ => None,
    }
}
