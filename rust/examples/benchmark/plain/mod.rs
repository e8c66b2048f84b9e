//! The same work in plain Rust: simple loops, with the library's refusals in their order. What is
//! measured is not inlined into the measuring loop.

mod attempts;
mod choices;
mod parameters;
mod versions;
mod wire;
mod words;

pub use attempts::PlainAttempt;
pub use choices::{choose, choose_from_bytes, server_choice, server_choice_barring};
pub use parameters::{
    find_version_information, read_integer, step_over, write_integer, write_version_information,
};
pub use versions::{are_pairs, check, is_reserved, is_table};
pub use wire::{
    read_header, read_information, write_information, write_version_negotiation,
    write_version_negotiation_with_reserved,
};
pub use words::{
    choose_by_word, choose_by_word_from_bytes, choose_from_word, count_held, count_held_from_bytes,
    list_word, list_word_from_bytes,
};

fn number(bytes: &[u8]) -> u32 {
    u32::from_be_bytes([bytes[0], bytes[1], bytes[2], bytes[3]])
}

/// Whether a list as it lies on the wire holds a version.
fn lists(list: &[u8], version: u32) -> bool {
    list.chunks_exact(4).any(|entry| number(entry) == version)
}
