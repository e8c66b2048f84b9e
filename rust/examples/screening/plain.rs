//! The same screening as a plain Rust program: simple loops over table and list, in two forms of the
//! inner loop. What is measured is not inlined into the measuring loop.
//!
//! An inner loop is a few instructions long. Where it crosses the wrong border in memory, it takes
//! up to twice the time, and where it lies is luck. So each form of the screening is here four
//! times, 16 bytes further on each time, and the fastest of them counts.

use quic_version::{MAX_DATAGRAM, MAX_LIST, MAX_TABLE};
use std::arch::asm;

/// A version, or the number of a refusal.
pub type Answer = Result<u32, u8>;

/// What the program knows of its connection. It keeps no record.
pub struct Client {
    pub table: Vec<u32>,
    pub original: u32,
    pub destination: Vec<u8>,
    pub source: Vec<u8>,
}

/// A program for the whole screening.
pub type Program = fn(&Client, &[u8]) -> Answer;

/// The same program so many times, each with this room after a multiple of 64 bytes.
macro_rules! copies {
    ($($name:ident: $holds:ident, $room:literal;)*) => {
        $(#[inline(never)]
        fn $name(client: &Client, datagram: &[u8]) -> Answer {
            // SAFETY: instructions that do nothing.
            unsafe { asm!(".p2align 6", $room, options(nomem, nostack, preserves_flags)) };
            screen(client, datagram, $holds)
        })*
    };
}

copies! {
    by_index_at_0: holds_by_index, "";
    by_index_at_16: holds_by_index, ".nops 16";
    by_index_at_32: holds_by_index, ".nops 32";
    by_index_at_48: holds_by_index, ".nops 48";
    by_chunks_at_0: holds_by_chunks, "";
    by_chunks_at_16: holds_by_chunks, ".nops 16";
    by_chunks_at_32: holds_by_chunks, ".nops 32";
    by_chunks_at_48: holds_by_chunks, ".nops 48";
}

/// With the inner loop by index.
pub const BY_INDEX: [Program; 4] = [
    by_index_at_0,
    by_index_at_16,
    by_index_at_32,
    by_index_at_48,
];

/// With the inner loop by `chunks_exact`.
pub const BY_CHUNKS: [Program; 4] = [
    by_chunks_at_0,
    by_chunks_at_16,
    by_chunks_at_32,
    by_chunks_at_48,
];

/// The choice alone, with the inner loop by index.
#[inline(never)]
pub fn choose_by_index(table: &[u32], list: &[u8]) -> Answer {
    choose(table, list, holds_by_index)
}

/// The choice alone, with the inner loop by `chunks_exact`.
#[inline(never)]
pub fn choose_by_chunks(table: &[u32], list: &[u8]) -> Answer {
    choose(table, list, holds_by_chunks)
}

/// One pass that only sums the list: no search of it can be much quicker.
#[inline(never)]
pub fn sum(list: &[u8]) -> u32 {
    let mut sum: u32 = 0;
    for entry in list.chunks_exact(4) {
        sum = sum.wrapping_add(number(entry));
    }
    sum
}

fn number(entry: &[u8]) -> u32 {
    u32::from_be_bytes([entry[0], entry[1], entry[2], entry[3]])
}

#[inline(always)]
fn holds_by_index(list: &[u8], version: u32) -> bool {
    let mut at = 0;
    while at + 4 <= list.len() {
        if number(&list[at..at + 4]) == version {
            return true;
        }
        at += 4;
    }
    false
}

#[inline(always)]
fn holds_by_chunks(list: &[u8], version: u32) -> bool {
    for entry in list.chunks_exact(4) {
        if number(entry) == version {
            return true;
        }
    }
    false
}

/// 61, 63, 64, 65.
#[inline(always)]
fn screen(client: &Client, datagram: &[u8], holds: impl Fn(&[u8], u32) -> bool) -> Answer {
    let (destination, source, list) = version_negotiation(datagram).ok_or(61)?;
    // The server sends our IDs back swapped.
    if destination != client.source || source != client.destination {
        return Err(63);
    }
    if holds(list, client.original) {
        return Err(64);
    }
    for version in &client.table {
        if holds(list, *version) {
            return Ok(*version);
        }
    }
    Err(65)
}

/// Destination ID, source ID and list of a Version Negotiation packet (RFC 8999 section 6).
fn version_negotiation(datagram: &[u8]) -> Option<(&[u8], &[u8], &[u8])> {
    if datagram.len() > MAX_DATAGRAM || *datagram.first()? < 128 || number(datagram.get(1..5)?) != 0
    {
        return None;
    }
    let (destination, rest) = counted(&datagram[5..])?;
    let (source, list) = counted(rest)?;
    if list.is_empty() || list.len() % 4 != 0 {
        return None;
    }
    Some((destination, source, list))
}

/// An ID with its length before it, and what follows.
fn counted(bytes: &[u8]) -> Option<(&[u8], &[u8])> {
    let end = 1 + usize::from(*bytes.first()?);
    Some((bytes.get(1..end)?, &bytes[end..]))
}

/// 40, 41, 42.
#[inline(always)]
fn choose(table: &[u32], list: &[u8], holds: impl Fn(&[u8], u32) -> bool) -> Answer {
    if list.len() / 4 > MAX_LIST {
        return Err(40);
    }
    if !is_table(table) {
        return Err(41);
    }
    for version in table {
        if holds(list, *version) {
            return Ok(*version);
        }
    }
    Err(42)
}

fn is_reserved(version: u32) -> bool {
    version & 0x0f0f_0f0f == 0x0a0a_0a0a
}

fn is_table(table: &[u32]) -> bool {
    if table.is_empty() || table.len() > MAX_TABLE {
        return false;
    }
    for (place, version) in table.iter().enumerate() {
        if *version == 0 || is_reserved(*version) || table[..place].contains(version) {
            return false;
        }
    }
    true
}
