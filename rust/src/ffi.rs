//! The functions of include/quic_version.h. The only place with `unsafe`.
//!
//! Each function has a wrapper with slices and references in the place of pointers. A wrapper is
//! safe: a slice is valid for its length, references do not overlap, and the library asks for
//! nothing else. An impossible record or an unknown kind is answered with 255.
//!
//! The module is private. Tests and benchmark that call the library by its numbers have this file
//! as a module of their own; `crate::Pair` and `crate::Reserved` are the crate's there too.

use crate::{Pair, Reserved};
use std::mem::{align_of, size_of};

/// Entries of a table, and places of an own list.
pub const MAX_TABLE: usize = 64;
/// Bytes of an attempt's connection ID.
pub const MAX_ID: usize = 20;
/// Answers that a journal keeps.
pub const JOURNAL_PLACES: usize = 8;

/// `struct qv_journal`.
#[repr(C)]
#[derive(Clone, Copy, Debug, Default, PartialEq, Eq)]
pub struct Journal {
    /// The numbers of the last answers, oldest first; 0 for no refusal, and past those that are
    /// there.
    pub answers: [u8; JOURNAL_PLACES],
    /// The count of all events; it stops at the highest number.
    pub count: u32,
}

/// `struct qv_attempt`. Its fields are read and written by the library alone.
#[repr(C)]
#[derive(Clone, Copy, Debug, PartialEq, Eq)]
pub struct Record {
    /// Bit j of row i: entry j may be answered when entry i is attempted.
    pub rows: [u64; MAX_TABLE],
    /// The table of versions, best first; 0 past its entries.
    pub table: [u32; MAX_TABLE],
    /// Our destination ID; 0 past its bytes.
    pub destination: [u8; MAX_ID],
    /// Our source ID; 0 past its bytes.
    pub source: [u8; MAX_ID],
    /// 1 to `MAX_TABLE`.
    pub table_len: u32,
    /// 0 to `MAX_ID`.
    pub destination_len: u32,
    /// 0 to `MAX_ID`.
    pub source_len: u32,
    /// The Original Version.
    pub original: u32,
    /// The version that is attempted now.
    pub attempted: u32,
    /// 0 or 1: a Version Negotiation packet was acted on.
    pub acted: u32,
    /// 0 or 1: a genuine packet other than Version Negotiation was processed.
    pub heard: u32,
    /// 0 open, 1 completed, 2 closed.
    pub end_mark: u32,
    /// 0; the version in use; the number of the refusal.
    pub end_value: u32,
    /// What the events were answered with. It is not judged.
    pub journal: Journal,
}

/// Zeros. It can't be derived: arrays of over 32 places have no `Default`.
impl Default for Record {
    fn default() -> Self {
        Record {
            rows: [0; MAX_TABLE],
            table: [0; MAX_TABLE],
            destination: [0; MAX_ID],
            source: [0; MAX_ID],
            table_len: 0,
            destination_len: 0,
            source_len: 0,
            original: 0,
            attempted: 0,
            acted: 0,
            heard: 0,
            end_mark: 0,
            end_value: 0,
            journal: Journal::default(),
        }
    }
}

/// `struct qv_started`.
#[repr(C)]
#[derive(Clone, Copy, Debug, PartialEq, Eq)]
pub struct Started {
    /// The record.
    pub attempt: Record,
    /// The number of the refusal, 0 for none.
    pub refusal: u32,
}

// The layout of the header, in every build: the sizes of the fields add up to the size of the
// record, so there is no padding, and each field lies where the ones before it end. Their order
// and the library's own layout are for tests/layout.rs.

/// Bytes of a record.
pub const RECORD_SIZE: usize =
    8 * MAX_TABLE + 4 * MAX_TABLE + 2 * MAX_ID + 4 * 9 + (JOURNAL_PLACES + 4);
const _: () = assert!(size_of::<Journal>() == JOURNAL_PLACES + 4);
const _: () = assert!(align_of::<Journal>() == 4);
const _: () = assert!(size_of::<Record>() == RECORD_SIZE);
const _: () = assert!(align_of::<Record>() == 8);
const _: () = assert!(size_of::<Started>() == RECORD_SIZE + 8);
const _: () = assert!(size_of::<Pair>() == 8);
const _: () = assert!(align_of::<Pair>() == 4);
const _: () = assert!(size_of::<Reserved>() == 8);
const _: () = assert!(align_of::<Reserved>() == 4);
const _: () = assert!(size_of::<usize>() == 8);

mod header {
    use super::{Pair, Record, Reserved, Started, JOURNAL_PLACES, MAX_TABLE};

    extern "C" {
        pub fn qv_interface_version() -> u32;
        pub fn qv_interface_9() -> u32;
        pub fn qv_record_size() -> usize;
        pub fn qv_known_record() -> Record;
        pub fn qv_close_code(refusal: u32, call: u32) -> u64;
        pub fn qv_is_reserved(version: u32) -> u32;
        pub fn qv_is_table(table: *const u32, table_len: usize) -> u32;
        pub fn qv_are_pairs(pairs: *const Pair, pairs_len: usize) -> u32;
        pub fn qv_read_header(
            datagram: *const u8,
            datagram_len: usize,
            told: usize,
            form: *mut u32,
            version: *mut u32,
            places: *mut [usize; 6],
        ) -> u32;
        pub fn qv_write_version_negotiation(
            received: *const u8,
            received_len: usize,
            offered: *const u32,
            offered_len: usize,
            reserved: *const u32,
            reserved_len: usize,
            unused_bits: u8,
            buffer: *mut u8,
            buffer_len: usize,
            count: *mut usize,
        ) -> u32;
        pub fn qv_read_information(
            sender: u32,
            bytes: *const u8,
            bytes_len: usize,
            chosen: *mut u32,
            start: *mut usize,
            end: *mut usize,
        ) -> u32;
        pub fn qv_write_information(
            sender: u32,
            chosen: u32,
            available: *const u32,
            available_len: usize,
            buffer: *mut u8,
            buffer_len: usize,
            count: *mut usize,
        ) -> u32;
        pub fn qv_entry(list: *const u8, list_len: usize, place: usize, version: *mut u32) -> u32;
        pub fn qv_read_integer(
            bytes: *const u8,
            bytes_len: usize,
            value: *mut u64,
            width: *mut usize,
        ) -> u32;
        pub fn qv_write_integer(
            value: u64,
            buffer: *mut u8,
            buffer_len: usize,
            count: *mut usize,
        ) -> u32;
        pub fn qv_read_parameters(
            sequence: *const u8,
            sequence_len: usize,
            found: *mut u32,
            start: *mut usize,
            end: *mut usize,
        ) -> u32;
        pub fn qv_write_parameters(
            old: *const u8,
            old_len: usize,
            value: *const u8,
            value_len: usize,
            buffer: *mut u8,
            buffer_len: usize,
            count: *mut usize,
        ) -> u32;
        pub fn qv_choose(
            table: *const u32,
            table_len: usize,
            list: *const u32,
            list_len: usize,
            version: *mut u32,
        ) -> u32;
        pub fn qv_choose_from_bytes(
            table: *const u32,
            table_len: usize,
            bytes: *const u8,
            bytes_len: usize,
            version: *mut u32,
        ) -> u32;
        pub fn qv_list_word(
            table: *const u32,
            table_len: usize,
            list: *const u32,
            list_len: usize,
            word: *mut u64,
        ) -> u32;
        pub fn qv_list_word_from_bytes(
            table: *const u32,
            table_len: usize,
            bytes: *const u8,
            bytes_len: usize,
            word: *mut u64,
        ) -> u32;
        pub fn qv_choose_by_word(
            table: *const u32,
            table_len: usize,
            list: *const u32,
            list_len: usize,
            version: *mut u32,
        ) -> u32;
        pub fn qv_choose_by_word_from_bytes(
            table: *const u32,
            table_len: usize,
            bytes: *const u8,
            bytes_len: usize,
            version: *mut u32,
        ) -> u32;
        pub fn qv_choose_from_word(
            table: *const u32,
            table_len: usize,
            word: u64,
            version: *mut u32,
        ) -> u32;
        pub fn qv_count_held(
            table: *const u32,
            table_len: usize,
            list: *const u32,
            list_len: usize,
            count: *mut usize,
        ) -> u32;
        pub fn qv_count_held_from_bytes(
            table: *const u32,
            table_len: usize,
            bytes: *const u8,
            bytes_len: usize,
            count: *mut usize,
        ) -> u32;
        pub fn qv_server_choice(
            readable: *const u32,
            readable_len: usize,
            accepted: *const u32,
            accepted_len: usize,
            pairs: *const Pair,
            pairs_len: usize,
            barred: *const u32,
            barred_len: usize,
            version: u32,
            presence: u32,
            information: *const u8,
            information_len: usize,
            decision: *mut u32,
        ) -> u32;
        pub fn qv_judge_configuration(
            readable: *const u32,
            readable_len: usize,
            accepted: *const u32,
            accepted_len: usize,
            offered: *const u32,
            offered_len: usize,
            available: *const u32,
            available_len: usize,
            pairs: *const Pair,
            pairs_len: usize,
            part: *mut u32,
            version: *mut u32,
        ) -> u32;
        pub fn qv_start(
            table: *const u32,
            table_len: usize,
            pairs: *const Pair,
            pairs_len: usize,
            barred: *const Pair,
            barred_len: usize,
            original: u32,
            destination: *const u8,
            destination_len: usize,
            source: *const u8,
            source_len: usize,
        ) -> Started;
        pub fn qv_event(
            attempt: *mut Record,
            kind: u32,
            value: u32,
            bytes: *const u8,
            bytes_len: usize,
        ) -> u32;
        pub fn qv_own_list(
            attempt: *const Record,
            versions: *mut [u32; MAX_TABLE],
            count: *mut usize,
        ) -> u32;
        pub fn qv_read_journal(
            attempt: *const Record,
            answers: *mut [u8; JOURNAL_PLACES],
            used: *mut usize,
            count: *mut u32,
        ) -> u32;
        pub fn qv_write_client_information(
            attempt: *const Record,
            reserved: *const Reserved,
            reserved_len: usize,
            buffer: *mut u8,
            buffer_len: usize,
            count: *mut usize,
        ) -> u32;
    }
}

/// A reference to the function whose name has the interface's number, so that a program does not
/// link with a library of another interface. With Rust 1.63, GNU ld drops it as unused; so build.rs
/// looks for the name, too.
#[used]
static INTERFACE: unsafe extern "C" fn() -> u32 = header::qv_interface_9;

/// `qv_interface_version`.
#[inline]
pub fn interface_version() -> u32 {
    // SAFETY: it takes nothing.
    unsafe { header::qv_interface_version() }
}

/// `qv_interface_9`, for tests/layout.rs alone.
#[allow(dead_code)]
#[inline]
pub fn interface_9() -> u32 {
    // SAFETY: it takes nothing.
    unsafe { header::qv_interface_9() }
}

/// `qv_record_size`, for tests/layout.rs alone.
#[allow(dead_code)]
#[inline]
pub fn record_size() -> usize {
    // SAFETY: it takes nothing.
    unsafe { header::qv_record_size() }
}

/// `qv_known_record`, for tests/layout.rs alone.
#[allow(dead_code)]
#[inline]
pub fn known_record() -> Record {
    // SAFETY: it takes nothing; the layout is the header's, see the assertions above.
    unsafe { header::qv_known_record() }
}

/// `qv_close_code`.
#[inline]
pub fn close_code(refusal: u32, call: u32) -> u64 {
    // SAFETY: it takes numbers alone.
    unsafe { header::qv_close_code(refusal, call) }
}

/// `qv_is_reserved`.
#[inline]
pub fn is_reserved(version: u32) -> u32 {
    // SAFETY: it takes a number alone.
    unsafe { header::qv_is_reserved(version) }
}

/// `qv_is_table`.
#[inline]
pub fn is_table(table: &[u32]) -> u32 {
    // SAFETY: a slice is valid for its length.
    unsafe { header::qv_is_table(table.as_ptr(), table.len()) }
}

/// `qv_are_pairs`.
#[inline]
pub fn are_pairs(pairs: &[Pair]) -> u32 {
    // SAFETY: a slice is valid for its length.
    unsafe { header::qv_are_pairs(pairs.as_ptr(), pairs.len()) }
}

/// `qv_read_header`.
#[inline]
pub fn read_header(
    datagram: &[u8],
    told: usize,
    form: &mut u32,
    version: &mut u32,
    places: &mut [usize; 6],
) -> u32 {
    // SAFETY: a slice is valid for its length, and references do not overlap.
    unsafe {
        header::qv_read_header(
            datagram.as_ptr(),
            datagram.len(),
            told,
            form,
            version,
            places,
        )
    }
}

/// `qv_write_version_negotiation`.
#[inline]
pub fn write_version_negotiation(
    received: &[u8],
    offered: &[u32],
    reserved: &[u32],
    unused_bits: u8,
    buffer: &mut [u8],
    count: &mut usize,
) -> u32 {
    // SAFETY: a slice is valid for its length, and references do not overlap.
    unsafe {
        header::qv_write_version_negotiation(
            received.as_ptr(),
            received.len(),
            offered.as_ptr(),
            offered.len(),
            reserved.as_ptr(),
            reserved.len(),
            unused_bits,
            buffer.as_mut_ptr(),
            buffer.len(),
            count,
        )
    }
}

/// `qv_read_information`.
#[inline]
pub fn read_information(
    sender: u32,
    bytes: &[u8],
    chosen: &mut u32,
    start: &mut usize,
    end: &mut usize,
) -> u32 {
    // SAFETY: a slice is valid for its length, and references do not overlap.
    unsafe { header::qv_read_information(sender, bytes.as_ptr(), bytes.len(), chosen, start, end) }
}

/// `qv_write_information`.
#[inline]
pub fn write_information(
    sender: u32,
    chosen: u32,
    available: &[u32],
    buffer: &mut [u8],
    count: &mut usize,
) -> u32 {
    // SAFETY: a slice is valid for its length, and references do not overlap.
    unsafe {
        header::qv_write_information(
            sender,
            chosen,
            available.as_ptr(),
            available.len(),
            buffer.as_mut_ptr(),
            buffer.len(),
            count,
        )
    }
}

/// `qv_entry`.
#[inline]
pub fn entry(list: &[u8], place: usize, version: &mut u32) -> u32 {
    // SAFETY: a slice is valid for its length, and references do not overlap.
    unsafe { header::qv_entry(list.as_ptr(), list.len(), place, version) }
}

/// `qv_read_integer`.
#[inline]
pub fn read_integer(bytes: &[u8], value: &mut u64, width: &mut usize) -> u32 {
    // SAFETY: a slice is valid for its length, and references do not overlap.
    unsafe { header::qv_read_integer(bytes.as_ptr(), bytes.len(), value, width) }
}

/// `qv_write_integer`.
#[inline]
pub fn write_integer(value: u64, buffer: &mut [u8], count: &mut usize) -> u32 {
    // SAFETY: a slice is valid for its length, and references do not overlap.
    unsafe { header::qv_write_integer(value, buffer.as_mut_ptr(), buffer.len(), count) }
}

/// `qv_read_parameters`.
#[inline]
pub fn read_parameters(
    sequence: &[u8],
    found: &mut u32,
    start: &mut usize,
    end: &mut usize,
) -> u32 {
    // SAFETY: a slice is valid for its length, and references do not overlap.
    unsafe { header::qv_read_parameters(sequence.as_ptr(), sequence.len(), found, start, end) }
}

/// `qv_write_parameters`.
#[inline]
pub fn write_parameters(old: &[u8], value: &[u8], buffer: &mut [u8], count: &mut usize) -> u32 {
    // SAFETY: a slice is valid for its length, and references do not overlap.
    unsafe {
        header::qv_write_parameters(
            old.as_ptr(),
            old.len(),
            value.as_ptr(),
            value.len(),
            buffer.as_mut_ptr(),
            buffer.len(),
            count,
        )
    }
}

/// `qv_choose`.
#[inline]
pub fn choose(table: &[u32], list: &[u32], version: &mut u32) -> u32 {
    // SAFETY: a slice is valid for its length, and references do not overlap.
    unsafe {
        header::qv_choose(
            table.as_ptr(),
            table.len(),
            list.as_ptr(),
            list.len(),
            version,
        )
    }
}

/// `qv_choose_from_bytes`.
#[inline]
pub fn choose_from_bytes(table: &[u32], bytes: &[u8], version: &mut u32) -> u32 {
    // SAFETY: a slice is valid for its length, and references do not overlap.
    unsafe {
        header::qv_choose_from_bytes(
            table.as_ptr(),
            table.len(),
            bytes.as_ptr(),
            bytes.len(),
            version,
        )
    }
}

/// `qv_list_word`.
#[inline]
pub fn list_word(table: &[u32], list: &[u32], word: &mut u64) -> u32 {
    // SAFETY: a slice is valid for its length, and references do not overlap.
    unsafe { header::qv_list_word(table.as_ptr(), table.len(), list.as_ptr(), list.len(), word) }
}

/// `qv_list_word_from_bytes`.
#[inline]
pub fn list_word_from_bytes(table: &[u32], bytes: &[u8], word: &mut u64) -> u32 {
    // SAFETY: a slice is valid for its length, and references do not overlap.
    unsafe {
        header::qv_list_word_from_bytes(
            table.as_ptr(),
            table.len(),
            bytes.as_ptr(),
            bytes.len(),
            word,
        )
    }
}

/// `qv_choose_by_word`.
#[inline]
pub fn choose_by_word(table: &[u32], list: &[u32], version: &mut u32) -> u32 {
    // SAFETY: a slice is valid for its length, and references do not overlap.
    unsafe {
        header::qv_choose_by_word(
            table.as_ptr(),
            table.len(),
            list.as_ptr(),
            list.len(),
            version,
        )
    }
}

/// `qv_choose_by_word_from_bytes`.
#[inline]
pub fn choose_by_word_from_bytes(table: &[u32], bytes: &[u8], version: &mut u32) -> u32 {
    // SAFETY: a slice is valid for its length, and references do not overlap.
    unsafe {
        header::qv_choose_by_word_from_bytes(
            table.as_ptr(),
            table.len(),
            bytes.as_ptr(),
            bytes.len(),
            version,
        )
    }
}

/// `qv_choose_from_word`.
#[inline]
pub fn choose_from_word(table: &[u32], word: u64, version: &mut u32) -> u32 {
    // SAFETY: a slice is valid for its length, and references do not overlap.
    unsafe { header::qv_choose_from_word(table.as_ptr(), table.len(), word, version) }
}

/// `qv_count_held`.
#[inline]
pub fn count_held(table: &[u32], list: &[u32], count: &mut usize) -> u32 {
    // SAFETY: a slice is valid for its length, and references do not overlap.
    unsafe {
        header::qv_count_held(
            table.as_ptr(),
            table.len(),
            list.as_ptr(),
            list.len(),
            count,
        )
    }
}

/// `qv_count_held_from_bytes`.
#[inline]
pub fn count_held_from_bytes(table: &[u32], bytes: &[u8], count: &mut usize) -> u32 {
    // SAFETY: a slice is valid for its length, and references do not overlap.
    unsafe {
        header::qv_count_held_from_bytes(
            table.as_ptr(),
            table.len(),
            bytes.as_ptr(),
            bytes.len(),
            count,
        )
    }
}

/// `qv_server_choice`, with as many arguments as that has.
#[allow(clippy::too_many_arguments)]
#[inline]
pub fn server_choice(
    readable: &[u32],
    accepted: &[u32],
    pairs: &[Pair],
    barred: &[u32],
    version: u32,
    presence: u32,
    information: &[u8],
    decision: &mut u32,
) -> u32 {
    // SAFETY: a slice is valid for its length, and references do not overlap.
    unsafe {
        header::qv_server_choice(
            readable.as_ptr(),
            readable.len(),
            accepted.as_ptr(),
            accepted.len(),
            pairs.as_ptr(),
            pairs.len(),
            barred.as_ptr(),
            barred.len(),
            version,
            presence,
            information.as_ptr(),
            information.len(),
            decision,
        )
    }
}

/// `qv_judge_configuration`.
#[inline]
pub fn judge_configuration(
    readable: &[u32],
    accepted: &[u32],
    offered: &[u32],
    available: &[u32],
    pairs: &[Pair],
    part: &mut u32,
    version: &mut u32,
) -> u32 {
    // SAFETY: a slice is valid for its length, and references do not overlap.
    unsafe {
        header::qv_judge_configuration(
            readable.as_ptr(),
            readable.len(),
            accepted.as_ptr(),
            accepted.len(),
            offered.as_ptr(),
            offered.len(),
            available.as_ptr(),
            available.len(),
            pairs.as_ptr(),
            pairs.len(),
            part,
            version,
        )
    }
}

/// `qv_start`.
#[inline]
pub fn start(
    table: &[u32],
    pairs: &[Pair],
    barred: &[Pair],
    original: u32,
    destination: &[u8],
    source: &[u8],
) -> Started {
    // SAFETY: a slice is valid for its length; the layout is the header's.
    unsafe {
        header::qv_start(
            table.as_ptr(),
            table.len(),
            pairs.as_ptr(),
            pairs.len(),
            barred.as_ptr(),
            barred.len(),
            original,
            destination.as_ptr(),
            destination.len(),
            source.as_ptr(),
            source.len(),
        )
    }
}

/// `qv_event`.
#[inline]
pub fn event(attempt: &mut Record, kind: u32, value: u32, bytes: &[u8]) -> u32 {
    // SAFETY: a slice is valid for its length, references do not overlap, any record is allowed.
    unsafe { header::qv_event(attempt, kind, value, bytes.as_ptr(), bytes.len()) }
}

/// `qv_own_list`.
#[inline]
pub fn own_list(attempt: &Record, versions: &mut [u32; MAX_TABLE], count: &mut usize) -> u32 {
    // SAFETY: references do not overlap, any record is allowed.
    unsafe { header::qv_own_list(attempt, versions, count) }
}

/// `qv_read_journal`.
#[inline]
pub fn read_journal(
    attempt: &Record,
    answers: &mut [u8; JOURNAL_PLACES],
    used: &mut usize,
    count: &mut u32,
) -> u32 {
    // SAFETY: references do not overlap, any record is allowed.
    unsafe { header::qv_read_journal(attempt, answers, used, count) }
}

/// `qv_write_client_information`.
#[inline]
pub fn write_client_information(
    attempt: &Record,
    reserved: &[Reserved],
    buffer: &mut [u8],
    count: &mut usize,
) -> u32 {
    // SAFETY: a slice is valid for its length, references do not overlap, any record is allowed.
    unsafe {
        header::qv_write_client_information(
            attempt,
            reserved.as_ptr(),
            reserved.len(),
            buffer.as_mut_ptr(),
            buffer.len(),
            count,
        )
    }
}
