//! Lists as words of 64 bits, and the second way to choose.

use crate::ffi;
use crate::refusal::answer;
use crate::Refusal;

/// The list as a word of 64 bits: bit j, with bit 0 the lowest, is set where entry j of the table
/// occurs in the list. 0 means that nothing of the table is in the list; that is no refusal here.
///
/// `a | b` is the word of two lists joined, where the joined list has at most
/// [`MAX_LIST`](crate::MAX_LIST) entries, and both words were made with the same table. The choice
/// from a joined word is [`choose_from_word`].
///
/// Where the word is not 0, its `trailing_zeros()` is the place in the table of the version that
/// [`choose_by_word`] answers. Its `count_ones()` is what [`count_held`] answers.
///
/// ```
/// use quic_version::{choose_from_word, list_word};
///
/// let table = [14, 12, 10];
/// let one = list_word(&table, &[10, 13])?;
/// let other = list_word(&table, &[12, 10])?;
/// assert_eq!((one, other), (0b100, 0b110));
///
/// // The two lists joined.
/// let word = one | other;
/// assert_eq!(word, list_word(&table, &[10, 13, 12, 10])?);
/// assert_eq!(choose_from_word(&table, word)?, 12);
/// assert_eq!(table[word.trailing_zeros() as usize], 12);
/// assert_eq!(word.count_ones(), 2);
/// # Ok::<(), quic_version::Refusal>(())
/// ```
///
/// # Errors
///
/// In this order:
/// - [`ListTooLong`](Refusal::ListTooLong) (40): the list has over 16,382 entries;
/// - [`BadTable`](Refusal::BadTable) (41): the table breaks its rule.
pub fn list_word(table: &[u32], list: &[u32]) -> Result<u64, Refusal> {
    let mut word = 0;
    let number = ffi::list_word(table, list, &mut word);
    answer(number, || word)
}

/// As [`list_word`], of a list as it lies on the wire: four bytes for each version, big endian. One
/// to three bytes left over are no entry.
///
/// # Errors
///
/// Those of [`list_word`], in the same order.
pub fn list_word_from_bytes(table: &[u32], bytes: &[u8]) -> Result<u64, Refusal> {
    let mut word = 0;
    let number = ffi::list_word_from_bytes(table, bytes, &mut word);
    answer(number, || word)
}

/// The choice from a list by its word. It answers as [`choose`](crate::choose) does, on every table
/// and list.
///
/// # Errors
///
/// Those of [`choose`](crate::choose), in the same order: 40, 41, 42.
pub fn choose_by_word(table: &[u32], list: &[u32]) -> Result<u32, Refusal> {
    let mut version = 0;
    let number = ffi::choose_by_word(table, list, &mut version);
    answer(number, || version)
}

/// As [`choose_by_word`], from a list as it lies on the wire. It answers as
/// [`choose_from_bytes`](crate::choose_from_bytes) does.
///
/// # Errors
///
/// Those of [`choose`](crate::choose), in the same order: 40, 41, 42.
pub fn choose_by_word_from_bytes(table: &[u32], bytes: &[u8]) -> Result<u32, Refusal> {
    let mut version = 0;
    let number = ffi::choose_by_word_from_bytes(table, bytes, &mut version);
    answer(number, || version)
}

/// The choice from a word of any origin, such as the words of several lists joined: the entry of
/// the table at the word's lowest set bit. Bits at or past the table's length change nothing. Bit j
/// is read as entry j of this table; that a word was made with another table cannot be told.
///
/// # Errors
///
/// In this order; there is no list here, so 40 is never given:
/// - [`BadTable`](Refusal::BadTable) (41): the table breaks its rule;
/// - [`NothingInCommon`](Refusal::NothingInCommon) (42): no bit of a table entry is set.
pub fn choose_from_word(table: &[u32], word: u64) -> Result<u32, Refusal> {
    let mut version = 0;
    let number = ffi::choose_from_word(table, word, &mut version);
    answer(number, || version)
}

/// How many entries of the table occur in the list, each counted once. It is 0 where none does;
/// that is no refusal here.
///
/// # Errors
///
/// Those of [`list_word`], in the same order: 40, 41.
pub fn count_held(table: &[u32], list: &[u32]) -> Result<usize, Refusal> {
    let mut count = 0;
    let number = ffi::count_held(table, list, &mut count);
    answer(number, || count)
}

/// As [`count_held`], of a list as it lies on the wire. One to three bytes left over are no entry.
///
/// # Errors
///
/// Those of [`list_word`], in the same order: 40, 41.
pub fn count_held_from_bytes(table: &[u32], bytes: &[u8]) -> Result<usize, Refusal> {
    let mut count = 0;
    let number = ffi::count_held_from_bytes(table, bytes, &mut count);
    answer(number, || count)
}
