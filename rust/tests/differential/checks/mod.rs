//! One comparison for each call of the library: answer, lent places, buffers and record against
//! the model's, through the numbers of the C header and through the crate's own interface.

mod attempts;
mod barred;
mod choices;
mod configurations;
mod damaged;
mod journal;
mod parameters;
mod paste;
mod reserved;
mod screening;
mod wire;
mod words;

pub use attempts::*;
pub use barred::*;
pub use choices::*;
pub use configurations::*;
pub use damaged::*;
pub use journal::*;
pub use parameters::*;
pub use paste::Paste;
pub use reserved::*;
pub use screening::*;
pub use wire::*;
pub use words::*;

use crate::{model, raw, Pair, Reserved};
use quic_version::Refusal;

/// What lent places hold before a call. Each call is made once with each.
const FOUND: [u32; 2] = [0x5a5a_5a5a, 0xc3c3_c3c3];

/// The number seen, or what differs.
pub type Compared = Result<u32, String>;

fn same<T: PartialEq + std::fmt::Debug>(what: &str, library: T, model: T) -> Result<(), String> {
    if library == model {
        Ok(())
    } else {
        Err(format!(
            "{}\n    library {:?}\n    model   {:?}",
            what, library, model
        ))
    }
}

/// As `same`, of bytes that may be many: the first place where they differ, and what follows.
fn same_bytes(what: &str, library: &[u8], model: &[u8]) -> Result<(), String> {
    if library == model {
        return Ok(());
    }
    let alike = library.iter().zip(model).take_while(|(l, m)| l == m);
    let place = alike.count();
    let from = |bytes: &[u8]| bytes.iter().skip(place).take(24).copied().collect();
    let (library, model): (Vec<u8>, Vec<u8>) = (from(library), from(model));
    same(&format!("{} from byte {} on", what, place), library, model)
}

/// An answer of the crate's own interface with its refusal as a number.
fn plain<T>(answer: Result<T, Refusal>) -> Result<T, u8> {
    answer.map_err(Refusal::number)
}

fn number<T>(answer: &Result<T, u8>) -> u32 {
    match answer {
        Ok(_) => 0,
        Err(no) => u32::from(*no),
    }
}

/// A number that a call leaves in a lent place.
trait Lent: Copy + PartialEq + std::fmt::Debug {
    /// One of `FOUND`, in every four bytes of the place.
    fn found(found: u32) -> Self;
}

impl Lent for u32 {
    fn found(found: u32) -> u32 {
        found
    }
}

impl Lent for u64 {
    fn found(found: u32) -> u64 {
        u64::from(found) << 32 | u64::from(found)
    }
}

impl Lent for usize {
    fn found(found: u32) -> usize {
        u64::found(found) as usize
    }
}

/// A call that leaves one number: answer, and the number left.
fn check_number<T: Lent>(
    model: &Result<T, u8>,
    call: &dyn Fn(&mut T) -> u32,
) -> Result<(), String> {
    for found in FOUND.map(T::found) {
        let mut left = found;
        same("answer", call(&mut left), number(model))?;
        same("left", left, model.unwrap_or(found))?;
    }
    Ok(())
}

fn paired(pairs: &[(u32, u32)]) -> Vec<Pair> {
    pairs.iter().map(|pair| Pair::from(*pair)).collect()
}

fn placed(reserved: &[(u32, u32)]) -> Vec<Reserved> {
    let one = |&(number, place): &(u32, u32)| Reserved { number, place };
    reserved.iter().map(one).collect()
}

/// `QV_UNKNOWN_CALL`.
const UNKNOWN_CALL: u64 = u64::MAX;

/// `call` is 0 for a call that reads, 1 for a writer; else `UNKNOWN_CALL` is due.
pub fn check_close_code(refusal: u32, call: u32) -> Compared {
    let model = model::close_code(refusal, call == 1);
    let code = match call {
        0 | 1 => model.unwrap_or(0),
        _ => UNKNOWN_CALL,
    };
    same("close code", raw::close_code(refusal, call), code)?;
    let known = u8::try_from(refusal).ok().and_then(Refusal::from_number);
    if let (0, Some(refusal)) = (call, known) {
        same("close_code", refusal.close_code(), model)?;
    }
    Ok(0)
}
