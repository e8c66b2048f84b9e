use quic_version::{Attempt, End, Pair, Refusal, MAX_EVENTS};

/// What happened to an attempt, for the log: how it stands, and the answers of its last events.
fn log_attempt(attempt: &Attempt, mut log: impl FnMut(&str)) {
    let end = match attempt.end() {
        End::Open => String::from("open"),
        End::Completed(version) => format!("completed with {:#010x}", version),
        End::Closed(refusal) => format!("closed: {}", refusal),
    };
    let (version, journal) = (attempt.attempted(), attempt.journal());
    let more = if journal.count() == MAX_EVENTS {
        " or more"
    } else {
        ""
    };
    let events = format!("events: {}{}", journal.count(), more);
    log(&format!(
        "attempt in {:#010x}: {}; {}",
        version, end, events
    ));
    // "event 13: 61 ..", a line for each answer that is kept.
    for line in journal.to_string().lines() {
        log(line);
    }
}

/// Starts again in the place of an attempt, with new connection IDs: the same table and Original
/// Version, and nothing barred. The journal goes with the old attempt, so it is logged before.
fn start_again(
    attempt: &mut Attempt,
    pairs: &[Pair],
    destination: &[u8],
    source: &[u8],
    log: impl FnMut(&str),
) -> Result<(), Refusal> {
    log_attempt(attempt, log);
    let (table, original) = (attempt.table().to_vec(), attempt.original());
    *attempt = Attempt::start(&table, pairs, original, destination, source)?;
    Ok(())
}
