use quic_version::{server_choice_barring, Attempt, Decision, Pair, Refusal};

/// A client's start. `converts(from, to)` tells whether each first flight that this attempt may send
/// in `from` converts to `to`. The pairs by which one does not are barred.
fn start(
    table: &[u32],
    pairs: &[Pair],
    converts: impl Fn(u32, u32) -> bool,
    original: u32,
    destination: &[u8],
    source: &[u8],
) -> Result<Attempt, Refusal> {
    let mut barred = pairs.to_vec();
    barred.retain(|pair| !converts(pair.from, pair.to));
    Attempt::start_barring(table, pairs, &barred, original, destination, source)
}

/// A server's choice. `converts(to)` tells whether the first flight at hand converts to `to`. The
/// accepted versions that it does not convert to are barred.
fn choice(
    readable: &[u32],
    accepted: &[u32],
    pairs: &[Pair],
    converts: impl Fn(u32) -> bool,
    version: u32,
    information: Option<&[u8]>,
) -> Result<Decision, Refusal> {
    let mut barred = Vec::new();
    // Where information is missing, as where the flight was not read, nothing needs barring.
    if information.is_some() {
        barred.extend(accepted.iter().filter(|to| !converts(**to)));
    }
    server_choice_barring(readable, accepted, pairs, &barred, version, information)
}
