//! Runs what docs/INTEGRATION.md advises, and what it warns of.

mod barring;
mod configurations;
mod judged;
mod link;
mod log;
mod parameters;
mod reserved;
mod words;

/// The page's client, and tests that run it.
mod client {
    include!("page/client.rs");
    pub mod run;
}

/// The page's server, and tests that run it.
mod server {
    include!("page/server.rs");
    pub mod run;
}

/// What is run here is what the page shows.
#[test]
fn code_of_the_page() {
    let page = include_str!("../../../docs/INTEGRATION.md");
    let shown: Vec<&str> = page
        .split("\n```rust\n")
        .skip(1)
        .map(|rest| rest.split("```\n").next().unwrap())
        .collect();
    assert_eq!(
        shown,
        [
            include_str!("page/words.rs"),
            include_str!("page/client.rs"),
            include_str!("page/server.rs"),
            include_str!("page/barring.rs"),
            include_str!("page/reserved.rs"),
            include_str!("page/log.rs")
        ]
    );
}
