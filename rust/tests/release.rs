//! One release number: in Cargo.toml, the C header, the pkg-config file and CHANGELOG.md. And one
//! number of the interface.

use std::fs;
use std::path::Path;

/// A file of the repository.
fn file(path: &str) -> String {
    let path = Path::new(env!("CARGO_MANIFEST_DIR")).join("..").join(path);
    fs::read_to_string(&path).unwrap_or_else(|error| panic!("{}: {}", path.display(), error))
}

/// The word that follows `start` in the first line that begins so.
fn after<'a>(text: &'a str, start: &str) -> Option<&'a str> {
    let line = text.lines().find_map(|line| line.strip_prefix(start))?;
    line.split_whitespace().next()
}

#[test]
fn of_the_crate() {
    assert_eq!(quic_version::RELEASE, env!("CARGO_PKG_VERSION"));
    let quoted = format!("\"{}\"", quic_version::RELEASE);
    assert_eq!(
        after(&file("rust/Cargo.toml"), "version = "),
        Some(&quoted[..])
    );
}

#[test]
fn of_the_header() {
    let header = file("include/quic_version.h");
    let quoted = format!("\"{}\"", quic_version::RELEASE);
    assert_eq!(after(&header, "#define QV_RELEASE "), Some(&quoted[..]));
}

#[test]
fn of_the_pkg_config_file() {
    let template = file("include/quic-version.pc.in");
    assert_eq!(after(&template, "Version:"), Some(quic_version::RELEASE));
}

/// The first heading that is a release: work since the last one may stand above it.
#[test]
fn of_the_changes() {
    let changes = file("CHANGELOG.md");
    let headings = changes.lines().filter_map(|line| line.strip_prefix("## "));
    let release = headings
        .filter_map(|heading| heading.split_whitespace().next())
        .find(|word| *word != "Unreleased");
    assert_eq!(release, Some(quic_version::RELEASE));
}

#[test]
fn interface_of_the_header() {
    let header = file("include/quic_version.h");
    let number = format!("{}u", quic_version::INTERFACE_VERSION);
    assert_eq!(
        after(&header, "#define QV_INTERFACE_VERSION "),
        Some(&number[..])
    );
}
