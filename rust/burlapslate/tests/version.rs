//! The crate and the header for C have one version.

const HEADER: &str = include_str!("../../../include/burlapslate.h");

/// The number that the header defines under this name.
fn number(name: &str) -> &'static str {
    let start = format!("#define {name} ");
    HEADER
        .lines()
        .find_map(|line| line.strip_prefix(start.as_str()))
        .unwrap()
}

#[test]
fn header_and_crate_have_one_version() {
    let parts = ["BS_VERSION_MAJOR", "BS_VERSION_MINOR", "BS_VERSION_PATCH"].map(number);
    assert_eq!(parts.join("."), burlapslate::VERSION);
}
