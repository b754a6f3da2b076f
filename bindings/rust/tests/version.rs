// The package's version is told to cargo in Cargo.toml and to plain rustc in lib.rs.
use jubrelti::*;

#[test]
fn one_version() {
    let parts = [env!("CARGO_PKG_VERSION_MAJOR"), env!("CARGO_PKG_VERSION_MINOR"), env!("CARGO_PKG_VERSION_PATCH")];
    let number = parts.iter().fold(0, |number, part| number * 1_000 + part.parse::<u64>().unwrap());
    assert_eq!(VERSION, number);
    // The linked library has it too.
    assert!(Store::with_records(1).is_ok());
}
