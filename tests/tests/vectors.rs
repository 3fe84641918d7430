//! The expected output of the Rattle program `vectors` is what this implementation gives: the published values, which were typed in, and
//! what its search finds for misread words.

use std::path::PathBuf;

#[test]
fn both_implementations_give_the_published_values() {
    let path = PathBuf::from(env!("CARGO_MANIFEST_DIR")).join("../crates/vectors/stdout");
    let expected =
        std::fs::read_to_string(&path).unwrap_or_else(|e| panic!("{}: {e}", path.display()));
    assert_eq!(second::vectors::vectors(), expected);
}
