//! Which library answers these tests. `tests/run` wants to read that it is the linked archive.

use held::{version, LIBRARY};

#[test]
fn says_which_library_answers() {
    match version() {
        Some(version) => println!("answered by {LIBRARY}, version {version}"),
        None => println!("answered by {LIBRARY}"),
    }
    assert_eq!(version().is_some(), cfg!(feature = "linked"));
}
