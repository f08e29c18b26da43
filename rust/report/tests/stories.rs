//! The cookbook's reports are those of today.

use std::ffi::OsString;
use std::fs;
use std::io::empty;
use std::path::Path;

use report::command::command;

/// One test alone, since a report begins with its tape's name as it was given.
#[test]
fn reports_that_are_kept() {
    std::env::set_current_dir(Path::new(env!("CARGO_MANIFEST_DIR")).join("../..")).unwrap();
    let mut found = 0;
    for entry in fs::read_dir("stories").unwrap() {
        let path = entry.unwrap().path();
        if path.extension().is_some_and(|end| end == "story") {
            let told = command([OsString::from(&path)], &mut empty());
            let kept = fs::read_to_string(path.with_extension("report")).ok();
            assert_eq!(
                told.ok().map(|told| told.report),
                kept,
                "{}",
                path.display()
            );
            found += 1;
        }
    }
    assert!(found >= 11);
}
