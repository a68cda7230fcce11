//! Request #112: what is printed of scripts, by hand, by another program, and by wrong searches.

use oracle::shorten::{run, scripts, Search, WRONG};
use std::fs;
use std::path::Path;

fn printed(script: &str) -> String {
    let mut out = Vec::new();
    run(script.as_bytes(), &mut out);
    String::from_utf8(out).expect("lines of a script are text")
}

#[test]
fn a_refusal_of_the_last_line_alone() {
    assert_eq!(printed("B 1\nW 1 7 65\nC 9 1"), "C 9 1\n");
    assert_eq!(printed("B 1\nX\nQ 7 1\n"), "Q 7 1\n");
}

#[test]
fn a_strip_that_is_held() {
    let held = "B 1\nB 2\nW 1 8 1\nQ 8 0\nW 1 7 65\nW 2 7 66\n";
    assert_eq!(printed(held), "B 1\nB 2\nW 1 7 65\nW 2 7 66\n");
}

#[test]
fn numbers_stay_as_they_are() {
    // Number 3 is given to the third begin alone.
    let held = "B 1\nB 2\nB 3\nW 1 7 65\nW 3 7 66\n";
    assert_eq!(printed(held), held);
}

#[test]
fn among_equals_the_first_line_numbers() {
    // Each of the first two writes holds the strip, and either begin gives number 1.
    let script = b"B 1\nX\nB 2\nB 3\nW 1 7 1\nW 1 7 2\nW 2 7 3\n";
    assert_eq!(Search::Right.lines(script), [0, 2, 4, 6]);
    // Lines 3 and 7, or 4 and 5: a strip that number 1 has written holds off number 2.
    let script = b"B 0\nB 1\nW 1 8 1\nW 1 7 1\nW 2 8 2\nC 1 18446744073709551615\nW 2 7 2\nC 2 5\n";
    assert_eq!(Search::Right.lines(script), [0, 1, 2, 5, 6, 7]);
    assert_eq!(Search::TiesFromRight.lines(script), [0, 1, 3, 4, 5, 7]);
}

#[test]
fn nothing() {
    let lines = |count| "Q 7 1\n".repeat(count);
    assert_eq!(printed(""), "");
    assert_eq!(printed("B 1\n"), "");
    assert_eq!(printed("Z\nQ 7 1\n"), "");
    assert_eq!(printed(&lines(12)), "Q 7 1\n");
    assert_eq!(printed(&lines(13)), "");
    assert_eq!(printed(&(lines(12) + "Z\n" + &lines(3))), "Q 7 1\n");
}

/// Scripts with the output that a third program gives.
#[test]
fn vectors() {
    let folder = Path::new(env!("CARGO_MANIFEST_DIR")).join("vectors/112");
    let mut count = 0;
    for entry in fs::read_dir(folder).expect("the folder is there") {
        let path = entry.expect("its files are listed").path();
        if path.extension().is_some_and(|ending| ending == "in") {
            let read = |path: &Path| fs::read_to_string(path).expect("the file is text");
            assert_eq!(printed(&read(&path)), read(&path.with_extension("out")));
            count += 1;
        }
    }
    assert_eq!(count, 40);
}

/// A tenth of the random scripts that the gate plays tell the right search from each wrong one.
#[test]
fn wrong_searches_are_found_out() {
    for wrong in WRONG {
        let found = (1..=400).filter(|&seed| {
            let script = scripts::random(seed);
            wrong.lines(&script) != Search::Right.lines(&script)
        });
        assert!(found.count() >= 10, "{wrong:?}");
    }
}
