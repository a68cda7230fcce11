//! The examples of document 01, and of requests #102 and #104.

use oracle::script;

const VALUE: &str = "0102030405060708090a0b0c0d0e0f10";
const OTHER: &str = "ffffffffffffffffffffffffffffffff";

/// Runs a script given as lines, each with the answer that it must print.
fn check(exchange: &[(String, String)]) {
    let text: String = exchange
        .iter()
        .map(|(line, _)| format!("{line}\n"))
        .collect();
    let expected: String = exchange
        .iter()
        .map(|(_, line)| format!("{line}\n"))
        .collect();
    let mut out = Vec::new();
    script::run(text.as_bytes(), &mut out);
    assert_eq!(String::from_utf8(out).unwrap(), expected);
}

fn exchange(log_blocks: u64, pages: u64, lines: &[(&str, &str)]) -> Vec<(String, String)> {
    let mut all = vec![
        (format!("F {log_blocks} {pages}"), "F 0 0".to_string()),
        ("O 7".to_string(), "O 0 0".to_string()),
    ];
    all.extend(whole(lines));
    all
}

/// Lines and answers with the values written out.
fn whole(lines: &[(&str, &str)]) -> Vec<(String, String)> {
    let whole = |text: &str| text.replace("VALUE", VALUE).replace("OTHER", OTHER);
    let lines = lines.iter();
    lines
        .map(|(line, answer)| (whole(line), whole(answer)))
        .collect()
}

fn write(number: u64, record: u64, answer: &str) -> (String, String) {
    (format!("W {number} {record} {VALUE}"), answer.to_string())
}

#[test]
fn fresh_as_of() {
    check(&exchange(
        2,
        1,
        &[("Q 7 0", "Q 0 none"), ("Q 7 1", "Q 10 -")],
    ));
}

#[test]
fn clocks_that_fall() {
    check(&exchange(
        2,
        1,
        &[
            ("B 10", "B 0 1"),
            ("W 1 7 VALUE", "W 0 0"),
            ("C 1 5", "C 0 10"),
            ("B 3", "B 0 2"),
            ("W 2 7 VALUE", "W 0 1"),
            ("C 2 3", "C 0 11"),
        ],
    ));
}

#[test]
fn the_last_time() {
    check(&exchange(
        2,
        1,
        &[
            ("B 10", "B 0 1"),
            ("W 1 7 VALUE", "W 0 0"),
            ("C 1 18446744073709551615", "C 0 18446744073709551615"),
            ("B 10", "B 0 2"),
            ("W 2 7 VALUE", "W 0 1"),
            ("C 2 3", "C 9 -"),
            ("R 2 7", "R 0 VALUE"),
            ("B 1", "B 0 3"),
            ("C 3 1", "C 0 0"),
        ],
    ));
}

#[test]
fn two_writes_in_a_transaction() {
    check(&exchange(
        2,
        1,
        &[
            ("B 10", "B 0 1"),
            ("W 1 7 VALUE", "W 0 0"),
            ("W 1 7 OTHER", "W 0 1"),
            ("C 1 10", "C 0 10"),
            ("S", "S 0 0"),
            ("Q 7 10", "Q 0 OTHER"),
            ("Q 7 9", "Q 0 none"),
        ],
    ));
}

/// The blocks that a script shows, as hex digits.
fn shown(text: &str) -> Vec<String> {
    let mut out = Vec::new();
    script::run(text.as_bytes(), &mut out);
    let out = String::from_utf8(out).unwrap();
    let blocks = out.lines().filter_map(|line| line.strip_prefix("M "));
    blocks.map(str::to_string).collect()
}

/// A formatted and opened room in which number 1 writes so many records, from this one on.
fn written(pages: u64, first: u64, count: u64) -> String {
    let mut text = format!("F 2 {pages}\nO 0\nB 10\n");
    text.extend((first..first + count).map(|record| format!("W 1 {record} {VALUE}\n")));
    text
}

/// The 15th begins a second block (#104).
#[test]
fn the_sixteenth_write_on_one_page() {
    let mut lines = exchange(2, 1, &[("B 10", "B 0 1")]);
    lines.extend((0..15).map(|slot| write(1, slot, &format!("W 0 {slot}"))));
    lines.push(write(1, 15, "W 7 -"));
    check(&lines);
    let blocks = shown(&(written(1, 0, 15) + "S\nM 4\nM 3\n"));
    assert!(blocks[0].starts_with("0100000000000000e601"));
    assert!(blocks[1].starts_with("02000000000000002c00031f000e000e00"));
}

/// #104: a commit record still fits behind them.
#[test]
fn fourteen_versions_use_486_bytes() {
    let text = written(3, 300, 14);
    let blocks = shown(&(text + "S\nM 4\nC 1 10\nM 3\nS\nM 3\nM 4\n"));
    // Sequence 1, 486 bytes used; with the commit 505, and no second block.
    assert!(blocks[0].starts_with("0100000000000000e601"));
    assert!(blocks[3].starts_with("0100000000000000f901"));
    assert_eq!(blocks[3][2 * 486..][..6], *"021000");
    assert!([&blocks[1], &blocks[2]].map(|block| block == &"0".repeat(1024)) == [true; 2]);
}

/// #104: tag 3, body 31: slot, record, kind, earlier slot, number, value; and the slot's high byte.
#[test]
fn a_record_number_of_two_bytes() {
    let blocks = shown(&(written(1, 1023, 1) + "S\nM 4\nP 0\nM 5\n"));
    let record = format!("031f000000ff0300ffff0100000000000000{VALUE}");
    assert_eq!(blocks[0][20..][..2 * 34], record);
    let slot = format!("01ff0003ffff00000100000000000000{VALUE}");
    assert_eq!(blocks[1][64..][..64], slot);
}

/// #104.
#[test]
fn twenty_eight_versions_fit_two_blocks() {
    let mut lines = exchange(2, 3, &[("B 10", "B 0 1")]);
    lines.extend((0..28).map(|slot| write(1, slot, &format!("W 0 {slot}"))));
    lines.push(write(1, 28, "W 8 -"));
    check(&lines);
}

#[test]
fn erase_of_a_never_written_record() {
    check(&exchange(
        2,
        1,
        &[
            ("B 10", "B 0 1"),
            ("E 1 9", "E 0 0"),
            ("C 1 1", "C 0 10"),
            ("S", "S 0 0"),
            ("Q 9 10", "Q 0 erased"),
            ("Q 9 9", "Q 0 none"),
        ],
    ));
}

/// Once answered, a time's strip stays, though a cut takes what was not stored.
#[test]
fn as_of_answers_survive_a_cut() {
    let commit = [
        ("B 10", "B 0 1"),
        ("W 1 7 VALUE", "W 0 0"),
        ("C 1 10", "C 0 10"),
    ];
    let not_stored = [
        ("Q 7 10", "Q 10 -"),
        ("L 7 0 10 32", "L 10 -"),
        ("X", "X 0 0"),
        ("O 1", "O 0 0"),
        ("B 10", "B 0 1"),
        ("W 1 7 OTHER", "W 0 0"),
        ("C 1 10", "C 0 10"),
        ("Q 7 10", "Q 10 -"),
    ];
    let listed = "L 0 1\n10 0 VALUE\n= kept";
    let stored = [
        ("S", "S 0 0"),
        ("Q 7 10", "Q 0 VALUE"),
        ("L 7 0 10 32", listed),
        ("X", "X 0 0"),
        ("O 1", "O 0 10"),
        ("B 10", "B 0 2"),
        ("W 2 7 OTHER", "W 0 1"),
        ("C 2 10", "C 0 11"),
        ("Q 7 10", "Q 0 VALUE"),
        ("L 7 0 10 32", listed),
        ("Q 7 11", "Q 10 -"),
    ];
    check(&exchange(2, 1, &[&commit[..], &not_stored].concat()));
    check(&exchange(2, 1, &[&commit[..], &stored].concat()));
}

#[test]
fn a_version_that_begins_a_block_stores_the_times_before_it() {
    let mut lines = exchange(
        2,
        2,
        &[
            ("B 10", "B 0 1"),
            ("W 1 7 VALUE", "W 0 0"),
            ("C 1 10", "C 0 10"),
            ("B 11", "B 0 2"),
        ],
    );
    // Fourteen versions and a commit leave 7 bytes of the block.
    lines.extend((1..14).map(|slot| write(2, 20 + slot, &format!("W 0 {slot}"))));
    lines.extend(whole(&[
        ("Q 7 10", "Q 10 -"),
        ("W 2 40 VALUE", "W 0 14"),
        ("Q 7 10", "Q 0 VALUE"),
        ("Q 7 11", "Q 10 -"),
        ("X", "X 0 0"),
        ("O 0", "O 0 10"),
        ("Q 7 10", "Q 0 VALUE"),
    ]));
    check(&lines);
}

#[test]
fn a_commit_that_begins_a_block_stores_the_times_before_its_own() {
    let mut lines = exchange(
        2,
        2,
        &[
            ("B 10", "B 0 1"),
            ("B 11", "B 0 2"),
            ("B 12", "B 0 3"),
            ("B 13", "B 0 4"),
            ("W 3 7 VALUE", "W 0 0"),
            ("W 4 8 VALUE", "W 0 1"),
            ("W 2 9 VALUE", "W 0 2"),
        ],
    );
    lines.extend((3..13).map(|slot| write(1, 20 + slot, &format!("W 0 {slot}"))));
    lines.extend(whole(&[
        ("C 1 10", "C 0 10"),
        ("C 2 11", "C 0 11"),
        // Thirteen versions and three commits leave 3 bytes of the block.
        ("C 3 12", "C 0 12"),
        ("Q 7 12", "Q 10 -"),
        ("C 4 13", "C 0 13"),
        ("Q 7 12", "Q 0 VALUE"),
        ("Q 8 12", "Q 0 none"),
        ("Q 8 13", "Q 10 -"),
        ("X", "X 0 0"),
        ("O 0", "O 0 12"),
        ("Q 7 12", "Q 0 VALUE"),
    ]));
    check(&lines);
}

#[test]
fn a_number_without_trace_is_given_again() {
    check(&exchange(
        2,
        1,
        &[
            ("B 10", "B 0 1"),
            ("X", "X 0 0"),
            ("O 255", "O 0 0"),
            ("B 10", "B 0 1"),
        ],
    ));
}

#[test]
fn sixty_four_live() {
    let mut lines = exchange(8, 8, &[]);
    for number in 1..=64 {
        lines.push(("B 1".into(), format!("B 0 {number}")));
    }
    lines.push(("B 1".into(), "B 4 -".into()));
    // Committed ones with waiting versions are live as well.
    for number in 1..=64u64 {
        lines.push(write(number, number, &format!("W 0 {}", number - 1)));
        lines.push((format!("C {number} 1"), format!("C 0 {number}")));
    }
    lines.push(("B 1".into(), "B 4 -".into()));
    lines.push(("S".into(), "S 0 0".into()));
    lines.push(("P 0".into(), "P 0 0".into()));
    lines.push(("B 1".into(), "B 0 65".into()));
    check(&lines);
}

#[test]
fn stripbook_listing() {
    let mut out = Vec::new();
    oracle::script::stripbook::run(b"B 10\nW 1 7 65\nC 1 5\nQ 7 10\nX\nQ 7 10\n", &mut out);
    assert_eq!(out, b"B 0 1\nW 0 0\nC 0 10\nQ 10 -\nX 0 0\nQ 10 -\n");
}

#[test]
fn stripbook_forms() {
    let run = |text: &str| {
        let mut out = Vec::new();
        oracle::script::stripbook::run(text.as_bytes(), &mut out);
        String::from_utf8(out).unwrap()
    };
    assert_eq!(run(""), "");
    assert_eq!(run("\nB 1\n"), "");
    assert_eq!(run("B 007"), "B 0 1\n");
    assert_eq!(run("B 1\nC 1 1\nX\n"), "B 0 1\nC 0 -\nX 0 0\n");
    assert_eq!(run("B 1\nQ 256 0\nB 1\n"), "B 0 1\n");
    assert_eq!(run("B 18446744073709551615\nB  1\n"), "B 0 1\n");
    assert_eq!(run("B 18446744073709551616\n"), "");
    assert_eq!(run("X \n"), "");
    assert_eq!(run("B 1\r\n"), "");
}

#[test]
fn list_of_changes() {
    let lines = "F 4 2\nO 0\nB 5\nW 1 7 VALUE\nC 1 5\nB 6\nW 2 7 VALUE\nC 2 6\nB 7\nE 3 7\nC 3 7\n\
                 S\nL 7 0 7 64\nL 7 6 7 33\nL 7 0 7 63\nL 7 0 8 64\nL 7 7 0 0\n";
    let mut out = Vec::new();
    script::run(lines.replace("VALUE", VALUE).as_bytes(), &mut out);
    let out = String::from_utf8(out).unwrap();
    let zeros = "0".repeat(32);
    let expected = format!(
        "L 0 2\n5 0 {VALUE}\n7 1 {zeros}\n= kept\nL 0 1\n7 1 {zeros}\n= kept\n\
         L 14 -\nL 10 -\nL 0 0\n= kept\n"
    );
    assert_eq!(&out[out.find('L').unwrap()..], expected);
}
