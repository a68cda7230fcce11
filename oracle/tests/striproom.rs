//! What `striproom` must do where `replay` says nothing: the file that is missing, empty, cut, or kept.

use oracle::disk::room::{Change, Room, Turn};
use oracle::store::layout::BLOCK;

fn play(room: &mut Room, line: &str) -> (Turn, String) {
    let mut text = Vec::new();
    let turn = room.play(line.as_bytes(), &mut text);
    (turn, String::from_utf8_lossy(&text).into_owned())
}

fn plays(room: &mut Room, line: &str, change: Change, answer: &str) {
    let (turn, text) = play(room, line);
    assert_eq!(
        (turn, text.trim()),
        (Turn::Played(change), answer),
        "{line}"
    );
}

#[test]
fn a_missing_file_is_made_by_an_accepted_format_alone() {
    for line in ["O 0", "X", "M 0", "F 1 1", "F 2 65", "f 2 1", ""] {
        let mut room = Room::load(None);
        assert_eq!(
            play(&mut room, line),
            (Turn::NoFile, String::new()),
            "{line}"
        );
        assert_eq!(room.file, None);
    }
    let mut room = Room::load(None);
    plays(
        &mut room,
        "F 2 1",
        Change::Whole { length: 6 * BLOCK },
        "F 0 0",
    );
    assert_eq!(room.file.map(|file| file.len()), Some(6 * BLOCK));
}

#[test]
fn a_refused_format_leaves_the_file_and_no_medium() {
    let mut room = Room::load(None);
    play(&mut room, "F 2 1");
    let file = room.file.clone();
    plays(&mut room, "F 1 1", Change::Nothing, "F 1 -");
    assert_eq!(play(&mut room, "O 0").0, Turn::Ended);
    assert_eq!(room.file, file);
    plays(&mut Room::load(file), "O 0", Change::Nothing, "O 0 0");
}

#[test]
fn a_file_below_a_block_names_no_sizes() {
    for length in [0, 1, BLOCK - 1] {
        let mut room = Room::load(Some(vec![7; length]));
        plays(&mut room, "O 0", Change::Nothing, "O 1 -");
        plays(&mut room, "o 0", Change::Nothing, "o 1 -");
        plays(&mut room, "M 0", Change::Nothing, "M -");
        plays(&mut room, "V 0", Change::Nothing, "V -");
        plays(&mut room, "X", Change::Nothing, "X 0 0");
        assert_eq!(play(&mut room, "B 1").0, Turn::Ended);
    }
}

#[test]
fn of_a_block_that_the_end_cuts_the_bytes_that_exist_are_written() {
    let mut room = Room::load(Some(vec![7; BLOCK + 100]));
    let cut = Change::Part {
        at: BLOCK,
        length: 100,
    };
    plays(&mut room, "Z 600 01", cut, "Z 0 0");
    plays(&mut room, "Z 600 01", Change::Nothing, "Z 0 0");
    plays(&mut room, "Z 612 01", Change::Nothing, "Z 0 0");
    assert_eq!(
        room.file.map(|file| (file.len(), file[600])),
        Some((BLOCK + 100, 1))
    );
}

#[test]
fn sizes_are_those_of_the_start_until_a_format() {
    let mut room = Room::load(None);
    play(&mut room, "F 2 1");
    let block = Change::Part {
        at: 0,
        length: BLOCK,
    };
    plays(&mut room, "Z 3 05", block, "Z 0 0");
    plays(&mut room, "O 0", Change::Nothing, "O 3 -");
    plays(&mut Room::load(room.file), "O 0", Change::Nothing, "O 1 -");
}

#[test]
fn a_new_process_knows_the_file_alone() {
    let mut room = Room::load(None);
    let same =
        |room: &Room, lines: [&str; 6]| lines.map(|line| room.needs_no_past(line.as_bytes()));
    let lines = ["F 2 1", "O 0", "o 0", "X", "M 0", "B 1"];
    play(&mut room, "F 2 1");
    assert_eq!(same(&room, lines), [true; 6], "closed");
    play(&mut room, "O 0");
    // A cache of no bytes is refused, and what is open stays.
    let open = [true, true, false, true, false, false];
    assert_eq!(same(&room, lines), open, "open");
    play(&mut room, "Z 3 09");
    let only_format = [true, false, false, false, false, false];
    assert_eq!(same(&room, lines), only_format, "other sizes named");
    play(&mut room, "Z 3 02");
    assert_eq!(same(&room, lines), open, "the old ones again");
    play(&mut room, "F 1 1");
    assert_eq!(same(&room, lines), only_format, "a refused format");
}
