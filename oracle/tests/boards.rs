//! Handovers (request #101) in random histories, and wrong ones, each of which must be found out.

use oracle::disk::room::{Change, Room, Turn};
use oracle::fuzz::shrink::failure;
use oracle::fuzz::{report, run_seed, Handovers};
use oracle::handover::boards::*;
use oracle::history::profiles::{by_name, Profile};
use oracle::history::History;
use oracle::judge::Strictness;
use oracle::script::machine::Line;
use oracle::script::put_line;
use oracle::store::layout::changed_blocks;
use oracle::store::rules::{Rules, Sound};
use std::collections::BTreeMap;

fn sectors() -> &'static Profile {
    by_name("sectors").unwrap()
}

#[test]
fn sectors_hand_flights_about() {
    let mut all = Handovers::default();
    for seed in 1000..1040 {
        match run_seed::<Sound>(seed, sectors(), 1500, Strictness::All) {
            Ok(reached) => all.add(&reached.handovers),
            Err(found) => panic!("{}", report::<Sound>(seed, &found, Strictness::All)),
        }
    }
    println!("{all}");
    assert!(all.tried > 20_000 && all.handed > 4_000);
    for (refusal, least) in [
        (4, 20),
        (6, 500),
        (7, 1000),
        (8, 1000),
        (9, 200),
        (17, 5000),
        (18, 200),
    ] {
        let count = all.refused[refusal];
        assert!(count >= least, "{count} refused {refusal}, not {least}");
    }
    assert!(all.stored > 200 && all.left[8] > 10 && all.left[9] > 200);
}

/// What a file must take over after a handover is one block or none, and it is all that changed.
#[test]
fn on_a_file_a_handover_is_one_block_or_none() {
    let mut counts = [0; 2];
    for seed in 0..10 {
        let mut history = History::new(seed, sectors());
        let mut room = Room::load(None);
        for _ in 0..600 {
            let line = history.next_line(&room.machine);
            let before = room.file.clone().unwrap_or_default();
            let mut text = Vec::new();
            put_line(&mut text, &line);
            let turn = room.play(text.strip_suffix(b"\n").unwrap(), &mut Vec::new());
            let file = room.file.as_ref().unwrap();
            assert!(*file == room.machine.medium);
            if let Line::Hand(_) = line {
                let changed = changed_blocks(file, &before);
                let told = match turn {
                    Turn::Played(Change::Nothing) => 0,
                    Turn::Played(Change::Part { .. }) => 1,
                    _ => panic!("{turn:?}"),
                };
                assert_eq!(changed, told);
                counts[told] += 1;
            }
        }
    }
    println!(
        "{} handovers changed nothing, {} one block",
        counts[0], counts[1]
    );
    assert!(counts[0] > 1000 && counts[1] > 20);
}

const SEEDS: u64 = 20;

/// A complaint without its numbers.
fn kind(complaint: &str) -> String {
    let end = complaint.find([',', '{', '[']).unwrap_or(complaint.len());
    let words = complaint[..end].chars().filter(|c| !c.is_ascii_digit());
    words.collect()
}

/// A wrong handover is found out, and on some seed by this complaint.
fn must_be_caught<R: Rules>(name: &str, strictness: Strictness, complaint: &str) {
    let judged = (0..SEEDS).filter_map(|seed| {
        let run = run_seed::<R>(seed, sectors(), 600, strictness);
        run.err().map(|found| (seed, found))
    });
    let all: Vec<_> = judged.collect();
    let by_this = all
        .iter()
        .filter(|(_, found)| found.complaint.contains(complaint));
    let count = by_this.clone().count();
    let mut complaints = BTreeMap::new();
    for (_, found) in &all {
        *complaints.entry(kind(&found.complaint)).or_insert(0) += 1;
    }
    println!(
        "{name}: caught on {} of {SEEDS} seeds: {complaints:?}",
        all.len()
    );
    assert!(count > 0, "{name} is not caught by {complaint:?}");
    let shortest = by_this.min_by_key(|(_, found)| found.lines.len());
    let (seed, found) = shortest.unwrap_or_else(|| panic!("{name} is not caught"));
    println!("{}", report::<R>(*seed, found, strictness));
    // The same history does not trouble the sound one.
    assert!(failure::<Sound>(&found.lines, Strictness::All).is_none());
}

#[test]
fn the_old_board_is_caught() {
    must_be_caught::<OldBoard>("old board", Strictness::Book, "handover: no owner");
}

#[test]
fn a_check_left_out_is_caught() {
    must_be_caught::<Unchecked>("unchecked", Strictness::Book, "handover: read otherwise");
    must_be_caught::<AnyOwner>("any owner", Strictness::Book, "handover: from ");
    must_be_caught::<FromNobody>("from nobody", Strictness::Book, "handover: from 0 ");
    must_be_caught::<ToNobody>("to nobody", Strictness::Book, "handover: no owner");
}

#[test]
fn an_abort_left_out_is_caught() {
    must_be_caught::<NoAbort>("no abort", Strictness::Book, "handover: read otherwise");
    must_be_caught::<AbortAnswered>("abort answered", Strictness::Book, "the rows are []");
}

#[test]
fn other_bytes_are_caught() {
    must_be_caught::<OtherStrip>("other strip", Strictness::Book, "handover: read otherwise");
}

#[test]
fn another_flight_is_caught() {
    must_be_caught::<OtherFlight>("other flight", Strictness::Book, "handover: read otherwise");
}

#[test]
fn another_time_is_caught() {
    must_be_caught::<OneClock>("one clock", Strictness::Book, "handover: at ");
}

#[test]
fn a_second_store_is_caught() {
    must_be_caught::<StoredAtOnce>("stored at once", Strictness::Book, "blocks changed");
}

#[test]
fn a_second_version_is_caught() {
    must_be_caught::<TriedAgain>("tried again", Strictness::Book, "the rows are");
    must_be_caught::<TriedAgain>("tried again", Strictness::All, "it leaves something else");
}

/// These keep every promise about the strips, and answer another number.
#[test]
fn other_refusals_are_caught() {
    must_be_caught::<CheckedFirst>("checked first", Strictness::All, "the rows say");
    must_be_caught::<NotToItself>("not to itself", Strictness::All, "the rows say");
    let book = Strictness::Book;
    assert!((0..SEEDS).all(|seed| run_seed::<CheckedFirst>(seed, sectors(), 600, book).is_ok()));
}
