//! A fixed set of seeds: random histories against the book, damaged media, scripts.

use oracle::bench::commits::{commits, commits_script};
use oracle::bench::filler::Size;
use oracle::bench::growth::growth_script;
use oracle::bench::rooms::rooms_script;
use oracle::damage::{self, Tally};
use oracle::fuzz::{report, run_seed, Reached};
use oracle::history::profiles::{by_name, by_seed, PROFILES};
use oracle::history::scripts::{script, stripbook_script, Options};
use oracle::judge::Strictness;
use oracle::store::rules::Sound;

#[test]
fn histories_agree_with_the_book() {
    let mut all = Reached::default();
    for seed in 0..300 {
        match run_seed::<Sound>(seed, by_seed(seed), 1500, Strictness::All) {
            Ok(reached) => all.add(&reached),
            Err(found) => panic!("{}", report::<Sound>(seed, &found, Strictness::All)),
        }
    }
    println!("{all:?}\n{}", all.handovers);
    // What a run can be refused for by a history, each at least once.
    for refusal in [2, 4, 5, 6, 7, 8, 9, 10, 11, 12, 13, 14, 17, 18] {
        assert!(
            all.refusals[refusal] > 0,
            "refusal {refusal} never occurred"
        );
    }
    assert!(all.refusals[18] > 5_000 && all.high_records > 20_000);
    assert_eq!(all.live_commits, 64);
    assert!(all.table_pairs > 32);
    assert!(all.torn > 0 && all.none_matched > 0);
    assert!(all.places_reused > 0 && all.begun_over_dead > 0);
    assert!(all.unstored > 0 && all.asked_again > 0);
    // And every refusal that a handover can answer in a run, in profiles of all kinds.
    for refusal in [4, 6, 7, 8, 9, 17, 18] {
        let count = all.handovers.refused[refusal];
        assert!(count > 0, "no handover was refused {refusal}");
    }
    assert!(all.handovers.handed > 5000 && all.handovers.stored > 200);
}

#[test]
fn damaged_media_break_every_condition() {
    let mut all = Tally::default();
    for seed in 0..60 {
        all.add(&damage::run_seed(seed).unwrap());
    }
    println!("{all:?}");
    assert!(all.every_condition_failed());
}

fn options(seed: u64) -> Options {
    Options {
        seed,
        calls: 200,
        profile: by_seed(seed),
        checkpoints: true,
        shows: true,
        damage: false,
        restarts: 0,
    }
}

fn answers(script: &[u8]) -> Vec<u8> {
    let mut out = Vec::new();
    oracle::script::run(script, &mut out);
    out
}

/// Lines that stand for a call or a show; the lines of a list are no answers of their own.
fn answered(out: &[u8]) -> usize {
    let lines = out.split(|&byte| byte == b'\n');
    lines
        .filter(|line| line.first().is_some_and(u8::is_ascii_alphabetic))
        .count()
}

#[test]
fn scripts_run_to_their_end() {
    for seed in 0..2 * PROFILES.len() as u64 {
        for damage in [false, true] {
            let text = script(&Options {
                damage,
                ..options(seed)
            });
            let lines = text.iter().filter(|&&byte| byte == b'\n').count();
            assert_eq!(answered(&answers(&text)), lines, "seed {seed}");
        }
    }
}

#[test]
fn scripts_without_checkpoints_have_none() {
    for seed in 0..PROFILES.len() as u64 {
        let text = script(&Options {
            checkpoints: false,
            ..options(seed)
        });
        assert!(!text.split(|&byte| byte == b'\n').any(|line| line == b"K"));
    }
}

#[test]
fn stripbook_scripts_end_at_a_line_of_another_form() {
    for seed in 0..40 {
        let whole = stripbook_script(seed, 100, false);
        let ended = stripbook_script(seed, 100, true);
        let (mut out, mut same) = (Vec::new(), Vec::new());
        oracle::script::stripbook::run(&whole, &mut out);
        oracle::script::stripbook::run(&ended, &mut same);
        assert_eq!(out, same);
        assert_eq!(out.iter().filter(|&&byte| byte == b'\n').count(), 100);
    }
}

/// Their log is stored by full blocks alone, so cuts may leave no time to ask for.
#[test]
fn stripbook_scripts_find_strips_of_stored_times() {
    for seed in 0..40 {
        let mut out = Vec::new();
        oracle::script::stripbook::run(&stripbook_script(seed, 2000, false), &mut out);
        let mut lines = out.split(|&byte| byte == b'\n');
        let found = lines.any(|line| line.starts_with(b"Q 0 ") && !line.ends_with(b"-"));
        assert!(found, "seed {seed}");
    }
}

/// No refusal among the answers, and as many as lines.
fn all_accepted(script: &[u8]) -> bool {
    let out = answers(script);
    let lines = script.iter().filter(|&&byte| byte == b'\n').count();
    let refused = out
        .split(|&byte| byte == b'\n')
        .any(|line| line.ends_with(b" -"));
    answered(&out) == lines && !refused
}

#[test]
fn rooms_are_filled_and_no_call_is_refused() {
    let script = rooms_script(7, 20_000);
    assert!(all_accepted(&script));
    for letter in b"FOXBWERCAQLSPK" {
        let mut lines = script.split(|&byte| byte == b'\n');
        assert!(lines.any(|line| line.first() == Some(letter)));
    }
    let out = answers(&script);
    let mut lines = out.split(|&byte| byte == b'\n');
    assert!(lines.any(|line| line == b"W 0 957"));
}

#[test]
fn each_commit_of_a_filled_room_is_followed_by_its_store() {
    let script = commits_script(2);
    assert!(all_accepted(&script));
    let lines: Vec<&[u8]> = script.split(|&byte| byte == b'\n').collect();
    let stored = lines.windows(2).filter(|pair| pair[0].starts_with(b"C"));
    assert!(stored.clone().all(|pair| pair[1] == b"S"));
    assert_eq!(stored.count(), 2 * 960);
    let slots = commits(&script).into_iter().map(|commit| commit.slot);
    assert!(slots.eq((0..960).chain(0..960)));
}

#[test]
fn calls_over_a_filled_medium_are_accepted() {
    for (log_blocks, pages, chain) in [(2, 1, 15), (2, 64, 15), (5, 7, 4), (32, 64, 960)] {
        let size = Size {
            log_blocks,
            pages,
            chain,
        };
        for letter in *b"OQLPZ" {
            let script = growth_script(size, letter, 3).unwrap();
            assert!(all_accepted(&script), "{size:?} {letter}");
        }
        assert!(growth_script(size, b'B', 3).is_none());
    }
}

#[test]
fn every_profile_has_its_name() {
    for profile in &PROFILES {
        assert!(by_name(profile.name).is_some_and(|found| std::ptr::eq(found, profile)));
    }
}
