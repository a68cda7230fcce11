//! Stores that take the record numbers of request #104 wrongly, each of which must be caught.

use oracle::fuzz::shrink::failure;
use oracle::fuzz::{report, run_seed, Disagreement};
use oracle::history::profiles::by_seed;
use oracle::judge::Strictness;
use oracle::store::rules::{Rules, Sound};
use oracle::store::widths::*;

const SEEDS: u64 = 15;
const CALLS: u64 = 600;

/// Caught on some seed by this complaint, and the sound store is not troubled by that history.
fn must_be_caught<R: Rules>(name: &str, strictness: Strictness, complaint: &str) {
    let judged = (0..SEEDS).filter_map(|seed| {
        let run = run_seed::<R>(seed, by_seed(seed), CALLS, strictness);
        run.err().map(|found| (seed, *found))
    });
    let all: Vec<(u64, Disagreement)> = judged.collect();
    let by_this = all
        .iter()
        .filter(|(_, found)| found.complaint.contains(complaint));
    println!(
        "{name}: caught on {} of {SEEDS} seeds, on {} by this",
        all.len(),
        by_this.clone().count()
    );
    let shortest = by_this.min_by_key(|(_, found)| found.lines.len());
    let complaints = || all.iter().map(|(_, found)| &found.complaint);
    let (seed, found) = shortest.unwrap_or_else(|| panic!("{:?}", Vec::from_iter(complaints())));
    println!("{}", report::<R>(*seed, found, strictness));
    assert!(failure::<Sound>(&found.lines, Strictness::All).is_none());
}

#[test]
fn a_high_byte_that_is_not_written_is_caught() {
    must_be_caught::<HighNotWritten>("slot", Strictness::Book, "the book");
    must_be_caught::<HighNotLogged>("log", Strictness::Book, "after a cut: ");
}

#[test]
fn a_high_byte_that_is_not_read_is_caught() {
    must_be_caught::<HighNotRead>("not read", Strictness::Book, "the book");
}

#[test]
fn a_record_too_many_is_caught() {
    let name = "1,024 accepted";
    must_be_caught::<OneMoreTaken>(name, Strictness::Book, "after a cut: refused");
    must_be_caught::<OneMoreTaken>(name, Strictness::All, "refusal None, the rows say");
}

#[test]
fn the_other_length_is_caught() {
    must_be_caught::<ShortLength>("tag 1's length", Strictness::Book, "after a cut: refused");
}

/// Where numbers are below 256, the places in the log and so the pages tell of it.
#[test]
fn the_old_tag_is_caught() {
    must_be_caught::<OldTag>("tag 1", Strictness::Book, "after a cut: slot");
    must_be_caught::<OldTag>("tag 1", Strictness::All, "is not what the rows say");
}

#[test]
fn another_order_of_the_questions_is_caught() {
    let complaint = "the rows say Refused(Refusal(18))";
    must_be_caught::<NumberFirst>("18 after 5", Strictness::All, complaint);
    must_be_caught::<TimeFirst>("18 after 10", Strictness::All, complaint);
    for (name, caught) in [
        ("18 after 5", caught_by_book::<NumberFirst>()),
        ("18 after 10", caught_by_book::<TimeFirst>()),
    ] {
        assert!(!caught, "{name} spoils no history");
    }
}

fn caught_by_book<R: Rules>() -> bool {
    (0..SEEDS).any(|seed| run_seed::<R>(seed, by_seed(seed), CALLS, Strictness::Book).is_err())
}
