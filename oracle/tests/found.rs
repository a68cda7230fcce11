//! What the tests of `striproom` rest on: a file is read as it is now, and every job is done once.

use oracle::disk::cores::deal;
use oracle::disk::found::Found;
use oracle::disk::process::Folder;
use std::fs;
use std::sync::atomic::{AtomicU64, Ordering};

#[test]
fn a_file_is_found_as_it_is_now() {
    let folder = Folder::new(&std::env::temp_dir()).unwrap();
    let (path, other) = (folder.join("room"), folder.join("other"));
    let mut found = Found::new(&path);
    let mut finds = |bytes: Option<&[u8]>| assert_eq!(found.bytes().unwrap(), bytes);
    finds(None);
    fs::write(&path, "").unwrap();
    finds(Some(b""));
    fs::write(&path, "one").unwrap();
    finds(Some(b"one"));
    fs::write(&path, "longer").unwrap();
    finds(Some(b"longer"));
    fs::write(&path, "two").unwrap();
    finds(Some(b"two"));
    // Another file under its name, of the same length.
    fs::write(&other, "six").unwrap();
    fs::rename(&other, &path).unwrap();
    finds(Some(b"six"));
    fs::remove_file(&path).unwrap();
    finds(None);
    fs::write(&path, "new").unwrap();
    finds(Some(b"new"));
}

#[test]
fn each_job_is_done_once() {
    let work = |_: &(), job: usize, done: &mut Vec<usize>| {
        done.push(job);
        Ok(())
    };
    let mut done = deal(&[(), (), ()], 1000, work).unwrap().concat();
    done.sort();
    assert_eq!(done, (0..1000).collect::<Vec<_>>());
}

#[test]
fn a_failure_is_told_and_ends_the_work() {
    let begun = AtomicU64::new(0);
    let work = |_: &(), job: usize, _: &mut ()| {
        begun.fetch_add(1, Ordering::Relaxed);
        match job {
            7 => Err("seven".to_string()),
            _ => Ok(()),
        }
    };
    assert_eq!(deal(&[()], 1000, work).unwrap_err(), "seven");
    assert_eq!(begun.into_inner(), 8);
}
