//! Preloaded (LD_PRELOAD) into a program under test. By environment variables it
//!
//! - notes each call in a file: `DISK_TRACE=PATH`, a line `name fd offset length` before the call;
//! - ends the process by SIGKILL: `DISK_KILL='before pwrite 3'` or `'after fdatasync 1'`;
//! - lets a call fail: `DISK_FAIL='pwrite 3 28'` (an errno) or `'pwrite 3 short 100'` (so many bytes).
//!
//! Names are open (for update, or making a file), pread, pwrite, ftruncate, fdatasync, fsync (its
//! offset is the number of the file or folder) and write (to standard output). Each is counted from 1.

mod plan;

use plan::{around, note, real, Name};
use std::ffi::{c_char, c_int, c_void};
use std::fs::File;
use std::mem::ManuallyDrop;
use std::os::fd::FromRawFd;
use std::os::unix::fs::MetadataExt;

/// Access modes other than reading alone, and making a file.
const UPDATES: c_int = 0o103;

type Open = extern "C" fn(*const c_char, c_int, c_int) -> c_int;
type Read = extern "C" fn(c_int, *mut c_void, usize, i64) -> isize;
type Write = extern "C" fn(c_int, *const c_void, usize, i64) -> isize;
type Plain = extern "C" fn(c_int, *const c_void, usize) -> isize;
type Resize = extern "C" fn(c_int, i64) -> c_int;
type Sync = extern "C" fn(c_int) -> c_int;

fn opened(path: *const c_char, flags: c_int, mode: c_int) -> c_int {
    // The address is that of the C library's function of this type.
    let call: Open = unsafe { std::mem::transmute(real(Name::Open)) };
    if flags & UPDATES == 0 {
        return call(path, flags, mode);
    }
    around(Name::Open, [-1, 0, 0], |_| call(path, flags, mode) as isize) as c_int
}

fn read_at(fd: c_int, to: *mut c_void, count: usize, at: i64) -> isize {
    let call: Read = unsafe { std::mem::transmute(real(Name::Pread)) };
    around(Name::Pread, [fd.into(), at, count as i64], |short| {
        call(fd, to, short.unwrap_or(count).min(count), at)
    })
}

fn write_at(fd: c_int, from: *const c_void, count: usize, at: i64) -> isize {
    let call: Write = unsafe { std::mem::transmute(real(Name::Pwrite)) };
    around(Name::Pwrite, [fd.into(), at, count as i64], |short| {
        call(fd, from, short.unwrap_or(count).min(count), at)
    })
}

fn resize(fd: c_int, length: i64) -> c_int {
    let call: Resize = unsafe { std::mem::transmute(real(Name::Ftruncate)) };
    around(Name::Ftruncate, [fd.into(), 0, length], |_| {
        call(fd, length) as isize
    }) as c_int
}

/// A function under both of its names in the C library, the second for files of any length.
macro_rules! exported {
    ($($name:ident, $long:ident, $call:ident($($part:ident: $kind:ty),*) -> $result:ty;)*) => {$(
        #[no_mangle]
        pub extern "C" fn $name($($part: $kind),*) -> $result {
            $call($($part),*)
        }

        #[no_mangle]
        pub extern "C" fn $long($($part: $kind),*) -> $result {
            $call($($part),*)
        }
    )*};
}

exported! {
    open, open64, opened(path: *const c_char, flags: c_int, mode: c_int) -> c_int;
    pread, pread64, read_at(fd: c_int, to: *mut c_void, count: usize, at: i64) -> isize;
    pwrite, pwrite64, write_at(fd: c_int, from: *const c_void, count: usize, at: i64) -> isize;
    ftruncate, ftruncate64, resize(fd: c_int, length: i64) -> c_int;
}

#[no_mangle]
pub extern "C" fn fdatasync(fd: c_int) -> c_int {
    let call: Sync = unsafe { std::mem::transmute(real(Name::Fdatasync)) };
    around(Name::Fdatasync, [fd.into(), 0, 0], |_| call(fd) as isize) as c_int
}

#[no_mangle]
pub extern "C" fn fsync(fd: c_int) -> c_int {
    let call: Sync = unsafe { std::mem::transmute(real(Name::Fsync)) };
    // It is lent: the program closes it.
    let file = ManuallyDrop::new(unsafe { File::from_raw_fd(fd) });
    let number = file.metadata().map_or(0, |about| about.ino());
    around(Name::Fsync, [fd.into(), number as i64, 0], |_| {
        call(fd) as isize
    }) as c_int
}

#[no_mangle]
pub extern "C" fn write(fd: c_int, from: *const c_void, count: usize) -> isize {
    let call: Plain = unsafe { std::mem::transmute(real(Name::Write)) };
    let noted = [fd.into(), 0, count as i64];
    if fd != 1 {
        note(Name::Write, noted);
        return call(fd, from, count);
    }
    around(Name::Write, noted, |short| {
        call(fd, from, short.unwrap_or(count).min(count))
    })
}
