//! What is asked for by the environment, and the calls counted so far.

use std::ffi::{c_char, c_int, c_void, CStr, CString};
use std::sync::atomic::{AtomicPtr, AtomicU64, Ordering};
use std::sync::OnceLock;

extern "C" {
    fn dlsym(library: *mut c_void, name: *const c_char) -> *mut c_void;
    fn fcntl(fd: c_int, command: c_int, number: c_int) -> c_int;
    fn close(fd: c_int) -> c_int;
    fn kill(process: c_int, signal: c_int) -> c_int;
    fn getpid() -> c_int;
    fn __errno_location() -> *mut c_int;
}

/// The next library in the order of loading.
const NEXT: *mut c_void = -1isize as *mut c_void;
const SIGKILL: c_int = 9;
/// F_DUPFD_CLOEXEC, and a number far from those that a program sees.
const COPY: c_int = 1030;
const FAR: c_int = 200;
/// O_WRONLY, O_CREAT, O_APPEND.
const NOTES: c_int = 0o1 | 0o100 | 0o2000;

const NAMES: [&CStr; 7] = [
    c"open",
    c"pread",
    c"pwrite",
    c"ftruncate",
    c"fdatasync",
    c"fsync",
    c"write",
];

#[derive(Clone, Copy)]
pub enum Name {
    Open,
    Pread,
    Pwrite,
    Ftruncate,
    Fdatasync,
    Fsync,
    Write,
}

impl Name {
    fn text(self) -> &'static str {
        NAMES[self as usize].to_str().unwrap_or_default()
    }
}

#[derive(Clone, Copy, PartialEq)]
enum Fault {
    Errno(c_int),
    Short(usize),
}

struct Plan {
    /// Where calls are noted, or -1.
    notes: c_int,
    /// `before` or `after`, the name, which call.
    kill: Option<(String, String, u64)>,
    fail: Option<(String, u64, Fault)>,
}

static PLAN: OnceLock<Plan> = OnceLock::new();
static COUNTS: [AtomicU64; NAMES.len()] = [const { AtomicU64::new(0) }; NAMES.len()];

/// The C library's own functions, as far as they were looked up.
static REAL: [AtomicPtr<c_void>; NAMES.len()] =
    [const { AtomicPtr::new(std::ptr::null_mut()) }; NAMES.len()];

/// The C library's own function.
pub fn real(name: Name) -> *mut c_void {
    let known = &REAL[name as usize];
    let mut function = known.load(Ordering::Relaxed);
    if function.is_null() {
        function = unsafe { dlsym(NEXT, NAMES[name as usize].as_ptr()) };
        known.store(function, Ordering::Relaxed);
    }
    function
}

fn plan() -> &'static Plan {
    PLAN.get_or_init(|| Plan {
        notes: open_notes().unwrap_or(-1),
        kill: words("DISK_KILL").and_then(|words| match &words[..] {
            [when, name, turn] => Some((when.clone(), name.clone(), turn.parse().ok()?)),
            _ => None,
        }),
        fail: words("DISK_FAIL").and_then(|words| match &words[..] {
            [name, turn, errno] => {
                let fault = Fault::Errno(errno.parse().ok()?);
                Some((name.clone(), turn.parse().ok()?, fault))
            }
            [name, turn, _, count] => {
                let fault = Fault::Short(count.parse().ok()?);
                Some((name.clone(), turn.parse().ok()?, fault))
            }
            _ => None,
        }),
    })
}

fn words(variable: &str) -> Option<Vec<String>> {
    let text = std::env::var(variable).ok()?;
    Some(text.split(' ').map(String::from).collect())
}

fn open_notes() -> Option<c_int> {
    let path = CString::new(std::env::var("DISK_TRACE").ok()?).ok()?;
    type Open = extern "C" fn(*const c_char, c_int, c_int) -> c_int;
    let call: Open = unsafe { std::mem::transmute(real(Name::Open)) };
    let near = call(path.as_ptr(), NOTES, 0o666);
    let far = unsafe { fcntl(near, COPY, FAR) };
    unsafe { close(near) };
    Some(far)
}

pub fn note(name: Name, [fd, at, count]: [i64; 3]) {
    let notes = plan().notes;
    if notes < 0 {
        return;
    }
    let line = format!("{} {fd} {at} {count}\n", name.text());
    type Plain = extern "C" fn(c_int, *const c_void, usize) -> isize;
    let call: Plain = unsafe { std::mem::transmute(real(Name::Write)) };
    call(notes, line.as_ptr().cast(), line.len());
}

/// Ends the process if this is the moment.
fn end_at(when: &str, name: Name, turn: u64) {
    if let Some((asked, call, number)) = &plan().kill {
        if asked == when && call == name.text() && *number == turn {
            unsafe { kill(getpid(), SIGKILL) };
        }
    }
}

/// Makes a call with all that is asked for around it.
pub fn around(name: Name, noted: [i64; 3], call: impl FnOnce(Option<usize>) -> isize) -> isize {
    let turn = COUNTS[name as usize].fetch_add(1, Ordering::Relaxed) + 1;
    note(name, noted);
    end_at("before", name, turn);
    let fault = plan().fail.as_ref().and_then(|(asked, number, fault)| {
        (asked == name.text() && *number == turn).then_some(*fault)
    });
    let result = match fault {
        Some(Fault::Errno(number)) => {
            unsafe { *__errno_location() = number };
            -1
        }
        Some(Fault::Short(count)) => call(Some(count)),
        None => call(None),
    };
    end_at("after", name, turn);
    result
}
