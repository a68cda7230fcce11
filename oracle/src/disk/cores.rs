//! Work dealt out to the cores of the machine.

use std::sync::atomic::{AtomicUsize, Ordering};

/// As many bits as the C library's own set of cores has.
const WORDS: usize = 16;

extern "C" {
    fn sched_getaffinity(thread: i32, bytes: usize, cores: *mut u64) -> i32;
    fn sched_setaffinity(thread: i32, bytes: usize, cores: *const u64) -> i32;
}

/// How many there are for this process.
pub fn cores() -> usize {
    std::thread::available_parallelism().map_or(1, usize::from)
}

/// Keeps this thread and the processes that it starts on one of its cores: those that take turns need no second one, and
/// to wake it takes longer than most lines. Without an answer of the system they stay where they are.
fn stay(turn: usize) {
    let mut allowed = [0u64; WORDS];
    let bytes = std::mem::size_of_val(&allowed);
    // 0 is this thread, and both sets have the length that is given.
    if unsafe { sched_getaffinity(0, bytes, allowed.as_mut_ptr()) } < 0 {
        return;
    }
    let is_allowed = |core: &usize| allowed[core / 64] >> (core % 64) & 1 == 1;
    let cores: Vec<usize> = (0..64 * WORDS).filter(is_allowed).collect();
    if cores.is_empty() {
        return;
    }
    let core = cores[turn % cores.len()];
    let mut one = [0u64; WORDS];
    one[core / 64] = 1 << (core % 64);
    unsafe { sched_setaffinity(0, bytes, one.as_ptr()) };
}

/// Each of so many jobs is done once, by the first worker that is free; after a failure no further one begins. Every
/// worker has a core and what it works with.
pub fn deal<W: Sync, T: Send + Default>(
    workers: &[W],
    jobs: usize,
    work: impl Fn(&W, usize, &mut T) -> Result<(), String> + Sync,
) -> Result<Vec<T>, String> {
    let next = AtomicUsize::new(0);
    let each = |turn: usize, worker: &W| {
        stay(turn);
        let mut done = T::default();
        loop {
            let job = next.fetch_add(1, Ordering::Relaxed);
            if job >= jobs {
                return Ok(done);
            }
            if let Err(complaint) = work(worker, job, &mut done) {
                next.store(jobs, Ordering::Relaxed);
                return Err(complaint);
            }
        }
    };
    std::thread::scope(|scope| {
        let each = &each;
        let workers = workers.iter().enumerate();
        let threads: Vec<_> = workers
            .map(|(turn, worker)| scope.spawn(move || each(turn, worker)))
            .collect();
        let ended = threads.into_iter().map(|thread| thread.join());
        ended
            .map(|result| result.unwrap_or_else(|_| Err("a worker panicked".into())))
            .collect()
    })
}
