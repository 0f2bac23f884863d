//! Times: the best of many runs, and the loops that a time is compared with.
use std::time::{Duration, Instant};

/// The best time of one call in seconds, from batches of calls that take a millisecond or more, for a third of a second.
pub fn best(mut call: impl FnMut()) -> f64 {
    let mut calls: u32 = 1;
    let mut least = f64::INFINITY;
    let begun = Instant::now();
    let mut batches = 0;
    while batches < 20 || begun.elapsed() < Duration::from_millis(300) {
        let start = Instant::now();
        for _ in 0..calls {
            call();
        }
        let spent = start.elapsed();
        if spent < Duration::from_millis(1) && calls < 1 << 20 {
            calls *= 2;
            continue;
        }
        least = least.min(spent.as_secs_f64() / f64::from(calls));
        batches += 1;
    }
    least
}

/// Writes every entry.
#[inline(never)]
pub fn plain_loop(entries: &mut [u16]) {
    for (k, e) in entries.iter_mut().enumerate() {
        *e = k as u16;
    }
}

/// Writes every entry by a store of its own, the counter staying in a register.
#[inline(never)]
pub fn single_stores(entries: &mut [u16]) {
    for (k, e) in entries.iter_mut().enumerate() {
        // SAFETY: the reference is to an entry of the slice.
        unsafe { std::ptr::write_volatile(e, k as u16) };
    }
}
