//! Where stretches begin and end: the time, and the allocations so far.
use std::cell::RefCell;
use std::time::Instant;

#[derive(Clone, Copy)]
struct Tick {
    time: Instant,
    allocations: u64,
}

thread_local! {
    static TICKS: RefCell<Vec<Tick>> = const { RefCell::new(Vec::new()) };
}

/// Begins anew.
pub fn begin() {
    TICKS.with(|t| t.borrow_mut().clear());
}

/// A stretch begins or ends here. The first one is not timed, the next one is, and so on by turns.
pub fn tick() {
    let allocations = crate::count::allocations();
    TICKS.with(|t| t.borrow_mut().push(Tick { time: Instant::now(), allocations }));
}

/// The nanoseconds and the allocations of the timed stretches.
pub fn timed() -> (f64, f64) {
    TICKS.with(|t| {
        let (mut time, mut allocations) = (0.0, 0);
        for pair in t.borrow()[1..].windows(2).step_by(2) {
            time += ns(pair);
            allocations += pair[1].allocations - pair[0].allocations;
        }
        (time, allocations as f64)
    })
}

/// The nanoseconds of each timed stretch, and of each that is not, but for the first.
pub fn single() -> (Vec<f64>, Vec<f64>) {
    TICKS.with(|t| {
        let each = |from: usize| t.borrow()[from..].windows(2).step_by(2).map(ns).collect();
        (each(1), each(2))
    })
}

fn ns(pair: &[Tick]) -> f64 {
    (pair[1].time - pair[0].time).as_secs_f64() * 1e9
}
