//! How long single events of the mixed row take.
use crate::ours::{Ours, Told};
use crate::stream::Stream;
use crate::{clock, median, play, workloads};

/// The row in the files.
pub const NAME: &str = "single events";

/// Of the events, in order of their times, the one at each of these shares is told.
pub const SHARES: [(&str, f64); 4] = [("p50", 0.5), ("p99", 0.99), ("p99.9", 0.999), ("max", 1.0)];

/// Makes each timed call a stretch of its own, with an empty stretch behind it.
fn single(mut s: Stream) -> Stream {
    let first = s.ends[0];
    s.ends = (first + 1..=s.calls.len() as u64).fold(vec![first], |mut ends, end| {
        ends.extend([end, end]);
        ends
    });
    s
}

/// The times at the shares. An event's time is its median over the rounds, less that of an empty stretch.
fn at_shares(rounds: &[(Vec<f64>, Vec<f64>)]) -> Vec<f64> {
    let empty = median(rounds.iter().flat_map(|it| it.1.iter().copied()).collect());
    let of_event = |i: usize| median(rounds.iter().map(|it| it.0[i]).collect()) - empty;
    let mut times: Vec<f64> = (0..rounds[0].0.len()).map(of_event).collect();
    times.sort_by(f64::total_cmp);
    SHARES.map(|(_, share)| times[((times.len() - 1) as f64 * share) as usize]).to_vec()
}

/// Nanoseconds at the shares, of ours and of plain.
pub fn measure(rounds: usize) -> [Vec<f64>; 2] {
    let s = single(workloads::mixed_row());
    let ours = Ours::new(&s);
    let mut told = vec![Told::default(); s.calls.len()];
    let mut replies = Vec::with_capacity(s.calls.len());
    let (mut a, mut b) = (Vec::new(), Vec::new());
    // The first round makes the clock's list as long as it gets.
    for round in 0..=rounds {
        ours.play(&s, &mut told);
        let x = clock::single();
        play(&s, &mut replies);
        let y = clock::single();
        if round > 0 {
            a.push(x);
            b.push(y);
        }
    }
    [at_shares(&a), at_shares(&b)]
}
