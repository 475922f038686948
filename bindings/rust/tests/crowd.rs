//! Threads whose clients make what calls they like, give each other what they have, and vanish. At the
//! end nothing is live, nothing is held, and all pages are free.
use std::sync::atomic::Ordering;
use std::sync::Mutex;
use std::thread;
use sysmem::*;

#[path = "common/things.rs"]
mod things;
use things::{Dice, Things, TOLD, TOLD_IDLE};

#[test]
fn crowd_leaves_nothing() {
    let service = Service::open(Options { pages: 256, ..Options::default() }).unwrap();
    let board = Mutex::new(vec![0; 16]);
    let (made, watched) = thread::scope(|scope| {
        let threads: Vec<_> = (1..=8)
            .map(|seed| {
                let (service, board) = (service.clone(), &board);
                scope.spawn(move || {
                    let mut dice = Dice(0x9e37_79b9_7f4a_7c15u64.wrapping_mul(seed));
                    let (mut made, mut watched) = (0, 0);
                    for _ in 0..200 {
                        let client = service.join().unwrap();
                        board.lock().unwrap()[dice.upto(16)] = client.id();
                        let mut things = Things::default();
                        for _ in 0..100 {
                            let other = board.lock().unwrap()[dice.upto(16)];
                            let _ = things.step(&client, other, &mut dice);
                        }
                        made += things.trackers;
                        watched += things.watched;
                        // In which order a client and its values go is all one.
                        if dice.upto(2) == 0 {
                            drop((client, things))
                        } else {
                            drop((things, client))
                        }
                    }
                    (made, watched)
                })
            })
            .collect();
        let all = threads.into_iter().map(|one| one.join().unwrap());
        all.fold((0, 0), |sum: (u64, u64), one| (sum.0 + one.0, sum.1 + one.1))
    });
    assert!(service.events() > 10_000);
    assert_eq!((TOLD.load(Ordering::SeqCst), TOLD_IDLE.load(Ordering::SeqCst)), (made, watched));
    assert_eq!((service.live(), service.held()), (Ok(vec![]), Ok(vec![])));
    assert_eq!((service.free_pages(), service.is_settled()), (256, true));
}
