//! After each call of four clients that make what calls they like, the descriptors, what they tell of each
//! end, and the counts of handles are compared with the core; in the second half also the bytes of a memory.
use crate::account::{Post, Row};
use crate::descriptors::state_of;
use crate::ffi::flag;
use crate::record_tests::things::{Dice, Things};
use crate::state::State;
use crate::*;
use std::os::raw::{c_int, c_short, c_ulong};
use std::os::unix::io::AsRawFd;
use std::sync::atomic::AtomicU8;
use std::sync::Arc;

#[repr(C)]
struct PollFd(c_int, c_short, c_short);

extern "C" {
    fn poll(all: *mut PollFd, count: c_ulong, time: c_int) -> c_int;
}

fn is_readable(fd: &impl AsRawFd) -> bool {
    let mut one = PollFd(fd.as_raw_fd(), 1, 0);
    // SAFETY: there is one.
    unsafe { poll(&mut one, 1, 0) == 1 }
}

/// How many descriptors are lit, of how many.
fn compare_descriptors(state: &mut State) -> (u64, u64) {
    let (mut lit, mut all) = (0, 0);
    for (client, place) in state.clients.clone() {
        let account = state.account(place);
        let fd = match account.news.fd.clone() {
            Some(fd) => fd,
            None => continue,
        };
        let (rows, mut has) = (account.rows.clone(), account.parcels > 0);
        has |= account.news.has_more();
        for row in rows {
            if let Row::End { key, is, told, is_late: false, .. } = row {
                has |= is != told;
                let node = state.core.node(key.into());
                assert!(node.map_or(true, |node| state_of(node.flags) == is), "the state of {key}");
            }
        }
        assert_eq!(is_readable(&fd), has, "the descriptor of client {client}");
        lit += u64::from(has);
        all += 1;
    }
    (lit, all)
}

/// What waits in the parcels of each client is what the core has in parcels: as many as it knows, and each
/// end's node says so.
fn compare_parcels(state: &mut State) {
    let nodes = state.core.nodes().unwrap();
    let mut ends = nodes.iter().filter(|n| n.flags & flag::IN_TRANSIT != 0).count();
    for (client, place) in state.clients.clone() {
        let account = state.account(place);
        assert_eq!(account.posted.len() as u64, account.parcels, "the parcels of client {client}");
        for post in account.posted.clone() {
            if let Post::End(key) = post {
                assert_eq!(state.receiver_of(key).map(|to| to.0), Some(client), "who gets {key}");
                let node = state.core.node(key.into()).unwrap();
                assert!(node.flags & flag::IN_TRANSIT != 0);
                ends -= 1;
            }
        }
    }
    assert_eq!(ends, 0);
}

fn compare_counts(state: &mut State) {
    let clients = state.clients.clone();
    let State { trees, core, .. } = state;
    for (&id, tree) in trees.iter() {
        for (index, cell) in (0..).zip(&tree.cells) {
            let mut open = 0;
            for strength in [0, 1] {
                open += core.handles_in_parcels(id, index, strength);
                for (client, _) in &clients {
                    open += core.open_handles(*client, id, index, strength);
                }
            }
            assert_eq!(cell.open, open, "buffer {id}.{index}");
        }
        for held in core.held_of(id) {
            let pages = Pages { start: held.start, count: held.pages };
            assert_eq!(tree.cells[held.index as usize].pages, pages);
        }
        assert_eq!(tree.open, tree.cells.iter().map(|cell| u64::from(cell.open)).sum::<u64>());
        assert!(tree.open > 0);
    }
}

/// The bytes of a handle lie at its buffer's pages.
fn compare_bytes(memory: &Memory, first: *const AtomicU8, handle: &Handle) -> u64 {
    let bytes = memory.bytes(handle);
    if let Ok(pages) = handle.pages() {
        assert_eq!(bytes.as_ptr() as usize - first as usize, pages.start as usize * Memory::PAGE);
        assert_eq!((bytes.len() - 1) / Memory::PAGE + 1, pages.count as usize);
    } else {
        assert!(bytes.is_empty());
    }
    1
}

fn tells_what_the_core_has(events: u64, memory: Option<Arc<Memory>>) {
    let options = Options { pages: 256, memory: memory.clone(), ..Options::default() };
    let service = Service::open(options).unwrap();
    let first = memory.as_ref().map(|memory| memory.first());
    let (mut lit, mut all, mut mapped) = (0, 0, 0);
    for seed in 1.. {
        let mut dice = Dice(0x9e37_79b9_7f4a_7c15u64.wrapping_mul(seed));
        let mut clients: Vec<(Client, Things)> =
            (0..4).map(|_| (service.join().unwrap(), Things::default())).collect();
        for _ in 0..1500 {
            let (who, other) = (dice.upto(4), dice.upto(4));
            let other = clients[other].0.id();
            let (client, things) = &mut clients[who];
            let _ = things.step(client, other, &mut dice);
            if let (Some(memory), Some(first), Some(handle)) = (&memory, first, things.handle()) {
                mapped += compare_bytes(memory, first, handle);
            }
            let mut state = service.0.lock();
            let seen = compare_descriptors(&mut state);
            compare_counts(&mut state);
            compare_parcels(&mut state);
            (lit, all) = (lit + seen.0, all + seen.1);
        }
        drop(clients);
        let state = service.0.lock();
        assert!(state.trees.is_empty() && state.seats.is_empty());
        drop(state);
        if service.events() > events {
            break;
        }
    }
    assert!(lit > 1000 && all - lit > 1000 && (memory.is_none() || mapped > 1000));
    assert_eq!((service.live(), service.free_pages()), (Ok(vec![]), 256));
}

#[test]
fn binding_tells_what_the_core_has() {
    tells_what_the_core_has(50_000, None);
    tells_what_the_core_has(50_000, Some(Memory::open(256).unwrap()));
}
