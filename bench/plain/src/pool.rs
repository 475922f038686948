//! The page pool: a sorted list of free holes in blocks of up to CAP holes,
//! with the greatest hole of each block beside it. First fit by address.
//!
//! With h holes in h/CAP blocks: a place looks at the block maxima (one scan
//! for all its buffers, since the holes left of the last start stay too small)
//! and at the holes of the blocks that can hold a buffer; a give_back is a
//! binary search over blocks and a move within one block.

const CAP: usize = 64;

#[derive(Clone)]
struct Block {
    len: usize,
    start: [u32; CAP],
    size: [u32; CAP],
}

impl Block {
    fn empty() -> Block {
        Block { len: 0, start: [0; CAP], size: [0; CAP] }
    }
    #[inline]
    fn remove(&mut self, i: usize) {
        self.start.copy_within(i + 1..self.len, i);
        self.size.copy_within(i + 1..self.len, i);
        self.len -= 1;
    }
    #[inline]
    fn insert(&mut self, i: usize, start: u32, size: u32) {
        self.start.copy_within(i..self.len, i + 1);
        self.size.copy_within(i..self.len, i + 1);
        self.start[i] = start;
        self.size[i] = size;
        self.len += 1;
    }
    #[inline]
    fn max(&self) -> u32 {
        self.size[..self.len].iter().copied().max().unwrap_or(0)
    }
}

#[derive(Clone)]
pub struct Pool {
    free: u32,
    /// Slab of blocks; `order` lists those in use by address.
    blocks: Vec<Block>,
    spare: Vec<u32>,
    order: Vec<u32>,
    /// Beside `order`: the start of the first hole and the greatest size.
    first: Vec<u32>,
    max: Vec<u32>,
    /// Scratch of `place`: (position in order, hole, buffers put into it).
    used: Vec<(u32, u32, u32)>,
    /// Where the last give_back was: the next is often close.
    last: usize,
}

impl Pool {
    pub fn new(pages: u32) -> Pool {
        let mut b = Block::empty();
        b.insert(0, 0, pages);
        Pool {
            free: pages,
            blocks: vec![b],
            spare: Vec::new(),
            order: vec![0],
            first: vec![0],
            max: vec![pages],
            used: Vec::with_capacity(64),
            last: 0,
        }
    }

    #[inline]
    pub fn free_pages(&self) -> u32 {
        self.free
    }

    pub fn holes(&self) -> usize {
        self.order.iter().map(|&b| self.blocks[b as usize].len).sum()
    }

    /// All holes by start (for tests).
    pub fn hole_list(&self) -> Vec<(u32, u32)> {
        let mut out = Vec::new();
        for &b in &self.order {
            let b = &self.blocks[b as usize];
            for i in 0..b.len {
                out.push((b.start[i], b.size[i]));
            }
        }
        out
    }

    /// Places `count` (1 to 64) buffers of `pages` (at least 1) pages each by
    /// first fit, all or none; the starts go to `starts`. False where some
    /// buffer has no place.
    pub fn place(&mut self, count: u32, pages: u32, starts: &mut [u32; 64]) -> bool {
        self.put::<false>(count, pages, starts).is_some()
    }

    /// The same, with its looks counted.
    pub fn place_counted(&mut self, count: u32, pages: u32, starts: &mut [u32; 64]) -> Option<u64> {
        self.put::<true>(count, pages, starts)
    }

    /// The first block at or after `o` with a hole of that size.
    #[inline]
    fn fitting(&self, mut o: usize, pages: u32) -> usize {
        while let Some(m) = self.max.get(o..o + 16) {
            if m.iter().fold(false, |a, &m| a | (m >= pages)) {
                break;
            }
            o += 16;
        }
        while o < self.max.len() && self.max[o] < pages {
            o += 1;
        }
        o
    }

    #[inline]
    fn put<const LOOKS: bool>(&mut self, count: u32, pages: u32, starts: &mut [u32; 64]) -> Option<u64> {
        if count as u64 * pages as u64 > self.free as u64 {
            return None;
        }
        self.used.clear();
        let mut need = count;
        let mut out = 0usize;
        let mut looks = 0u64;
        let mut before = 0u64; // holes in the blocks left of this one
        let mut emptied = 0u64; // holes used up by earlier buffers
        let mut o = 0usize;
        'scan: loop {
            let next = self.fitting(o, pages);
            if LOOKS {
                before += self.order[o..next].iter().map(|&b| self.blocks[b as usize].len as u64).sum::<u64>();
            }
            o = next;
            if o == self.order.len() {
                return None;
            }
            let b = &self.blocks[self.order[o] as usize];
            for i in 0..b.len {
                let size = b.size[i];
                if size < pages {
                    continue;
                }
                let fit = if need == 1 || size < 2 * pages { 1 } else { (size / pages).min(need) };
                let mut at = b.start[i];
                for _ in 0..fit {
                    starts[out] = at;
                    out += 1;
                    at += pages;
                }
                if LOOKS {
                    looks += fit as u64 * (before + i as u64 + 1 - emptied);
                }
                if fit * pages == size {
                    emptied += 1;
                }
                self.used.push((o as u32, i as u32, fit));
                need -= fit;
                if need == 0 {
                    break 'scan;
                }
            }
            before += b.len as u64;
            o += 1;
        }
        self.free -= count * pages;
        // Take the pages, from the last block to the first so that the
        // positions stay true.
        let mut to = self.used.len();
        while to > 0 {
            let o = self.used[to - 1].0 as usize;
            let mut from = to - 1;
            while from > 0 && self.used[from - 1].0 as usize == o {
                from -= 1;
            }
            let b = &mut self.blocks[self.order[o] as usize];
            let mut stale = false;
            let mut kept = self.used[from].1 as usize;
            let mut next = kept;
            for &(_, i, fit) in &self.used[from..to] {
                let i = i as usize;
                if i > next && next > kept {
                    b.start.copy_within(next..i, kept);
                    b.size.copy_within(next..i, kept);
                }
                kept += i - next;
                next = i + 1;
                let (start, size) = (b.start[i], b.size[i]);
                stale |= size == self.max[o];
                let taken = fit * pages;
                if size > taken {
                    b.start[kept] = start + taken;
                    b.size[kept] = size - taken;
                    kept += 1;
                }
            }
            if next != kept {
                b.start.copy_within(next..b.len, kept);
                b.size.copy_within(next..b.len, kept);
                b.len -= next - kept;
            }
            to = from;
            if b.len == 0 {
                self.drop_block(o);
            } else {
                self.first[o] = b.start[0];
                if stale {
                    self.max[o] = b.max();
                }
                self.join_small(o);
            }
        }
        Some(looks)
    }

    /// Gives back a held interval.
    pub fn give_back(&mut self, start: u32, pages: u32) {
        self.free += pages;
        if self.order.is_empty() {
            self.new_block(0, start, pages);
            return;
        }
        // The block whose first hole is the last one at or before `start`.
        let mut o = self.last;
        let near = o < self.first.len()
            && (self.first[o] < start || o == 0)
            && self.first.get(o + 1).is_none_or(|&f| start < f);
        if !near {
            o = self.first.partition_point(|&f| f < start).saturating_sub(1);
            self.last = o;
        }
        let b = &mut self.blocks[self.order[o] as usize];
        let i = if b.len <= 8 {
            b.start[..b.len].iter().position(|&s| s > start).unwrap_or(b.len)
        } else {
            b.start[..b.len].partition_point(|&s| s < start)
        };
        let left = i > 0 && b.start[i - 1] + b.size[i - 1] == start;
        let end = start + pages;
        if i < b.len {
            let right = b.start[i] == end;
            let size = match (left, right) {
                (true, true) => {
                    let size = b.size[i - 1] + pages + b.size[i];
                    b.size[i - 1] = size;
                    b.remove(i);
                    size
                }
                (true, false) => {
                    b.size[i - 1] += pages;
                    b.size[i - 1]
                }
                (false, true) => {
                    b.start[i] = start;
                    b.size[i] += pages;
                    b.size[i]
                }
                (false, false) => {
                    if b.len == CAP {
                        return self.insert_full(o, i, start, pages);
                    }
                    b.insert(i, start, pages);
                    pages
                }
            };
            self.first[o] = b.start[0];
            if size > self.max[o] {
                self.max[o] = size;
            }
            if left && right {
                self.join_small(o);
            }
            return;
        }
        // At the end of the block: the right neighbour opens the next block.
        let right = o + 1 < self.order.len() && self.first[o + 1] == end;
        if !right {
            let size = if left {
                b.size[i - 1] += pages;
                b.size[i - 1]
            } else if b.len == CAP {
                return self.insert_full(o, i, start, pages);
            } else {
                b.insert(i, start, pages);
                pages
            };
            if size > self.max[o] {
                self.max[o] = size;
            }
            return;
        }
        if !left {
            o += 1;
            let b = &mut self.blocks[self.order[o] as usize];
            b.start[0] = start;
            b.size[0] += pages;
            self.first[o] = start;
            self.max[o] = self.max[o].max(b.size[0]);
            return;
        }
        let next = &mut self.blocks[self.order[o + 1] as usize];
        let moved = next.size[0];
        next.remove(0);
        if next.len > 0 {
            self.first[o + 1] = next.start[0];
            if moved == self.max[o + 1] {
                self.max[o + 1] = next.max();
            }
        }
        let gone = next.len == 0;
        let b = &mut self.blocks[self.order[o] as usize];
        b.size[i - 1] += pages + moved;
        self.max[o] = self.max[o].max(b.size[i - 1]);
        if gone {
            self.drop_block(o + 1);
        } else {
            self.join_small(o);
        }
    }

    fn new_block(&mut self, o: usize, start: u32, size: u32) {
        let id = match self.spare.pop() {
            Some(id) => id,
            None => {
                self.blocks.push(Block::empty());
                (self.blocks.len() - 1) as u32
            }
        };
        let b = &mut self.blocks[id as usize];
        b.len = 0;
        b.insert(0, start, size);
        self.order.insert(o, id);
        self.first.insert(o, start);
        self.max.insert(o, size);
    }

    fn drop_block(&mut self, o: usize) {
        let id = self.order.remove(o);
        self.first.remove(o);
        self.max.remove(o);
        self.blocks[id as usize].len = 0;
        self.spare.push(id);
    }

    /// Splits the full block `o` and inserts at `i`.
    #[cold]
    fn insert_full(&mut self, o: usize, i: usize, start: u32, size: u32) {
        const HALF: usize = CAP / 2;
        let id = match self.spare.pop() {
            Some(id) => id,
            None => {
                self.blocks.push(Block::empty());
                (self.blocks.len() - 1) as u32
            }
        };
        let mut right = std::mem::replace(&mut self.blocks[id as usize], Block::empty());
        let left = &mut self.blocks[self.order[o] as usize];
        right.start[..HALF].copy_from_slice(&left.start[HALF..]);
        right.size[..HALF].copy_from_slice(&left.size[HALF..]);
        right.len = HALF;
        left.len = HALF;
        if i <= HALF {
            left.insert(i, start, size);
        } else {
            right.insert(i - HALF, start, size);
        }
        self.first[o] = left.start[0];
        self.max[o] = left.max();
        self.first.insert(o + 1, right.start[0]);
        self.max.insert(o + 1, right.max());
        self.blocks[id as usize] = right;
        self.order.insert(o + 1, id);
    }

    /// Joins block `o` with its right neighbour where both are small.
    #[inline]
    fn join_small(&mut self, o: usize) {
        if o + 1 >= self.order.len() {
            return;
        }
        let (a, b) = (self.order[o] as usize, self.order[o + 1] as usize);
        if self.blocks[a].len + self.blocks[b].len <= CAP / 2 {
            self.join(o, a, b);
        }
    }

    #[cold]
    fn join(&mut self, o: usize, a: usize, b: usize) {
        let from = std::mem::replace(&mut self.blocks[b], Block::empty());
        let into = &mut self.blocks[a];
        into.start[into.len..into.len + from.len].copy_from_slice(&from.start[..from.len]);
        into.size[into.len..into.len + from.len].copy_from_slice(&from.size[..from.len]);
        into.len += from.len;
        self.max[o] = self.max[o].max(self.max[o + 1]);
        self.drop_block(o + 1);
    }
}

#[cfg(test)]
mod tests {
    use super::*;
    use crate::rng::Rng;

    #[test]
    fn rows_of_r4_and_r12() {
        let mut s = [0u32; 64];
        let mut p = Pool::new(16);
        assert_eq!(p.place_counted(2, 4, &mut s), Some(2));
        assert_eq!(&s[..2], &[0, 4]);
        assert_eq!(p.place_counted(1, 8, &mut s), Some(1));
        assert_eq!(s[0], 8);
        p.give_back(4, 4);
        assert_eq!(p.place_counted(1, 5, &mut s), None);
        assert_eq!(p.free_pages(), 4);
        assert_eq!(p.place_counted(1, 4, &mut s), Some(1));
        assert_eq!(s[0], 4);
        let mut p = Pool::new(16);
        assert_eq!(p.place_counted(3, 8, &mut s), None);
        assert_eq!(p.free_pages(), 16);
        let mut p = Pool::new(16);
        assert_eq!(p.place_counted(2, 4, &mut s), Some(2));
        p.give_back(0, 4);
        assert_eq!(p.place_counted(1, 8, &mut s), Some(2));
        assert_eq!(s[0], 8);
        assert_eq!(p.place_counted(1, 4, &mut s), Some(1));
        assert_eq!(s[0], 0);
    }

    /// Against a page bitmap, one buffer after another, with the looks at holes counted.
    #[test]
    fn agrees_with_bitmap() {
        for seed in 0..40u64 {
            let mut r = Rng(seed);
            let pages = [64u32, 1000, 5000, 20000][seed as usize % 4];
            let mut pool = Pool::new(pages);
            let mut map = vec![false; pages as usize];
            let mut held: Vec<(u32, u32)> = Vec::new();
            let big = if seed % 3 == 0 { 3 } else { 9 };
            let rounds = 1500;
            for round in 0..rounds {
                let grow = (round / 250) % 2 == 0;
                if held.is_empty() || r.below(10) < if grow { 8 } else { 3 } {
                    let count = 1 + if r.below(3) == 0 { r.below(64) as u32 } else { r.below(3) as u32 };
                    let each = 1 + r.below(big) as u32;
                    // The plain way.
                    let mut m = map.clone();
                    let mut want = Vec::new();
                    let mut looks = 0u64;
                    for _ in 0..count {
                        let mut found = None;
                        let mut run = 0;
                        for (i, &h) in m.iter().enumerate() {
                            run = if h { 0 } else { run + 1 };
                            if run == each {
                                found = Some(i as u32 + 1 - each);
                                break;
                            }
                        }
                        let Some(at) = found else { break };
                        for i in 0..=at as usize {
                            if !m[i] && (i == 0 || m[i - 1]) {
                                looks += 1;
                            }
                        }
                        m[at as usize..(at + each) as usize].fill(true);
                        want.push(at);
                    }
                    let mut starts = [0; 64];
                    match pool.place_counted(count, each, &mut starts) {
                        Some(l) => {
                            assert_eq!(want.len(), count as usize);
                            assert_eq!(&starts[..want.len()], &want[..]);
                            assert_eq!(l, looks);
                            map = m;
                            held.extend(want.iter().map(|&s| (s, each)));
                        }
                        None => assert!(want.len() < count as usize),
                    }
                } else {
                    let (s, n) = held.swap_remove(r.below(held.len() as u64) as usize);
                    map[s as usize..(s + n) as usize].fill(false);
                    pool.give_back(s, n);
                }
                let mut want = Vec::new();
                let mut run = 0;
                for i in 0..=pages {
                    if i < pages && !map[i as usize] {
                        run += 1;
                    } else if run > 0 {
                        want.push((i - run, run));
                        run = 0;
                    }
                }
                assert_eq!(pool.hole_list(), want);
                assert_eq!(pool.free_pages(), want.iter().map(|h| h.1).sum::<u32>());
                for (o, &b) in pool.order.iter().enumerate() {
                    let b = &pool.blocks[b as usize];
                    assert!(b.len > 0);
                    assert_eq!(pool.first[o], b.start[0]);
                    assert_eq!(pool.max[o], b.max());
                }
            }
        }
    }
}
