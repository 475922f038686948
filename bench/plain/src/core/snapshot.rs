//! What a core holds, without the numbers that the order of events gave: for a search of all orders of calls.
use super::*;

/// What became of a node.
#[derive(Clone, Copy, PartialEq, Eq, Debug)]
pub enum Fate {
    Ended,
    Failed(Cause, NodeKey),
    Live { allocated: bool },
    Released { allocated: bool },
}

impl Core {
    /// What became of the node, which was not forgotten before the last event.
    pub fn fate(&self, key: NodeKey) -> Fate {
        let node = &self.nodes[key.slot as usize];
        let allocated = self.units[node.unit as usize].allocated;
        if node.flags & GONE == 0 {
            return if node.flags & RELEASED == 0 { Fate::Live { allocated } } else { Fate::Released { allocated } };
        }
        // A released node has no loss of its own but by an allocation: through it a subtree ended.
        match node.cause {
            Cause::Lost if self.nodes[node.origin.slot as usize].flags & RELEASED != 0 => Fate::Ended,
            cause => Fate::Failed(cause, node.origin),
        }
    }

    /// All on which later replies depend, but which client holds what, which trackers wait, and why nodes failed. The names are
    /// those of the events that made nodes.
    pub fn snapshot(&self, name: impl Fn(u64) -> u64) -> Vec<u64> {
        let birth = |n: u32| self.nodes.get(n as usize).map_or(u64::MAX, |node| name(node.birth));
        let (mut rows, mut heads) = (Vec::new(), Vec::new());
        for (n, node) in self.nodes.iter().enumerate() {
            if node.flags & (GONE | SPENT) == GONE | SPENT {
                continue;
            }
            let mut row = vec![0, birth(n as u32), node.flags as u64];
            if node.flags & GONE == 0 {
                let unit = &self.units[node.unit as usize];
                row.extend([birth(node.parent), birth(node.unit), node.camping as u64, node.tracked as u64]);
                row.extend([unit.camping, unit.at_least, unit.size].map(u64::from));
                row.push(unit.allocated as u64);
                if !unit.allocated && node.unit == n as u32 {
                    heads.push((node.birth, birth(n as u32)));
                }
            }
            rows.push(row);
        }
        for (c, coll) in self.colls.iter().enumerate().filter(|(_, coll)| coll.id != 0) {
            let mut row = vec![1, name(coll.id), coll.size as u64, coll.allocated as u64, coll.full, coll.not_home];
            for i in bits(coll.not_home) {
                let buffers = &self.buffers[c];
                row.extend([buffers.start[i], buffers.total[0][i], buffers.total[1][i]].map(u64::from));
            }
            rows.push(row);
        }
        rows.sort_unstable();
        // Units that are ready at one time are allocated by birth.
        heads.sort_unstable();
        rows.push(heads.into_iter().map(|(_, name)| name).collect());
        for client in &self.clients {
            let mut row = vec![client.shut as u64];
            for parcel in &client.parcels {
                match *parcel {
                    Parcel::End(n) => row.extend([0, birth(n)]),
                    Parcel::Handle(c, index, strength) => {
                        row.extend([1 + strength as u64, name(self.colls[c as usize].id), index as u64])
                    }
                }
            }
            rows.push(row);
        }
        rows.into_iter().flat_map(|row| std::iter::once(row.len() as u64).chain(row)).collect()
    }
}
