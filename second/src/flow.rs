//! The greatest flow through a small network, level by level (Dinic), in whole numbers.

/// No edge, no level.
const NONE: u32 = u32::MAX;

pub struct Network {
    /// For each edge its far end, the room left on it, and the next edge of the same station.
    ends: Vec<u32>,
    room: Vec<u64>,
    next: Vec<u32>,
    /// For each station its latest edge, its level, and the edge to try next.
    first: Vec<u32>,
    level: Vec<u32>,
    turn: Vec<u32>,
    queue: Vec<usize>,
    /// How many chains were pushed.
    pub chains: u64,
}

impl Network {
    pub fn new(stations: usize, edges: usize) -> Network {
        Network {
            ends: Vec::with_capacity(2 * edges),
            room: Vec::with_capacity(2 * edges),
            next: Vec::with_capacity(2 * edges),
            first: vec![NONE; stations],
            level: vec![NONE; stations],
            turn: vec![NONE; stations],
            queue: Vec::with_capacity(stations),
            chains: 0,
        }
    }

    /// Edge 2i goes forth, edge 2i+1 back; the answer is the forward one.
    pub fn edge(&mut self, from: usize, to: usize, room: u64) -> usize {
        let e = self.ends.len();
        self.ends.extend([to as u32, from as u32]);
        self.room.extend([room, 0]);
        self.next.extend([self.first[from], self.first[to]]);
        self.first[from] = e as u32;
        self.first[to] = e as u32 + 1;
        e
    }

    pub fn moved(&self, edge: usize) -> u64 {
        self.room[edge ^ 1]
    }

    /// Levels from the source; false if the sink has none.
    fn set_levels(&mut self, source: usize, sink: usize) -> bool {
        self.level.fill(NONE);
        self.level[source] = 0;
        self.queue.clear();
        self.queue.push(source);
        let mut at = 0;
        while at < self.queue.len() && self.level[sink] == NONE {
            let v = self.queue[at];
            at += 1;
            let mut e = self.first[v];
            while e != NONE {
                let u = self.ends[e as usize] as usize;
                if self.room[e as usize] > 0 && self.level[u] == NONE {
                    self.level[u] = self.level[v] + 1;
                    self.queue.push(u);
                }
                e = self.next[e as usize];
            }
        }
        self.level[sink] != NONE
    }

    fn push(&mut self, v: usize, sink: usize, limit: u64) -> u64 {
        if v == sink {
            self.chains += 1;
            return limit;
        }
        let mut sent = 0;
        while self.turn[v] != NONE {
            let e = self.turn[v] as usize;
            let u = self.ends[e] as usize;
            if self.room[e] > 0 && self.level[u] == self.level[v] + 1 {
                let x = self.push(u, sink, self.room[e].min(limit - sent));
                self.room[e] -= x;
                self.room[e ^ 1] += x;
                sent += x;
                if sent == limit {
                    return sent;
                }
            }
            self.turn[v] = self.next[e];
        }
        sent
    }

    pub fn run(&mut self, source: usize, sink: usize) -> u64 {
        let mut total = 0;
        while self.set_levels(source, sink) {
            self.turn.copy_from_slice(&self.first);
            total += self.push(source, sink, u64::MAX);
        }
        total
    }

    /// Which stations could still send something to the sink.
    pub fn reaching(&self, sink: usize) -> Vec<bool> {
        let mut seen = vec![false; self.first.len()];
        seen[sink] = true;
        let mut stack = vec![sink];
        while let Some(v) = stack.pop() {
            let mut e = self.first[v];
            while e != NONE {
                let u = self.ends[e as usize] as usize;
                if self.room[e as usize ^ 1] > 0 && !seen[u] {
                    seen[u] = true;
                    stack.push(u);
                }
                e = self.next[e as usize];
            }
        }
        seen
    }
}
