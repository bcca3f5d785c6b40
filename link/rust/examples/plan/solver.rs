//! A plan that takes the fewest bytes, and prices that prove it. Nobody has to
//! trust this: the library judges what it finds.
//!
//! The 256 positions are 256 units that flow through time, from string to
//! string. An idle unit moves on at no cost. At a string it may take up the
//! text, which costs 1, the byte that `>` costs more than `U`; held until the
//! text comes again it saves 3 and the text's length there, where `<` takes 2
//! bytes and `U` 5 and the length. A flow of 256 units that costs least is a
//! plan that takes the fewest bytes, and what a unit is worth from one string
//! to the next, by the shortest paths that are left, are the prices.

use std::cmp::Reverse;
use std::collections::{BinaryHeap, HashMap};

const POSITIONS: usize = 256;

pub struct Solution {
    /// Two bytes for each string.
    pub plan: Vec<u8>,
    /// A price for each string: that of the gap after it.
    pub prices: Vec<u32>,
}

pub fn solve(texts: &[&[u8]]) -> Solution {
    let next = next_of_same_text(texts);
    let mut network = Network::of(texts, &next);
    for _ in 0..POSITIONS {
        if !network.send_one() {
            break;
        }
    }
    let held: Vec<bool> = (0..texts.len()).map(|i| network.holds(i)).collect();
    Solution {
        plan: plan_of(&next, &held),
        prices: network.prices(),
    }
}

/// For each string the next one that has its text.
fn next_of_same_text(texts: &[&[u8]]) -> Vec<Option<usize>> {
    let mut next = vec![None; texts.len()];
    let mut last = HashMap::new();
    for (i, text) in texts.iter().enumerate() {
        if let Some(before) = last.insert(text, i) {
            next[before] = Some(i);
        }
    }
    next
}

/// Which position each string has, where it is known after which strings their
/// text is held until it comes again.
fn plan_of(next: &[Option<usize>], held: &[bool]) -> Vec<u8> {
    let mut free: Vec<u8> = (0..=u8::MAX).rev().collect();
    let mut position_for: Vec<Option<u8>> = vec![None; next.len()];
    let mut plan = Vec::with_capacity(2 * next.len());
    for i in 0..next.len() {
        let holder = position_for[i];
        let position = match (holder, held[i]) {
            (Some(position), _) => position,
            (None, true) => free.pop().expect("at most 256 texts are held at a time"),
            (None, false) => 0,
        };
        let form = match (holder, held[i]) {
            (Some(_), _) => 2,
            (None, true) => 1,
            (None, false) => 0,
        };
        plan.extend([form, position]);
        match next[i].filter(|_| held[i]) {
            Some(again) => position_for[again] = Some(position),
            None if holder.is_some() => free.push(position),
            None => {}
        }
    }
    plan
}

struct Arc {
    to: usize,
    room: usize,
    cost: i64,
}

/// Time i is node i, and a unit that has the text of string i is node n + i.
/// An arc and its reverse stand side by side.
struct Network {
    strings: usize,
    arcs: Vec<Arc>,
    from: Vec<Vec<usize>>,
    /// For each string the arc that holds its text until it comes again.
    holding: Vec<Option<usize>>,
    /// The costs of shortest paths from time 0.
    far: Vec<i64>,
}

impl Network {
    fn of(texts: &[&[u8]], next: &[Option<usize>]) -> Network {
        let n = texts.len();
        let mut network = Network {
            strings: n,
            arcs: Vec::new(),
            from: vec![Vec::new(); 2 * n],
            holding: vec![None; n],
            far: vec![0; 2 * n],
        };
        for i in 1..n {
            network.add(i - 1, i, POSITIONS, 0);
        }
        for (i, again) in next.iter().enumerate() {
            if let &Some(again) = again {
                network.add(i, n + i, 1, 1);
                let saves = 3 + texts[i].len() as i64;
                network.holding[i] = Some(network.add(n + i, n + again, 1, -saves));
                network.add(n + again, again, 1, 0);
            }
        }
        network.find_first_paths(next, texts);
        network
    }

    fn add(&mut self, from: usize, to: usize, room: usize, cost: i64) -> usize {
        let arc = self.arcs.len();
        self.arcs.push(Arc { to, room, cost });
        self.arcs.push(Arc {
            to: from,
            room: 0,
            cost: -cost,
        });
        self.from[from].push(arc);
        self.from[to].push(arc + 1);
        arc
    }

    /// Costs may be below 0 at first, but time only goes forward.
    fn find_first_paths(&mut self, next: &[Option<usize>], texts: &[&[u8]]) {
        let n = self.strings;
        let mut recalled = vec![i64::MAX; n];
        for i in 0..n {
            let idle = if i == 0 { 0 } else { self.far[i - 1] };
            self.far[i] = idle.min(recalled[i]);
            self.far[n + i] = recalled[i].min(self.far[i] + 1);
            if let Some(again) = next[i] {
                recalled[again] = self.far[n + i] - 3 - texts[i].len() as i64;
            }
        }
    }

    /// Sends one unit more, where that saves anything.
    fn send_one(&mut self) -> bool {
        let end = match self.strings {
            0 => return false,
            n => n - 1,
        };
        let by = self.find_paths();
        if self.far[end] >= 0 {
            return false;
        }
        let mut node = end;
        while node != 0 {
            let arc = by[node].expect("a path leads to every time");
            self.arcs[arc].room -= 1;
            self.arcs[arc ^ 1].room += 1;
            node = self.arcs[arc ^ 1].to;
        }
        true
    }

    /// Dijkstra's algorithm, with costs that the paths of before make 0 or
    /// more; gives the arc by which each node is reached.
    fn find_paths(&mut self) -> Vec<Option<usize>> {
        let mut more = vec![i64::MAX; self.far.len()];
        let mut by = vec![None; self.far.len()];
        let mut heap = BinaryHeap::from([Reverse((0, 0))]);
        more[0] = 0;
        let mut most = 0;
        while let Some(Reverse((way, node))) = heap.pop() {
            if way > more[node] {
                continue;
            }
            most = way;
            for &arc in &self.from[node] {
                let &Arc { to, room, cost } = &self.arcs[arc];
                let way = way + cost + self.far[node] - self.far[to];
                if room > 0 && way < more[to] {
                    more[to] = way;
                    by[to] = Some(arc);
                    heap.push(Reverse((way, to)));
                }
            }
        }
        for (far, more) in self.far.iter_mut().zip(more) {
            *far += more.min(most);
        }
        by
    }

    fn holds(&self, string: usize) -> bool {
        self.holding[string].is_some_and(|arc| self.arcs[arc].room == 0)
    }

    fn prices(&self) -> Vec<u32> {
        let drop = |i: usize| match i + 1 < self.strings {
            true => self.far[i] - self.far[i + 1],
            false => 0,
        };
        (0..self.strings).map(|i| drop(i) as u32).collect()
    }
}
