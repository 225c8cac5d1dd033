//! Whether a list fits, as a flow: source → job (its work) → each slot up to its deadline (its
//! bound) → sink (the machines). It fits exactly if a greatest flow carries every job's work. With the
//! first slots left out, the greatest flow is the most that the others can take.

use crate::model::Job;

/// A pipe and what it can still carry. Pipe p and pipe p ^ 1 are the two directions of one.
struct Pipe {
    to: usize,
    left: u32,
}

struct Network {
    pipes: Vec<Pipe>,
    /// The pipes that leave each node.
    leaving: Vec<Vec<usize>>,
}

impl Network {
    fn new(nodes: usize) -> Network {
        Network {
            pipes: Vec::new(),
            leaving: vec![Vec::new(); nodes],
        }
    }

    fn join(&mut self, from: usize, to: usize, capacity: u32) {
        for (from, to, left) in [(from, to, capacity), (to, from, 0)] {
            self.leaving[from].push(self.pipes.len());
            self.pipes.push(Pipe { to, left });
        }
    }

    /// The distance of each node from the source, over pipes that can still carry something.
    fn levels(&self, source: usize) -> Vec<Option<u32>> {
        let mut levels = vec![None; self.leaving.len()];
        levels[source] = Some(0);
        let mut layer = vec![source];
        for level in 1.. {
            let mut next = Vec::new();
            for node in layer {
                for &p in &self.leaving[node] {
                    let Pipe { to, left } = self.pipes[p];
                    if left > 0 && levels[to].is_none() {
                        levels[to] = Some(level);
                        next.push(to);
                    }
                }
            }
            if next.is_empty() {
                break;
            }
            layer = next;
        }
        levels
    }

    /// Sends up to `limit` from a node to the sink, each pipe one level on. `tried` counts the
    /// pipes of each node that carry nothing more.
    fn send(
        &mut self,
        node: usize,
        sink: usize,
        limit: u32,
        levels: &[Option<u32>],
        tried: &mut [usize],
    ) -> u32 {
        if node == sink {
            return limit;
        }
        let mut sent = 0;
        while let Some(&p) = self.leaving[node].get(tried[node]) {
            let Pipe { to, left } = self.pipes[p];
            if left > 0 && levels[to] == levels[node].map(|level| level + 1) {
                let part = self.send(to, sink, left.min(limit - sent), levels, tried);
                self.pipes[p].left -= part;
                self.pipes[p ^ 1].left += part;
                sent += part;
                if sent == limit {
                    break;
                }
            }
            tried[node] += 1;
        }
        sent
    }

    /// Dinic's method: shortest paths are filled until none is left.
    fn greatest_flow(&mut self, source: usize, sink: usize) -> u32 {
        let mut flow = 0;
        loop {
            let levels = self.levels(source);
            if levels[sink].is_none() {
                return flow;
            }
            let mut tried = vec![0; self.leaving.len()];
            flow += self.send(source, sink, u32::MAX, &levels, &mut tried);
        }
    }
}

/// Whether the jobs have a valid schedule on this many machines.
pub fn fits(machines: u32, jobs: &[Job]) -> bool {
    work_after(0, machines, jobs) == jobs.iter().map(|job| job.work).sum()
}

/// The most work of the jobs that this many machines can do in the slots after slot b alone.
pub fn work_after(b: u32, machines: u32, jobs: &[Job]) -> u32 {
    let slots = jobs.iter().map(|job| job.deadline).max().unwrap_or(0);
    let (source, sink) = (0, 1);
    let job_node = |j: usize| 2 + j;
    let slot_node = |slot: u32| 2 + jobs.len() + (slot - b - 1) as usize;

    let mut network = Network::new(2 + jobs.len() + slots.saturating_sub(b) as usize);
    for (j, job) in jobs.iter().enumerate() {
        network.join(source, job_node(j), job.work);
        for slot in b + 1..=job.deadline {
            network.join(job_node(j), slot_node(slot), job.bound);
        }
    }
    for slot in b + 1..=slots {
        network.join(slot_node(slot), sink, machines);
    }
    network.greatest_flow(source, sink)
}
