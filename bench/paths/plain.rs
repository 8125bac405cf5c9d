//! Plain Rust for both programs: the made graph, least walks and next hops over adjacency lists.

use std::cmp::Reverse;
use std::collections::{BTreeSet, BinaryHeap};

/// The edges of the made graph of so many systems: a ring, and one far edge from each; both ways, with their metrics.
pub fn edges(systems: u64) -> impl Iterator<Item = (u64, u64, u32)> {
    (0..systems).flat_map(move |n| {
        let next = (n + 1) % systems;
        let far = n.wrapping_mul(2654435761).wrapping_add(12345) % systems;
        let near = (n.wrapping_mul(7) % 13) as u32 + 1;
        let wide = (n.wrapping_mul(11) % 53) as u32 + 1;
        [(n, next, near), (next, n, near), (n, far, wide), (far, n, wide)]
    })
}

/// The cost of a least walk to each place.
pub fn from_scratch(graph: &[Vec<(usize, u32)>], root: usize) -> Vec<Option<u64>> {
    let mut costs = vec![None; graph.len()];
    let mut offers = BinaryHeap::new();
    offers.push(Reverse((0, root)));
    while let Some(Reverse((cost, place))) = offers.pop() {
        if costs[place].is_some() {
            continue;
        }
        costs[place] = Some(cost);
        for (to, metric) in &graph[place] {
            if costs[*to].is_none() {
                offers.push(Reverse((cost + u64::from(*metric), *to)));
            }
        }
    }
    costs
}

/// The next hops of all systems: sets carried along tight rows in order of cost. No metric is 0 here, and no pseudonode.
pub fn all_next_hops(graph: &[Vec<(usize, u32)>], costs: &[Option<u64>], root: usize) -> Vec<BTreeSet<usize>> {
    let mut order: Vec<usize> = (0..costs.len()).filter(|place| costs[*place].is_some()).collect();
    order.sort_by_key(|place| costs[*place]);
    let mut hops = vec![BTreeSet::new(); costs.len()];
    for place in order {
        let cost = costs[place].unwrap();
        for (to, metric) in &graph[place] {
            if *to != root && costs[*to] == Some(cost + u64::from(*metric)) {
                if place == root {
                    hops[*to].insert(*to);
                } else {
                    let more = hops[place].clone();
                    hops[*to].extend(more);
                }
            }
        }
    }
    hops
}
