//! Times plain Rust for the same candidates as routes.rt.in, in the same way: routes by a sort and one pass over sets of
//! next hops, look-ups by a hash map of prefixes that is asked from the longest length down. Words: `routes` or `lookup`,
//! and the number of candidates. Writes the nanoseconds of the fastest round and a count that shows its work.

mod plain;

use plain::{all_next_hops, edges, from_scratch};
use std::collections::HashMap;
use std::time::Instant;

const SYSTEMS: u64 = 1000;

/// Adjacency lists; a system's place is its number.
fn graph() -> Vec<Vec<(usize, u32)>> {
    let mut lists = vec![Vec::new(); SYSTEMS as usize];
    for (from, to, metric) in edges(SYSTEMS) {
        lists[from as usize].push((to as usize, metric));
    }
    lists
}

#[derive(Clone, Copy)]
struct Candidate {
    address: u32,
    length: u8,
    cost: u64,
    origin: usize,
}

struct Route {
    address: u32,
    length: u8,
    cost: u64,
    hops: Vec<usize>,
}

fn address(n: u64) -> u32 {
    n.wrapping_mul(2654435761) as u32
}

fn candidates(costs: &[Option<u64>], many: u64) -> Vec<Candidate> {
    (0..many)
        .map(|n| {
            let half = n / 2;
            let origin = (n.wrapping_mul(31) % SYSTEMS) as usize;
            let rest = (8 + half % 9) as u8;
            let address = address(half) >> rest << rest;
            let cost = costs[origin].unwrap() + n % 7 + 1;
            Candidate { address, length: 32 - rest, cost, origin }
        })
        .collect()
}

fn routes(candidates: &[Candidate], graph: &[Vec<(usize, u32)>]) -> Vec<Route> {
    let costs = from_scratch(graph, 0);
    let hops = all_next_hops(graph, &costs, 0);
    let mut sorted = candidates.to_vec();
    sorted.sort_unstable_by_key(|c| (c.address, c.length, c.cost));
    let mut routes: Vec<Route> = Vec::new();
    for c in sorted {
        match routes.last_mut() {
            Some(last) if (last.address, last.length) == (c.address, c.length) => {
                if last.cost == c.cost {
                    last.hops.extend(&hops[c.origin]);
                    last.hops.sort_unstable();
                    last.hops.dedup();
                }
            }
            _ => {
                let hops = hops[c.origin].iter().copied().collect();
                routes.push(Route { address: c.address, length: c.length, cost: c.cost, hops });
            }
        }
    }
    routes
}

fn lookup(prefixes: &HashMap<(u32, u8), usize>, address: u32) -> Option<usize> {
    (0..=32u8).rev().find_map(|length| {
        let rest = 32 - u32::from(length);
        let cleared = (u64::from(address) >> rest << rest) as u32;
        prefixes.get(&(cleared, length)).copied()
    })
}

fn main() {
    let words: Vec<String> = std::env::args().collect();
    let many: u64 = words[2].parse().unwrap();
    let graph = graph();
    let candidates = candidates(&from_scratch(&graph, 0), many);
    let (mut least, mut count) = (u128::MAX, 0u64);
    if words[1] == "routes" {
        for _ in 0..20 {
            let start = Instant::now();
            let routes = routes(&candidates, &graph);
            least = least.min(start.elapsed().as_nanos());
            count = routes.iter().map(|route| route.cost + route.hops.len() as u64).sum();
        }
    } else {
        let routes = routes(&candidates, &graph);
        let prefixes: HashMap<(u32, u8), usize> = routes.iter().enumerate().map(|(place, route)| ((route.address, route.length), place)).collect();
        for _ in 0..5 {
            let start = Instant::now();
            count = 0;
            for n in 0..1_000_000u64 {
                if let Some(place) = lookup(&prefixes, address(n % routes.len() as u64).wrapping_add((n % 2048) as u32)) {
                    count += u64::from(routes[place].length);
                }
            }
            least = least.min(start.elapsed().as_nanos());
        }
    }
    println!("{least} {count}");
}
