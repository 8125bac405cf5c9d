//! Times plain Rust for the same graphs as main.rt.in, in the same way: least walks and next hops by adjacency lists and
//! `BinaryHeap`. Words: `from_scratch` or `all_next_hops`, and the number of nodes. Writes the nanoseconds of the fastest
//! round and a count that shows its work.

mod plain;

use plain::{all_next_hops, edges, from_scratch};
use std::collections::HashMap;
use std::time::Instant;

/// A node: a system's six octets and a pseudonode number.
#[derive(Clone, Copy, PartialEq, Eq, Hash, PartialOrd, Ord)]
struct Node([u8; 7]);

struct Row {
    from: Node,
    to: Node,
    metric: u32,
}

fn node(n: u64) -> Node {
    let [_, _, a, b, c, d, e, f] = n.to_be_bytes();
    Node([a, b, c, d, e, f, 0])
}

fn rows(nodes: u64) -> Vec<Row> {
    let row = |(from, to, metric)| Row { from: node(from), to: node(to), metric };
    edges(nodes).map(row).collect()
}

/// Adjacency lists over places, with the place of each node.
struct Graph {
    places: HashMap<Node, usize>,
    rows: Vec<Vec<(usize, u32)>>,
}

fn graph(rows: &[Row]) -> Graph {
    let mut places = HashMap::new();
    for row in rows {
        for node in [row.from, row.to] {
            let next = places.len();
            places.entry(node).or_insert(next);
        }
    }
    let mut lists = vec![Vec::new(); places.len()];
    for row in rows {
        lists[places[&row.from]].push((places[&row.to], row.metric));
    }
    Graph { places, rows: lists }
}

fn main() {
    let words: Vec<String> = std::env::args().collect();
    let nodes: u64 = words[2].parse().unwrap();
    let graph = graph(&rows(nodes));
    let root = graph.places[&node(0)];
    let costs = from_scratch(&graph.rows, root);
    let rounds = if nodes > 10_000 { 10 } else { 200 };
    let mut least = u128::MAX;
    let mut count = 0u64;
    for _ in 0..rounds {
        let start = Instant::now();
        if words[1] == "from_scratch" {
            let costs = from_scratch(&graph.rows, root);
            least = least.min(start.elapsed().as_nanos());
            count = costs.iter().flatten().sum();
        } else {
            let hops = all_next_hops(&graph.rows, &costs, root);
            least = least.min(start.elapsed().as_nanos());
            count = hops.iter().map(|set| set.len() as u64).sum();
        }
    }
    println!("{least} {count}");
}
