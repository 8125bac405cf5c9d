//! The least that plain Rust does for `isis routes6` and `isis alternates`: it reads the same lines and writes the same text.
use std::cmp::Reverse;
use std::collections::{BTreeMap, BTreeSet, BinaryHeap};
use std::fmt::Write as _;
use std::io::{Read, Write};

type Node = [u8; 7];

struct Graph {
    nodes: Vec<Node>,
    rows: Vec<Vec<(usize, u64)>>,
}

/// What is learnt by a search from one node: the distance of each, and the systems by which a packet may leave.
struct Search {
    far: Vec<u64>,
    hops: Vec<Vec<usize>>,
}

const LOST: u64 = u64::MAX;

fn holds(lsp: &[u8]) -> bool {
    let (mut first, mut second) = (0u32, 0u32);
    for octet in &lsp[12..] {
        first = (first + u32::from(*octet)) % 255;
        second = (second + first) % 255;
    }
    first == 0 && second == 0
}

fn number(octets: &[u8]) -> u64 {
    octets.iter().fold(0, |all, octet| all << 8 | u64::from(*octet))
}

fn unhex(line: &str) -> Option<Vec<u8>> {
    let octets = line.as_bytes();
    if octets.len() % 2 != 0 {
        return None;
    }
    octets.chunks(2).map(|two| Some(((two[0] as char).to_digit(16)? * 16 + (two[1] as char).to_digit(16)?) as u8)).collect()
}

fn rank(lsp: &[u8]) -> (u64, bool) {
    (number(&lsp[20..24]), number(&lsp[10..12]) == 0)
}

fn take(held: &mut BTreeMap<[u8; 8], Vec<u8>>, kind: u8, line: &str) -> bool {
    let Some(mut lsp) = unhex(line) else { return false };
    if lsp.len() < 27 || lsp[0] != 0x83 || lsp[4] != kind || (number(&lsp[8..10]) as usize) > lsp.len() {
        return false;
    }
    lsp.truncate(number(&lsp[8..10]) as usize);
    let (sequence, purged) = rank(&lsp);
    if sequence == 0 || !purged && !holds(&lsp) {
        return false;
    }
    let name: [u8; 8] = lsp[12..20].try_into().unwrap();
    if held.get(&name).is_some_and(|old| rank(old) >= (sequence, purged)) {
        return false;
    }
    held.insert(name, lsp);
    true
}

fn items<'a>(lsp: &'a [u8], code: u8) -> impl Iterator<Item = &'a [u8]> + 'a {
    let mut rest = &lsp[27..];
    std::iter::from_fn(move || {
        let length = *rest.get(1)? as usize;
        let (value, found) = (rest.get(2..2 + length)?, rest[0]);
        rest = &rest[2 + length..];
        Some((found, value))
    })
    .filter(move |(found, _)| *found == code)
    .map(|(_, value)| value)
}

fn graph_of(held: &BTreeMap<[u8; 8], Vec<u8>>) -> Graph {
    let mut told: BTreeMap<(Node, Node), u64> = BTreeMap::new();
    for (name, lsp) in held.iter().filter(|(_, lsp)| !rank(lsp).1) {
        let from: Node = name[..7].try_into().unwrap();
        for mut value in items(lsp, 22) {
            while value.len() >= 11 {
                let metric = number(&value[7..10]);
                if metric < 0xff_ffff {
                    let least = told.entry((from, value[..7].try_into().unwrap())).or_insert(metric);
                    *least = metric.min(*least);
                }
                value = &value[11 + value[10] as usize..];
            }
        }
    }
    let nodes: Vec<Node> = told.keys().map(|(from, _)| *from).collect::<BTreeSet<_>>().into_iter().collect();
    let mut rows = vec![Vec::new(); nodes.len()];
    for ((from, to), metric) in &told {
        if told.contains_key(&(*to, *from)) {
            rows[nodes.binary_search(from).unwrap()].push((nodes.binary_search(to).unwrap(), *metric));
        }
    }
    Graph { nodes, rows }
}

impl Graph {
    fn is_lan(&self, node: usize) -> bool {
        self.nodes[node][6] != 0
    }

    fn search(&self, root: usize) -> Search {
        let count = self.nodes.len();
        let (mut far, mut hops, mut done) = (vec![LOST; count], vec![Vec::new(); count], vec![false; count]);
        let mut heap = BinaryHeap::new();
        far[root] = 0;
        heap.push(Reverse((0, false, root)));
        while let Some(Reverse((cost, _, node))) = heap.pop() {
            if std::mem::replace(&mut done[node], true) {
                continue;
            }
            for (to, metric) in &self.rows[node] {
                let sum = cost + metric;
                if sum > far[*to] || *to == root || done[*to] {
                    continue;
                }
                if sum < far[*to] {
                    far[*to] = sum;
                    hops[*to].clear();
                    heap.push(Reverse((sum, !self.is_lan(*to), *to)));
                }
                let direct = node == root || self.is_lan(node) && hops[node].is_empty();
                let by = if !direct { hops[node].clone() } else if self.is_lan(*to) { Vec::new() } else { vec![*to] };
                hops[*to].extend(by);
                hops[*to].sort_unstable();
                hops[*to].dedup();
            }
        }
        Search { far, hops }
    }
}

fn dotted(node: &Node) -> String {
    let two = |k: usize| format!("{:02x}{:02x}", node[k], node[k + 1]);
    format!("{}.{}.{}", two(0), two(2), two(4))
}

fn alternates(graph: &Graph, root: usize, text: &mut String) {
    let own = graph.search(root);
    let beside: Vec<(usize, u64)> = graph.rows[root].iter().filter(|(to, _)| !graph.is_lan(*to)).copied().collect();
    let mut searches: BTreeMap<usize, Search> = beside.iter().map(|(near, _)| (*near, graph.search(*near))).collect();
    for target in (0..graph.nodes.len()).filter(|node| *node != root && !graph.is_lan(*node) && own.far[*node] != LOST) {
        for hop in &own.hops[target] {
            let to_target = searches.entry(*hop).or_insert_with(|| graph.search(*hop)).far[target];
            let lead = text.len();
            for (near, metric) in beside.iter().filter(|(near, _)| near != hop) {
                let by = &searches[near];
                if by.far[target] == LOST || by.far[target] >= by.far[root].saturating_add(own.far[target]) {
                    continue;
                }
                let whole = *hop != target && by.far[target] < by.far[*hop].saturating_add(to_target);
                let guard = if whole { "node" } else { "link" };
                let (goal, out, via) = (dotted(&graph.nodes[target]), dotted(&graph.nodes[*hop]), dotted(&graph.nodes[*near]));
                writeln!(text, "alternate {goal} hop {out} via {via} cost {} {guard}", metric + by.far[target]).unwrap();
            }
            if text.len() == lead {
                writeln!(text, "alternate {} hop {} none", dotted(&graph.nodes[target]), dotted(&graph.nodes[*hop])).unwrap();
            }
        }
    }
}

fn prefixes(lsp: &[u8]) -> Vec<(u128, u8, bool, u64)> {
    let mut found = Vec::new();
    for mut value in items(lsp, 236) {
        while value.len() >= 6 {
            let (control, bits) = (value[4], value[5]);
            let held = (bits as usize).div_ceil(8);
            let mut address = [0u8; 16];
            address[..held].copy_from_slice(&value[6..6 + held]);
            found.push((u128::from_be_bytes(address), bits, control & 0x80 != 0, number(&value[..4])));
            let subs = if control & 0x20 != 0 { 1 + value[6 + held] as usize } else { 0 };
            value = &value[6 + held + subs..];
        }
    }
    found
}

fn routes6(held: &BTreeMap<[u8; 8], Vec<u8>>, graph: &Graph, root: usize, text: &mut String) {
    let own = graph.search(root);
    let mut best: BTreeMap<(u128, u8), (u8, u64, Vec<usize>)> = BTreeMap::new();
    for (name, lsp) in held.iter().filter(|(name, lsp)| name[6] == 0 && !rank(lsp).1) {
        let node: Node = name[..7].try_into().unwrap();
        let Ok(place) = graph.nodes.binary_search(&node) else { continue };
        if place != root && own.far[place] == LOST {
            continue;
        }
        for (address, bits, down, metric) in prefixes(lsp) {
            let (kind, far) = if place == root { (0, 0) } else { (1 + u8::from(down), own.far[place]) };
            let entry = best.entry((address, bits)).or_insert((9, 0, Vec::new()));
            if (kind, far + metric) < (entry.0, entry.1) {
                *entry = (kind, far + metric, Vec::new());
            }
            if (kind, far + metric) == (entry.0, entry.1) {
                entry.2.extend(&own.hops[place]);
            }
        }
    }
    for ((address, bits), (kind, cost, mut hops)) in best {
        let groups: Vec<String> = (0..8).map(|k| format!("{:x}", (address >> (112 - 16 * k)) as u16)).collect();
        write!(text, "route6 {}/{bits} {} {cost}", groups.join(":"), ["own", "up", "down"][kind as usize]).unwrap();
        hops.sort_unstable();
        hops.dedup();
        if kind > 0 {
            text.push_str(" via");
            hops.iter().for_each(|hop| write!(text, " {}", dotted(&graph.nodes[*hop])).unwrap());
        }
        text.push('\n');
    }
}

fn main() {
    let words: Vec<String> = std::env::args().collect();
    let kind = if words[2] == "L1" { 0x12 } else { 0x14 };
    let mut input = String::new();
    std::io::stdin().read_to_string(&mut input).unwrap();
    let mut held = BTreeMap::new();
    let (mut kept, mut skipped) = (0, 0);
    for line in input.lines().filter(|line| !line.is_empty()) {
        if take(&mut held, kind, line) { kept += 1 } else { skipped += 1 }
    }
    let graph = graph_of(&held);
    let mut root: Node = [0; 7];
    root[..6].copy_from_slice(&unhex(&words[3].replace('.', "")).unwrap());
    let mut text = format!("isis-{} 1\nkept {kept} skipped {skipped}\n", words[1]);
    if let Ok(root) = graph.nodes.binary_search(&root) {
        match words[1].as_str() {
            "routes6" => routes6(&held, &graph, root, &mut text),
            _ => alternates(&graph, root, &mut text),
        }
    }
    std::io::stdout().write_all(text.as_bytes()).unwrap();
}
