//! The least that a grid of IS-IS routers takes in plain Rust: the seconds, pulls and
//! deliveries of `isis grid`, each datagram written and read as octets, its checksum made and tested. It knows what a grid
//! needs and no more: level 1, links, one LSP a system, nothing purged, no keys.
//!
//!   limit SIDE repair|scratch|end|none [SECONDS] [PREFIXES]
//!
//! `repair` changes costs, next hops and routes where a store moves them; `scratch` makes them all anew; `end` has them once, when all is
//! over; `none` has none.
use std::cmp::Reverse;
use std::collections::{BTreeMap, BinaryHeap, HashMap};

const FAR: u64 = u64::MAX;
const AREA: [u8; 4] = [3, 0x49, 0, 1];
const HEADER: usize = 27;
const ENTRIES: usize = 15;
const LISTED: usize = 75;

#[derive(Clone, Copy, PartialEq)]
enum Mode {
    Repair,
    Scratch,
    None,
}

fn number(octets: &[u8]) -> u64 {
    octets.iter().fold(0, |sum, octet| sum << 8 | u64::from(*octet))
}

fn put(to: &mut Vec<u8>, value: u64, octets: usize) {
    to.extend_from_slice(&value.to_be_bytes()[8 - octets..]);
}

/// The sums of ISO 8473's checksum.
fn sums(octets: &[u8]) -> (i64, i64) {
    let (mut first, mut second) = (0u32, 0u32);
    for part in octets.chunks(5000) {
        for octet in part {
            first += u32::from(*octet);
            second += first;
        }
        first %= 255;
        second %= 255;
    }
    (i64::from(first), i64::from(second))
}

/// The checksum of a PDU from its LSP ID on, to be put at its octets 12 and 13.
fn checksum(octets: &[u8]) -> [u8; 2] {
    let (first, second) = sums(octets);
    let left = octets.len() as i64 - 12;
    let part = |value: i64| (value.rem_euclid(255) + 254) % 255 + 1;
    [part((left - 1) * first - second) as u8, part(second - left * first) as u8]
}

// ---- least costs, next hops and routes

#[derive(Clone, Default)]
struct Node {
    live: bool,
    rows: Vec<(usize, u64)>,
    ways: Vec<(u64, u64)>,
    cost: u64,
    hops: u64,
}

/// What a router keeps of its graph: the root is node 0. A node's hops are a bit for each neighbour of the root.
#[derive(Default)]
struct Paths {
    places: HashMap<u64, usize>,
    nodes: Vec<Node>,
    first: Vec<usize>,
    tellers: HashMap<u64, Vec<(usize, u64)>>,
    routes: BTreeMap<u64, (u64, u64)>,
}

impl Paths {
    fn place(&mut self, system: u64) -> usize {
        let next = self.nodes.len();
        let place = *self.places.entry(system).or_insert(next);
        if place == next {
            self.nodes.push(Node { cost: FAR, ..Node::default() });
        }
        place
    }

    /// What an LSP tells: rows and prefixes.
    fn read(&mut self, lsp: &[u8]) -> (Vec<(usize, u64)>, Vec<(u64, u64)>) {
        let (mut rows, mut ways) = (Vec::new(), Vec::new());
        let mut left = &lsp[HEADER..];
        while let [code, length, rest @ ..] = left {
            let (mut value, rest) = rest.split_at(usize::from(*length));
            left = rest;
            while *code == 22 && value.len() >= 11 {
                let to = self.place(number(&value[..6]));
                rows.push((to, number(&value[7..10])));
                value = &value[11 + usize::from(value[10])..];
            }
            while *code == 135 && value.len() >= 5 {
                let length = usize::from(value[4] & 63);
                let octets = length.div_ceil(8);
                let address = number(&value[5..5 + octets]) << (8 * (4 - octets));
                ways.push((address * 64 + length as u64, number(&value[..4])));
                value = &value[5 + octets..];
            }
        }
        (rows, ways)
    }

    fn usable(&self, from: usize, to: usize) -> bool {
        self.nodes[from].live && self.nodes[to].live && self.nodes[to].rows.iter().any(|row| row.0 == from)
    }

    /// Offers each node that waits to its neighbours, the nearest first; tells which costs fell, and to where one of equal cost leads.
    fn search(&mut self, mut waits: BinaryHeap<Reverse<(u64, usize)>>) -> (Vec<usize>, Vec<usize>) {
        let (mut fell, mut even) = (Vec::new(), Vec::new());
        while let Some(Reverse((cost, node))) = waits.pop() {
            if cost != self.nodes[node].cost {
                continue;
            }
            fell.push(node);
            for at in 0..self.nodes[node].rows.len() {
                let (to, metric) = self.nodes[node].rows[at];
                if cost + metric <= self.nodes[to].cost && self.usable(node, to) {
                    if cost + metric < self.nodes[to].cost {
                        self.nodes[to].cost = cost + metric;
                        waits.push(Reverse((cost + metric, to)));
                    }
                    even.push(to);
                }
            }
        }
        (fell, even)
    }

    fn all_costs(&mut self) {
        for node in &mut self.nodes {
            node.cost = FAR;
        }
        self.nodes[0].cost = 0;
        self.search(BinaryHeap::from([Reverse((0, 0))]));
    }

    /// The hops of a node by those of all before it on least walks.
    fn hops_at(&self, node: usize) -> u64 {
        let mut hops = 0;
        for (from, _) in &self.nodes[node].rows {
            let before = &self.nodes[*from];
            let leads = |row: &&(usize, u64)| row.0 == node && before.cost != FAR && before.cost + row.1 == self.nodes[node].cost;
            if before.live && before.rows.iter().find(leads).is_some() {
                hops |= if *from == 0 { self.first.iter().position(|one| *one == node).map_or(0, |bit| 1 << bit) } else { before.hops };
            }
        }
        hops
    }

    /// Makes hops anew from these nodes on, the nearest first, and tells whose are others.
    fn hops_from(&mut self, nodes: impl IntoIterator<Item = usize>) -> Vec<usize> {
        let mut waits: BinaryHeap<_> = nodes.into_iter().map(|node| Reverse((self.nodes[node].cost, node))).collect();
        let (mut moved, mut last) = (Vec::new(), None);
        while let Some(Reverse(next)) = waits.pop() {
            let (cost, node) = next;
            if last == Some(next) || node == 0 || cost == FAR || cost != self.nodes[node].cost {
                continue;
            }
            last = Some(next);
            let hops = self.hops_at(node);
            if hops != self.nodes[node].hops {
                self.nodes[node].hops = hops;
                moved.push(node);
                for (to, metric) in &self.nodes[node].rows {
                    if cost + metric == self.nodes[*to].cost {
                        waits.push(Reverse((cost + metric, *to)));
                    }
                }
            }
        }
        moved
    }

    /// A prefix's route by the nodes that tell it.
    fn route(&mut self, prefix: u64) {
        let (mut best, mut hops) = (FAR, 0);
        for (node, metric) in self.tellers.get(&prefix).into_iter().flatten() {
            let node = &self.nodes[*node];
            if !node.live || node.cost == FAR {
                continue;
            }
            let cost = node.cost + metric;
            if cost < best {
                (best, hops) = (cost, node.hops);
            } else if cost == best {
                hops |= node.hops;
            }
        }
        if best == FAR {
            self.routes.remove(&prefix);
        } else {
            self.routes.insert(prefix, (best, hops));
        }
    }

    /// A node tells other prefixes: these are to be looked at.
    fn tell(&mut self, node: usize, ways: Vec<(u64, u64)>) -> Vec<u64> {
        if self.nodes[node].live && self.nodes[node].ways == ways {
            return Vec::new();
        }
        let old = std::mem::replace(&mut self.nodes[node].ways, ways);
        for (prefix, _) in &old {
            self.tellers.get_mut(prefix).unwrap().retain(|teller| teller.0 != node);
        }
        for (prefix, metric) in &self.nodes[node].ways {
            self.tellers.entry(*prefix).or_default().push((node, *metric));
        }
        old.iter().chain(&self.nodes[node].ways).map(|way| way.0).collect()
    }

    /// An LSP was stored: what it moves is repaired, or all is made anew.
    fn store(&mut self, own: u64, system: u64, lsp: &[u8], mode: Mode) {
        if mode == Mode::None {
            return;
        }
        self.place(own);
        let node = self.place(system);
        let (rows, ways) = self.read(lsp);
        let mut prefixes = self.tell(node, ways);
        let same = self.nodes[node].live && self.nodes[node].rows == rows;
        let old = std::mem::replace(&mut self.nodes[node].rows, rows);
        self.nodes[node].live = true;
        let dearer = old.iter().any(|row| !self.nodes[node].rows.iter().any(|new| new.0 == row.0 && new.1 <= row.1));
        if node == 0 {
            self.first = self.nodes[0].rows.iter().map(|row| row.0).collect();
        }
        let moved = if mode == Mode::Scratch || dearer || node == 0 {
            self.anew()
        } else if same {
            Vec::new()
        } else {
            self.nearer(node)
        };
        prefixes.extend(moved.iter().flat_map(|node| self.nodes[*node].ways.iter().map(|way| way.0)));
        if mode == Mode::Scratch {
            prefixes = self.tellers.keys().copied().collect();
        }
        prefixes.sort_unstable();
        prefixes.dedup();
        for prefix in prefixes {
            self.route(prefix);
        }
    }

    /// All routes of these LSPs, each with its system.
    fn all_routes<'a>(&mut self, own: u64, lsps: impl Iterator<Item = (u64, &'a [u8])>) {
        self.place(own);
        for (system, lsp) in lsps {
            let node = self.place(system);
            let (rows, ways) = self.read(lsp);
            self.tell(node, ways);
            self.nodes[node].rows = rows;
            self.nodes[node].live = true;
        }
        self.first = self.nodes[0].rows.iter().map(|row| row.0).collect();
        self.anew();
        for prefix in self.tellers.keys().copied().collect::<Vec<_>>() {
            self.route(prefix);
        }
    }

    /// All costs and hops anew: the nodes that moved.
    fn anew(&mut self) -> Vec<usize> {
        let old: Vec<_> = self.nodes.iter().map(|node| (node.cost, node.hops)).collect();
        self.all_costs();
        let mut order: Vec<_> = (1..self.nodes.len()).filter(|node| self.nodes[*node].cost != FAR).collect();
        order.sort_unstable_by_key(|node| self.nodes[*node].cost);
        for node in order {
            self.nodes[node].hops = self.hops_at(node);
        }
        (0..self.nodes.len()).filter(|node| *node == 0 || old[*node] != (self.nodes[*node].cost, self.nodes[*node].hops)).collect()
    }

    /// Rows came at a node or got cheaper: the nodes that moved.
    fn nearer(&mut self, node: usize) -> Vec<usize> {
        let mut waits = BinaryHeap::new();
        let mut even = Vec::new();
        let ends: Vec<_> = self.nodes[node].rows.iter().map(|row| row.0).collect();
        for (from, to) in ends.iter().flat_map(|end| [(node, *end), (*end, node)]) {
            let metric = self.nodes[from].rows.iter().find(|row| row.0 == to).map_or(FAR, |row| row.1);
            if metric == FAR || self.nodes[from].cost == FAR || !self.usable(from, to) {
                continue;
            }
            let cost = self.nodes[from].cost + metric;
            if cost < self.nodes[to].cost {
                self.nodes[to].cost = cost;
                waits.push(Reverse((cost, to)));
            }
            even.push(to);
        }
        let (fell, more) = self.search(waits);
        let others = self.hops_from(fell.iter().copied().chain(even).chain(more));
        fell.into_iter().chain(others).collect()
    }
}

// ---- a router

struct Entry {
    id: u64,
    number: u64,
    checksum: [u8; 2],
    left: u64,
    lsp: Vec<u8>,
    srm: u64,
    ssn: u64,
    waits: [u8; 8],
}

#[derive(Clone, Copy, PartialEq)]
enum State {
    Down,
    Initializing,
    Up,
}

struct Circuit {
    other: (usize, usize),
    state: State,
    neighbour: u64,
    neighbour_id: u64,
    hello_in: u8,
    psnp_in: u8,
    csnp: bool,
    srm: u32,
    ssn: u32,
}

struct Router {
    system: u64,
    prefixes: Vec<(u64, u64)>,
    circuits: Vec<Circuit>,
    entries: Vec<Entry>,
    contents: Vec<u8>,
    age: u32,
    paths: Paths,
    stores: usize,
}

fn frame(system: u64, kind: u8, header: u8) -> Vec<u8> {
    let mut octets = Vec::with_capacity(128);
    octets.extend_from_slice(b"ISU2");
    put(&mut octets, system, 6);
    put(&mut octets, 1, 4);
    octets.extend_from_slice(&[0x83, header, 1, 0, kind, 1, 0, 0]);
    octets
}

/// The PDU's length is put at this place of the datagram.
fn finish(mut octets: Vec<u8>, at: usize) -> Vec<u8> {
    let length = (octets.len() - 14) as u16;
    octets[at..at + 2].copy_from_slice(&length.to_be_bytes());
    octets
}

impl Entry {
    fn describe(&self, to: &mut Vec<u8>) {
        put(to, self.left, 2);
        put(to, self.id, 8);
        put(to, self.number, 4);
        to.extend_from_slice(&self.checksum);
    }

    fn flag(&mut self, at: usize, circuit: &mut Circuit) {
        circuit.srm += u32::from(self.srm >> at & 1 == 0);
        self.srm |= 1 << at;
        self.waits[at] = 0;
    }

    fn unflag(&mut self, at: usize, circuit: &mut Circuit) {
        circuit.srm -= (self.srm >> at & 1) as u32;
        self.srm &= !(1 << at);
    }

    fn owe(&mut self, at: usize, circuit: &mut Circuit) {
        circuit.ssn += u32::from(self.ssn >> at & 1 == 0);
        self.ssn |= 1 << at;
    }

    fn disown(&mut self, at: usize, circuit: &mut Circuit) {
        circuit.ssn -= (self.ssn >> at & 1) as u32;
        self.ssn &= !(1 << at);
    }
}

fn describe(entries: &[&Entry], to: &mut Vec<u8>) {
    for part in entries.chunks(ENTRIES) {
        to.extend_from_slice(&[9, 16 * part.len() as u8]);
        part.iter().for_each(|entry| entry.describe(to));
    }
}

impl Router {
    fn find(&self, id: u64) -> Result<usize, usize> {
        self.entries.binary_search_by_key(&id, |entry| entry.id)
    }

    /// An LSP is kept in place of what was kept, and goes on by all circuits but the one that it came on.
    fn install(&mut self, id: u64, lsp: Vec<u8>, from: Option<usize>, mode: Mode) {
        self.stores += 1;
        self.paths.store(self.system, id >> 16, &lsp, mode);
        let place = match self.find(id) {
            Ok(place) => place,
            Err(place) => {
                self.entries.insert(place, Entry { id, number: 0, checksum: [0; 2], left: 0, lsp: Vec::new(), srm: 0, ssn: 0, waits: [0; 8] });
                place
            }
        };
        let entry = &mut self.entries[place];
        entry.number = number(&lsp[20..24]);
        entry.checksum = [lsp[24], lsp[25]];
        entry.left = number(&lsp[10..12]);
        entry.lsp = lsp;
        for (at, circuit) in self.circuits.iter_mut().enumerate().filter(|circuit| circuit.1.state == State::Up) {
            if from == Some(at) {
                entry.unflag(at, circuit);
                entry.owe(at, circuit);
            } else {
                entry.flag(at, circuit);
                entry.disown(at, circuit);
            }
        }
    }

    fn wanted(&self) -> Vec<u8> {
        let mut tlvs = vec![1, 4];
        tlvs.extend_from_slice(&AREA);
        tlvs.extend_from_slice(&[129, 1, 0xcc]);
        let mut neighbours: Vec<_> = self.circuits.iter().filter(|circuit| circuit.state == State::Up).map(|circuit| circuit.neighbour).collect();
        neighbours.sort_unstable();
        if !neighbours.is_empty() {
            tlvs.extend_from_slice(&[22, 11 * neighbours.len() as u8]);
        }
        for neighbour in neighbours {
            put(&mut tlvs, neighbour, 6);
            put(&mut tlvs, 10, 4);
            tlvs.push(0);
        }
        for part in self.prefixes.chunks(31) {
            tlvs.extend_from_slice(&[135, 8 * part.len() as u8]);
            for (address, metric) in part {
                put(&mut tlvs, *metric, 4);
                tlvs.push(24);
                put(&mut tlvs, address >> 8, 3);
            }
        }
        tlvs
    }

    fn second(&mut self, mode: Mode) {
        self.age += 1;
        for circuit in &mut self.circuits {
            circuit.hello_in = circuit.hello_in.saturating_sub(1);
            circuit.psnp_in = circuit.psnp_in.saturating_sub(1);
        }
        for entry in &mut self.entries {
            entry.left -= u64::from(entry.left > 1);
            if entry.srm != 0 {
                entry.waits.iter_mut().for_each(|wait| *wait = wait.saturating_sub(1));
            }
        }
        let wanted = self.wanted();
        let issued = !self.contents.is_empty();
        if issued && self.age < 900 && (wanted == self.contents || self.age < 5) {
            return;
        }
        let id = self.system << 16;
        let last = self.find(id).map_or(0, |place| self.entries[place].number);
        let mut lsp = vec![0x83, 27, 1, 0, 18, 1, 0, 0];
        put(&mut lsp, (HEADER + wanted.len()) as u64, 2);
        put(&mut lsp, 1200, 2);
        put(&mut lsp, id, 8);
        put(&mut lsp, last + 1, 4);
        lsp.extend_from_slice(&[0, 0, 1]);
        lsp.extend_from_slice(&wanted);
        let sum = checksum(&lsp[12..]);
        lsp[24..26].copy_from_slice(&sum);
        self.contents = wanted;
        self.age = 0;
        self.install(id, lsp, None, mode);
    }

    fn hello(&mut self, at: usize) -> Vec<u8> {
        let system = self.system;
        let circuit = &mut self.circuits[at];
        circuit.hello_in = 10;
        let mut hello = frame(system, 17, 20);
        hello.push(1);
        put(&mut hello, system, 6);
        put(&mut hello, 30, 2);
        hello.extend_from_slice(&[0, 0, at as u8 + 1, 1, 4]);
        hello.extend_from_slice(&AREA);
        hello.extend_from_slice(&[129, 1, 0xcc, 240]);
        let (length, state) = match circuit.state {
            State::Down => (5, 2),
            State::Initializing => (15, 1),
            State::Up => (15, 0),
        };
        hello.extend_from_slice(&[length, state]);
        put(&mut hello, 257 + at as u64, 4);
        if length == 15 {
            put(&mut hello, circuit.neighbour, 6);
            put(&mut hello, circuit.neighbour_id, 4);
        }
        finish(hello, 31)
    }

    /// What is due on a circuit.
    fn pull(&mut self, at: usize) -> Vec<Vec<u8>> {
        let mut sent = Vec::new();
        if self.circuits[at].hello_in == 0 {
            sent.push(self.hello(at));
        }
        if self.circuits[at].state != State::Up {
            return sent;
        }
        if std::mem::take(&mut self.circuits[at].csnp) {
            self.csnps(&mut sent);
        }
        if self.circuits[at].srm > 0 {
            self.lsps(at, &mut sent);
        }
        if self.circuits[at].ssn > 0 && self.circuits[at].psnp_in == 0 {
            self.psnps(at, &mut sent);
        }
        sent
    }

    fn csnps(&self, sent: &mut Vec<Vec<u8>>) {
        let entries: Vec<_> = self.entries.iter().collect();
        let mut start = 0;
        let count = entries.len().div_ceil(LISTED).max(1);
        for part in 0..count {
            let part_of = &entries[part * LISTED..entries.len().min((part + 1) * LISTED)];
            let end = if part + 1 == count { FAR } else { part_of[part_of.len() - 1].id };
            let mut csnp = frame(self.system, 24, 33);
            put(&mut csnp, 0, 2);
            put(&mut csnp, self.system, 6);
            csnp.push(0);
            put(&mut csnp, start, 8);
            put(&mut csnp, end, 8);
            describe(part_of, &mut csnp);
            start = end.wrapping_add(1);
            sent.push(finish(csnp, 22));
        }
    }

    fn lsps(&mut self, at: usize, sent: &mut Vec<Vec<u8>>) {
        let system = self.system;
        for entry in self.entries.iter_mut().filter(|entry| entry.srm >> at & 1 == 1 && entry.waits[at] == 0) {
            let mut datagram = Vec::with_capacity(14 + entry.lsp.len());
            datagram.extend_from_slice(b"ISU2");
            put(&mut datagram, system, 6);
            put(&mut datagram, 1, 4);
            datagram.extend_from_slice(&entry.lsp);
            datagram[24..26].copy_from_slice(&(entry.left as u16).to_be_bytes());
            entry.waits[at] = 5;
            sent.push(datagram);
        }
    }

    fn psnps(&mut self, at: usize, sent: &mut Vec<Vec<u8>>) {
        let circuit = &mut self.circuits[at];
        circuit.psnp_in = 2;
        let mut owed = Vec::new();
        for entry in self.entries.iter_mut().filter(|entry| entry.ssn >> at & 1 == 1) {
            entry.disown(at, circuit);
            owed.push(&*entry);
        }
        for part in owed.chunks(LISTED) {
            let mut psnp = frame(self.system, 26, 17);
            put(&mut psnp, 0, 2);
            put(&mut psnp, self.system, 6);
            psnp.push(0);
            describe(part, &mut psnp);
            sent.push(finish(psnp, 22));
        }
    }

    fn take(&mut self, at: usize, datagram: &[u8], mode: Mode) {
        if datagram.len() < 32 || &datagram[..4] != b"ISU2" || datagram[14] != 0x83 || datagram[16] != 1 {
            return;
        }
        let pdu = &datagram[14..];
        match pdu[4] {
            17 => self.take_hello(at, pdu),
            18 => self.take_lsp(at, pdu, mode),
            kind => self.take_list(at, pdu, kind == 24),
        }
    }

    fn take_hello(&mut self, at: usize, pdu: &[u8]) {
        let mut left = &pdu[20..];
        let mut told: &[u8] = &[];
        while let [code, length, rest @ ..] = left {
            let (value, rest) = rest.split_at(usize::from(*length));
            if *code == 240 {
                told = value;
            }
            left = rest;
        }
        if told.len() == 15 && (number(&told[5..11]) != self.system || number(&told[11..]) != 257 + at as u64) {
            return;
        }
        let circuit = &mut self.circuits[at];
        let old = circuit.state;
        circuit.state = match (old, told[0]) {
            (_, 2) => State::Initializing,
            (State::Down, 0) => State::Down,
            _ => State::Up,
        };
        circuit.neighbour = number(&pdu[9..15]);
        circuit.neighbour_id = number(&told[1..5]);
        if circuit.state == old {
            return;
        }
        circuit.hello_in = 0;
        if circuit.state == State::Up {
            circuit.csnp = true;
            for entry in &mut self.entries {
                entry.flag(at, circuit);
            }
        }
    }

    fn take_lsp(&mut self, at: usize, pdu: &[u8], mode: Mode) {
        let id = number(&pdu[12..20]);
        if self.circuits[at].state != State::Up || sums(&pdu[12..]) != (0, 0) || id >> 16 == self.system {
            return;
        }
        let newer = number(&pdu[20..24]);
        let place = match self.find(id) {
            Ok(place) if newer <= self.entries[place].number => place,
            _ => return self.install(id, pdu.to_vec(), Some(at), mode),
        };
        let (entry, circuit) = (&mut self.entries[place], &mut self.circuits[at]);
        if newer == entry.number {
            entry.unflag(at, circuit);
            entry.owe(at, circuit);
        } else {
            entry.flag(at, circuit);
            entry.disown(at, circuit);
        }
    }

    fn take_list(&mut self, at: usize, pdu: &[u8], complete: bool) {
        if self.circuits[at].state != State::Up {
            return;
        }
        let mut listed = Vec::new();
        let mut left = &pdu[if complete { 33 } else { 17 }..];
        while let [_, length, rest @ ..] = left {
            let (value, rest) = rest.split_at(usize::from(*length));
            for entry in value.chunks(16) {
                let (id, told) = (number(&entry[2..10]), number(&entry[10..14]));
                listed.push(id);
                self.compare(at, id, told);
            }
            left = rest;
        }
        if complete {
            let (start, end) = (number(&pdu[17..25]), number(&pdu[25..33]));
            let mut listed = listed.into_iter().peekable();
            let circuit = &mut self.circuits[at];
            for entry in self.entries.iter_mut().filter(|entry| (start..=end).contains(&entry.id) && entry.number > 0) {
                while listed.next_if(|id| *id < entry.id).is_some() {}
                if listed.peek() != Some(&entry.id) {
                    entry.flag(at, circuit);
                }
            }
        }
    }

    fn compare(&mut self, at: usize, id: u64, told: u64) {
        let place = match self.find(id) {
            Ok(place) => place,
            Err(place) => {
                self.entries.insert(place, Entry { id, number: 0, checksum: [0; 2], left: 0, lsp: Vec::new(), srm: 0, ssn: 0, waits: [0; 8] });
                place
            }
        };
        let (entry, circuit) = (&mut self.entries[place], &mut self.circuits[at]);
        if told == entry.number {
            entry.unflag(at, circuit);
        } else if told < entry.number {
            entry.disown(at, circuit);
            entry.flag(at, circuit);
        } else {
            entry.owe(at, circuit);
            entry.unflag(at, circuit);
        }
    }
}

// ---- the grid

fn grid(side: u64, prefixes: u64) -> Vec<Router> {
    let mut routers: Vec<_> = (0..side * side)
        .map(|at| {
            let (row, column) = (at / side + 1, at % side + 1);
            let first = 10 << 24 | row << 16 | column << 8;
            Router {
                system: row << 16 | column,
                prefixes: (0..prefixes).map(|at| (first + (at << 24), 10)).collect(),
                circuits: Vec::new(),
                entries: Vec::new(),
                contents: Vec::new(),
                age: 0,
                paths: Paths::default(),
                stores: 0,
            }
        })
        .collect();
    let across = (0..side * side).filter(|at| at % side + 1 < side).map(|at| (at, at + 1));
    let down = (0..side * (side - 1)).map(|at| (at, at + side));
    for (one, two) in across.chain(down) {
        let (one, two) = (one as usize, two as usize);
        let ends = [(one, routers[one].circuits.len()), (two, routers[two].circuits.len())];
        for (end, other) in [(one, ends[1]), (two, ends[0])] {
            routers[end].circuits.push(Circuit { other, state: State::Down, neighbour: 0, neighbour_id: 0, hello_in: 0, psnp_in: 0, csnp: false, srm: 0, ssn: 0 });
        }
    }
    routers
}

fn main() {
    let words: Vec<_> = std::env::args().collect();
    let side = words[1].parse().unwrap();
    let mode = match words[2].as_str() {
        "repair" => Mode::Repair,
        "scratch" => Mode::Scratch,
        _ => Mode::None,
    };
    let seconds = words.get(3).map_or(60, |word| word.parse().unwrap());
    let mut routers = grid(side, words.get(4).map_or(1, |word| word.parse().unwrap()));
    let mut sent: Vec<Vec<u8>> = Vec::new();
    for _ in 0..seconds {
        routers.iter_mut().for_each(|router| router.second(mode));
        for router in 0..routers.len() {
            for at in 0..routers[router].circuits.len() {
                let due = routers[router].pull(at);
                let (other, circuit) = routers[router].circuits[at].other;
                for datagram in due {
                    routers[other].take(circuit, &datagram, mode);
                    sent.push(datagram);
                }
            }
        }
    }
    if words[2] == "end" {
        for router in &mut routers {
            let lsps = router.entries.iter().map(|entry| (entry.id >> 16, entry.lsp.as_slice()));
            router.paths.all_routes(router.system, lsps);
        }
    }
    let routes: Vec<_> = routers.iter().flat_map(|router| router.paths.routes.values()).collect();
    println!(
        "datagrams {} stores {} routes {} cost {} greatest {}",
        sent.len(),
        routers.iter().map(|router| router.stores).sum::<usize>(),
        routes.len(),
        routes.iter().map(|route| route.0).sum::<u64>(),
        routes.iter().map(|route| route.0).max().unwrap_or(0)
    );
}
