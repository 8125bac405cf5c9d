//! The calls of main.rt.in over a `BTreeMap` whose keys and values are laid out as ours.
use std::collections::BTreeMap;
use std::time::Instant;

#[derive(Clone, Copy, PartialEq, Eq, PartialOrd, Ord)]
struct LspId {
    system: [u8; 6],
    pseudonode: u8,
    number: u8,
}

#[allow(dead_code)]
struct Key {
    number: u32,
    purged: bool,
}

#[allow(dead_code)]
struct Entry {
    key: Option<Key>,
    checksum: u16,
    flags: u8,
    left: u16,
    octets: Vec<u8>,
}

fn id(n: u64) -> LspId {
    let [a, b, c, d, e, f, pseudonode, number] = n.to_be_bytes();
    LspId { system: [a, b, c, d, e, f], pseudonode, number }
}

fn next(x: u64) -> u64 {
    let a = x ^ (x << 13);
    let b = a ^ (a >> 7);
    b ^ (b << 17)
}

fn entry(n: u64, octets: usize) -> Entry {
    Entry { key: None, checksum: n as u16, flags: 3, left: 1200, octets: vec![n as u8; octets] }
}

fn round(list: &[u64]) -> ([u128; 4], u64) {
    let start = Instant::now();
    let mut map = BTreeMap::new();
    for n in list {
        map.insert(id(*n), entry(*n, 0));
    }
    let put = start.elapsed().as_nanos();
    let start = Instant::now();
    let mut sum = 0u64;
    for n in list {
        if let Some(entry) = map.get(&id(*n)) {
            sum += u64::from(entry.checksum);
        }
    }
    let get = start.elapsed().as_nanos();
    let start = Instant::now();
    for (_, entry) in map.range(id(0)..=id(u64::MAX)) {
        sum += u64::from(entry.checksum);
    }
    let range = start.elapsed().as_nanos();
    let start = Instant::now();
    for n in list {
        if let Some(entry) = map.remove(&id(*n)) {
            sum += u64::from(entry.checksum);
        }
    }
    ([put, get, range, start.elapsed().as_nanos()], sum)
}

fn main() {
    let words: Vec<String> = std::env::args().collect();
    let count: u64 = words[2].parse().unwrap();
    let mut x = 88_172_645_463_325_252u64;
    let list: Vec<u64> = (0..count)
        .map(|_| {
            x = next(x);
            x
        })
        .collect();
    if words[1] == "hold" {
        let map: BTreeMap<_, _> = list.iter().map(|n| (id(*n), entry(*n, 200))).collect();
        println!("{}", map.len());
        return;
    }
    let (mut least, mut count) = ([u128::MAX; 4], 0);
    for _ in 0..7 {
        let (times, sum) = round(&list);
        for (best, time) in least.iter_mut().zip(times) {
            *best = time.min(*best);
        }
        count = sum;
    }
    println!("{} {} {} {} {count}", least[0], least[1], least[2], least[3]);
}
