//! The same turns at Rust's Mutex: `mutex 1`, `mutex 2` or `mutex 4`.
use std::hint::black_box;
use std::sync::{Barrier, Mutex};
use std::thread;
use std::time::Instant;

const ROUNDS: usize = 7;
const TURNS: u64 = 4_000_000;

fn take(start: &Barrier, count: &Mutex<u64>, turns: u64) {
    start.wait();
    for _ in 0..turns {
        *black_box(count).lock().unwrap() += 1;
    }
}

fn main() {
    let threads: usize = std::env::args().nth(1).unwrap().parse().unwrap();
    let mut spents = Vec::new();
    let mut turns = 0;
    for _ in 0..ROUNDS {
        let count = Mutex::new(0);
        let start = Barrier::new(threads);
        let share = TURNS / threads as u64;
        let clock = Instant::now();
        thread::scope(|scope| {
            for _ in 1..threads {
                scope.spawn(|| take(&start, &count, share));
            }
            take(&start, &count, share);
        });
        spents.push(clock.elapsed().as_nanos() as u64 / (TURNS / 1000));
        turns = count.into_inner().unwrap();
    }
    spents.sort();
    println!("{} {turns}", spents[ROUNDS / 2]);
}
