//! What the turn lock is measured against: `std::sync::Mutex` around a number, taken and let go 400,000 times by one, two and
//! four threads. Prints the nanoseconds that they take, in the fastest of five rounds.

use std::hint::black_box;
use std::sync::Mutex;
use std::thread;
use std::time::Instant;

const ROUNDS: usize = 5;
const TURNS: u64 = 400_000;

fn timed(threads: u64) -> u128 {
    let shared = Mutex::new(0u64);
    let start = Instant::now();
    thread::scope(|scope| {
        for _ in 0..threads {
            scope.spawn(|| {
                for _ in 0..TURNS / threads {
                    black_box(&mut *shared.lock().expect("no thread panics"));
                }
            });
        }
    });
    start.elapsed().as_nanos()
}

fn main() {
    for threads in [1, 2, 4] {
        let least = (0..ROUNDS).map(|_| timed(threads)).min().expect("some rounds");
        println!("threads_{threads} {TURNS} {least}");
    }
}
