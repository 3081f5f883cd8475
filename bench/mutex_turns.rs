//! Turns per second of Rust's `std::sync::Mutex`, with one, two and four threads.
use std::sync::Mutex;
use std::time::Instant;

fn main() {
    let times: u64 = std::env::args().nth(1).and_then(|w| w.parse().ok()).unwrap_or(1000);
    for threads in [1u64, 2, 4] {
        let count = Mutex::new(0u64);
        let start = Instant::now();
        std::thread::scope(|scope| {
            for _ in 0..threads {
                scope.spawn(|| {
                    for _ in 0..times {
                        *count.lock().unwrap() += 1;
                    }
                });
            }
        });
        let nanos = start.elapsed().as_nanos().max(1);
        let count = count.into_inner().unwrap();
        println!("threads {threads}: mutex {count}, turns per second {}", count as u128 * 1_000_000_000 / nanos);
    }
}
