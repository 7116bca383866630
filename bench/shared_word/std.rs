//! Enters and leaves one `std::sync::RwLock`, as `src/main.rt` does with the shared word.
//!
//!     std WORKERS PAIRS KIND      KIND is read or write; each of 1, 2 or 4 workers makes so many pairs

use std::env;
use std::sync::RwLock;
use std::thread;

fn pairs(lock: &RwLock<u64>, kind: &str, pairs: u64) {
    if kind == "write" {
        for _ in 0..pairs {
            drop(lock.write().unwrap());
        }
    } else {
        for _ in 0..pairs {
            drop(lock.read().unwrap());
        }
    }
}

fn main() {
    let words: Vec<String> = env::args().collect();
    let workers: u64 = words[1].parse().unwrap();
    let count: u64 = words[2].parse().unwrap();
    let kind = words[3].as_str();
    let lock = RwLock::new(0u64);
    if workers == 1 {
        pairs(&lock, kind, count);
        return;
    }
    thread::scope(|scope| {
        for _ in 0..workers {
            scope.spawn(|| pairs(&lock, kind, count));
        }
    });
}
