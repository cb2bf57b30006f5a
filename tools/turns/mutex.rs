// Locks a mutex of Rust's library so many times, adds one, and unlocks it.
use std::hint::black_box;
use std::sync::Mutex;

fn main() {
    let count = std::env::args().nth(1).and_then(|n| n.parse().ok()).unwrap_or(0u64);
    let sum = Mutex::new(0usize);
    for _ in 0..count {
        let mut locked = black_box(&sum).lock().unwrap();
        *locked = locked.wrapping_add(1);
    }
    println!("{}", sum.into_inner().unwrap());
}
