// Statics of Rust, by either way to mangle their names.
use std::sync::atomic::{AtomicU64, Ordering};
use std::thread;

mod pool {
    use super::*;
    pub struct Slot {
        pub hits: AtomicU64,
    }
    pub static SLOTS: [Slot; 4] = [const { Slot { hits: AtomicU64::new(0) } }; 4];
}

fn main() {
    let all: Vec<_> = (0..4)
        .map(|me| {
            thread::spawn(move || {
                for _ in 0..1000 {
                    pool::SLOTS[me].hits.fetch_add(1, Ordering::Relaxed);
                }
            })
        })
        .collect();
    for it in all {
        it.join().unwrap();
    }
}
