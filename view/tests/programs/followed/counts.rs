// Counts of threads: in one vector the structures of all, each of which a thread writes alone.
use std::sync::atomic::{AtomicU64, Ordering::Relaxed};
use std::thread;

#[derive(Default)]
struct Counts {
    taken: AtomicU64,
    dropped: AtomicU64,
}

fn count(own: &Counts) {
    for step in 0..4000u64 {
        let of = if step % 4 == 0 { &own.dropped } else { &own.taken };
        of.store(of.load(Relaxed) + 1, Relaxed);
    }
}

fn main() {
    let counts: Vec<Counts> = (0..2).map(|_| Counts::default()).collect();
    thread::scope(|scope| {
        for own in &counts {
            scope.spawn(move || count(own));
        }
    });
    let all: u64 = counts.iter().map(|it| it.taken.load(Relaxed)).sum();
    std::process::exit((all != 6000) as i32);
}
