// Counters that threads fight over. `bump` may panic where it takes its slot, and `add`, which it calls, may not.
use std::hint::black_box;
use std::sync::atomic::{AtomicU64, Ordering};
use std::sync::Arc;
use std::thread;

struct Slot {
    own: AtomicU64,
}

#[inline(never)]
fn add(slot: &Slot) {
    slot.own.fetch_add(1, Ordering::Relaxed);
}

#[inline(never)]
fn bump(near: &[Slot], called: &[Slot], at: usize) {
    add(&called[at]);
    near[at].own.fetch_add(1, Ordering::Relaxed);
}

#[inline(never)]
fn made() -> Arc<Vec<Slot>> {
    let slots: Vec<Slot> = (0..black_box(4)).map(|_| Slot { own: AtomicU64::new(0) }).collect();
    assert!(slots[black_box(0)].own.load(Ordering::Relaxed) == 0);
    Arc::new(slots)
}

fn main() {
    let (near, called) = (made(), made());
    let all: Vec<_> = (0..4)
        .map(|me| {
            let (near, called) = (near.clone(), called.clone());
            thread::spawn(move || {
                for _ in 0..1000 {
                    bump(&near, &called, black_box(me));
                }
            })
        })
        .collect();
    for it in all {
        it.join().unwrap();
    }
}
