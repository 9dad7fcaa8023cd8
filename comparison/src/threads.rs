//! Work divided among threads.

use std::sync::atomic::{AtomicUsize, Ordering};
use std::thread;

const THREADS: usize = 2;

/// Does the works 0, 1, 2 and on, so many in all: what each thread made of those that fell to it.
pub fn divided<T: Default + Send>(works: usize, work: impl Fn(&mut T, usize) + Sync) -> Vec<T> {
    let next = AtomicUsize::new(0);
    let share = || {
        let mut made = T::default();
        loop {
            match next.fetch_add(1, Ordering::Relaxed) {
                place if place < works => work(&mut made, place),
                _ => return made,
            }
        }
    };
    thread::scope(|scope| {
        let workers: Vec<_> = (0..THREADS).map(|_| scope.spawn(share)).collect();
        workers.into_iter().map(|worker| worker.join().expect("see above")).collect()
    })
}
