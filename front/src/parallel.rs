//! Does the same for each of many items, on several threads.

use std::sync::atomic::{AtomicUsize, Ordering};

/// So few are done by one thread.
const FEW: usize = 64;
const MAX_THREADS: usize = 8;

/// On how many threads a lot is done. The system is asked once, as it reads files for the answer.
pub(crate) fn threads() -> usize {
    static KNOWN: AtomicUsize = AtomicUsize::new(0);
    match KNOWN.load(Ordering::Relaxed) {
        0 => {
            let threads = std::thread::available_parallelism().map_or(1, usize::from).min(MAX_THREADS);
            KNOWN.store(threads, Ordering::Relaxed);
            threads
        }
        known => known,
    }
}

/// The results of a function for some items, in their order, computed by several threads.
pub(crate) fn map_all<T: Sync, R: Send>(items: &[T], act: &(dyn Fn(&T) -> R + Sync)) -> Vec<R> {
    let threads = match items.len() {
        0..=FEW => 1,
        _ => threads(),
    };
    if threads <= 1 {
        return items.iter().map(act).collect();
    }
    let size = (items.len() + threads - 1) / threads;
    std::thread::scope(|scope| {
        let of = |part| scope.spawn(move || Vec::from_iter(<[T]>::iter(part).map(act)));
        let running: Vec<_> = items.chunks(size).map(of).collect();
        let done = |thread: std::thread::ScopedJoinHandle<'_, Vec<R>>| match thread.join() {
            Ok(done) => done,
            Err(panic) => std::panic::resume_unwind(panic),
        };
        running.into_iter().flat_map(done).collect()
    })
}

/// Does two things at once, the first on a thread of its own; it is not done, and `None`, if none can be started.
pub(crate) fn beside<A: Send, B>(first: impl FnOnce() -> A + Send, second: impl FnOnce() -> B) -> (Option<A>, B) {
    std::thread::scope(|scope| {
        let thread = std::thread::Builder::new().spawn_scoped(scope, first).ok();
        let second = second();
        let first = thread.map(|thread| match thread.join() {
            Ok(first) => first,
            Err(panic) => std::panic::resume_unwind(panic),
        });
        (first, second)
    })
}

#[cfg(test)]
mod tests {
    use super::{beside, map_all};

    #[test]
    fn all_in_their_order() {
        for count in [0, 1, 64, 65, 1000] {
            let items: Vec<usize> = (0..count).collect();
            let wanted: Vec<usize> = items.iter().map(|one| one * 2).collect();
            assert_eq!(map_all(&items, &|one| one * 2), wanted);
        }
    }

    #[test]
    fn one_beside_another() {
        let (mut one, mut other) = (0, 0);
        let done = beside(|| one += 1, || other += 2);
        assert_eq!((done, one, other), ((Some(()), ()), 1, 2));
    }
}
