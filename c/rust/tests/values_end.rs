//! Each value is dropped once: with its container, whoever pushed it, or with the last pass.
use lockfree::{Queue, QueuePass, Ring, Stack};
use std::panic::{catch_unwind, AssertUnwindSafe};
use std::sync::atomic::{AtomicUsize, Ordering};
use std::sync::{Arc, Mutex};

/// How many of `value` there are beside this one.
fn others<T>(value: &Arc<T>) -> usize {
    Arc::strong_count(value) - 1
}

#[test]
fn what_a_pass_pushes_after_its_container_ends_with_the_pass() {
    let value = Arc::new(());
    let (queue, stack) = (Queue::new(8).unwrap(), Stack::new(8).unwrap());
    let (mut of_queue, mut of_stack) = (queue.pass().unwrap(), stack.pass().unwrap());
    drop((queue, stack));
    assert!(of_queue.push(value.clone()).is_ok() && of_stack.push((value.clone(), 0u64)).is_ok());
    assert_eq!(others(&value), 2);
    drop((of_queue, of_stack));
    assert_eq!(others(&value), 0);
}

#[test]
fn the_container_ends_before_or_after_its_passes() {
    let value = Arc::new(());
    for passes_first in [true, false] {
        let queue = Queue::new(8).unwrap();
        let mut passes: Vec<_> = (0..4).map(|_| queue.pass().unwrap()).collect();
        for pass in &mut passes {
            assert!(pass.push(value.clone()).is_ok());
        }
        if passes_first {
            passes.clear();
            assert_eq!(others(&value), 4);
        }
        drop(queue);
        assert_eq!(others(&value), 0);
    }
}

#[test]
fn values_end_also_if_the_container_gives_no_pass_any_more() {
    let value = Arc::new(());
    let stack = Stack::new(4).unwrap();
    for _ in 0..3 {
        assert!(stack.pass().unwrap().push(value.clone()).is_ok());
    }
    let passes: Vec<_> = std::iter::from_fn(|| stack.pass().ok()).collect();
    assert!(passes.len() >= 65_534 - 3);
    drop(passes);
    drop(stack);
    assert_eq!(others(&value), 0);
}

/// A value whose drop panics, after it was counted.
struct Panics {
    dropped: Arc<AtomicUsize>,
    _more: [u64; 2],
}

impl Drop for Panics {
    fn drop(&mut self) {
        self.dropped.fetch_add(1, Ordering::Relaxed);
        panic!("on purpose");
    }
}

fn dropped(end: impl FnOnce(&Arc<AtomicUsize>)) -> usize {
    let count = Arc::new(AtomicUsize::new(0));
    let _ = catch_unwind(AssertUnwindSafe(|| end(&count)));
    count.load(Ordering::Relaxed)
}

#[test]
fn a_drop_that_panics_leaks_no_other_value() {
    let values = |count: &Arc<AtomicUsize>| -> Vec<Panics> {
        (0..4).map(|_| Panics { dropped: count.clone(), _more: [0; 2] }).collect()
    };
    let with_the_container = |count: &Arc<AtomicUsize>| {
        let queue = Queue::new(8).unwrap();
        let mut pass = queue.pass().unwrap();
        values(count).into_iter().for_each(|value| assert!(pass.push(value).is_ok()));
        drop(queue);
    };
    let with_the_last_pass = |count: &Arc<AtomicUsize>| {
        let stack = Stack::new(8).unwrap();
        let mut pass = stack.pass().unwrap();
        drop(stack);
        assert!(pass.push_range(values(count)).is_ok());
        drop(pass);
    };
    let in_a_fold = |count: &Arc<AtomicUsize>| {
        let stack = Stack::new(8).unwrap();
        let mut pass = stack.pass().unwrap();
        assert!(pass.push_range(values(count)).is_ok());
        let _ = pass.consume_all_atomic(drop);
    };
    assert_eq!(dropped(with_the_container), 4);
    assert_eq!(dropped(with_the_last_pass), 4);
    assert_eq!(dropped(in_a_fold), 4);
}

#[test]
fn what_a_spent_container_holds_is_dropped() {
    let value = Arc::new(());
    let stack = Stack::with_tag_limit(64, 20).unwrap();
    let mut pass = stack.pass().unwrap();
    let pushed = (0..64).take_while(|_| pass.push((value.clone(), [0u64; 4])).is_ok()).count();
    assert!(pushed > 0 && others(&value) == pushed);
    assert_eq!(pass.pop().unwrap_err(), lockfree::PopError::Spent);
    assert_eq!(pass.wear(), 1.0);
    drop((stack, pass));
    assert_eq!(others(&value), 0);
}

#[test]
fn what_a_shut_container_holds_is_dropped() {
    let value = Arc::new(());
    let queue = Queue::new(8).unwrap();
    let mut pass = queue.pass().unwrap();
    assert!(pass.push(value.clone()).is_ok() && pass.push(value.clone()).is_ok());
    assert!(pass.shut() && pass.pop() == Err(lockfree::PopError::Shut));
    drop((queue, pass));
    assert_eq!(others(&value), 0);
}

#[test]
fn a_value_may_hold_a_pass_of_its_container() {
    struct Holds(#[allow(dead_code)] Arc<()>, #[allow(dead_code)] Option<lockfree::QueuePass<Holds>>);
    let value = Arc::new(());
    let queue = Queue::new(4).unwrap();
    let mut pass = queue.pass().unwrap();
    let other = queue.pass().unwrap();
    assert!(pass.push(Holds(value.clone(), Some(other))).is_ok());
    assert!(pass.push(Holds(value.clone(), None)).is_ok());
    drop((queue, pass));
    assert_eq!(others(&value), 0);
}

/// When it is dropped it pushes another of its kind, by a pass that is out.
struct PushesAgain {
    by: Arc<Mutex<Option<QueuePass<PushesAgain>>>>,
    dropped: Arc<AtomicUsize>,
}

/// More drops than any test here asks for: a drop that has no end comes to this number.
const MANY: usize = 10_000;

impl Drop for PushesAgain {
    fn drop(&mut self) {
        if self.dropped.fetch_add(1, Ordering::Relaxed) < MANY {
            // (taken out, since the push may drop a value)
            let pass = self.by.lock().unwrap().take();
            if let Some(mut pass) = pass {
                let _ = pass.push(PushesAgain { by: self.by.clone(), dropped: self.dropped.clone() });
                *self.by.lock().unwrap() = Some(pass);
            }
        }
    }
}

#[test]
fn a_container_drops_at_most_its_capacity_of_values_that_push_again() {
    let dropped = Arc::new(AtomicUsize::new(0));
    let queue = Queue::new(4).unwrap();
    let by = Arc::new(Mutex::new(Some(queue.pass().unwrap())));
    let mut pass = queue.pass().unwrap();
    for _ in 0..3 {
        assert!(pass.push(PushesAgain { by: by.clone(), dropped: dropped.clone() }).is_ok());
    }
    drop(queue);
    assert_eq!(dropped.load(Ordering::Relaxed), 4);
    // The last pass ends what they pushed. Then they have none to push by.
    let last = by.lock().unwrap().take();
    drop(last);
    assert_eq!(dropped.load(Ordering::Relaxed), 4);
    drop(pass);
    assert_eq!((dropped.load(Ordering::Relaxed), Arc::strong_count(&by)), (7, 1));
}

#[test]
fn what_a_shut_container_holds_is_dropped_with_the_last_pass() {
    let value = Arc::new(());
    let (queue, stack, ring) = (Queue::new(4).unwrap(), Stack::new(4).unwrap(), Ring::new(4).unwrap());
    let (mut of_queue, mut of_stack, mut of_ring) =
        (queue.pass().unwrap(), stack.pass().unwrap(), ring.pass().unwrap());
    assert!(of_queue.push(value.clone()).is_ok() && of_queue.shut());
    assert!(of_stack.push(value.clone()).is_ok() && of_stack.shut());
    assert!(of_ring.push(value.clone()).is_ok() && of_ring.shut());
    drop((queue, stack, ring));
    assert_eq!(others(&value), 3);
    drop((of_queue, of_stack, of_ring));
    assert_eq!(others(&value), 0);
}

#[test]
fn what_a_spent_container_holds_is_dropped_with_the_last_pass() {
    let value = Arc::new(());
    let (queue, stack) = (Queue::with_tag_limit(8, 4).unwrap(), Stack::with_tag_limit(8, 4).unwrap());
    let (mut of_queue, mut of_stack) = (queue.pass().unwrap(), stack.pass().unwrap());
    while of_queue.push(value.clone()).is_ok() {}
    let in_the_queue = others(&value);
    while of_stack.push(value.clone()).is_ok() {}
    let in_the_stack = others(&value) - in_the_queue;
    assert_eq!((in_the_queue >= 3, in_the_stack), (true, 4));
    drop((queue, stack));
    assert_eq!(others(&value), in_the_stack);
    drop((of_queue, of_stack));
    assert_eq!(others(&value), 0);
}
