//! Calls by `&`: those of a pass, by any number of threads that have none, also if no pass can be had.
use lockfree::{MakeError, PopError, PushError, Queue, Ring, Stack};
use std::panic::catch_unwind;
use std::sync::atomic::{AtomicBool, AtomicU64, Ordering};
use std::sync::Arc;
use std::time::{Duration, Instant};

#[test]
fn a_queue_by_one_thread() {
    let queue = Queue::new(2).unwrap();
    assert_eq!((queue.pop(), queue.is_empty(), queue.len(), queue.is_full()), (Err(PopError::Empty), true, 0, false));
    assert_eq!((queue.push("a".to_string()), queue.len(), queue.is_full()), (Ok(0), 1, false));
    assert_eq!((queue.push("b".to_string()), queue.is_empty(), queue.is_full()), (Ok(1), false, true));
    assert_eq!(queue.push("c".to_string()), Err(PushError::Full("c".to_string())));
    assert_eq!((queue.pop(), queue.len()), (Ok("a".to_string()), 1));
    assert_eq!((queue.is_closed(), queue.close(), queue.close(), queue.is_closed()), (false, true, false, true));
    assert_eq!(queue.push("d".to_string()), Err(PushError::Closed("d".to_string())));
    assert_eq!((queue.pop(), queue.pop()), (Ok("b".to_string()), Err(PopError::Closed)));
    assert_eq!((queue.shut(), queue.shut(), queue.pop()), (true, false, Err(PopError::Shut)));
}

#[test]
fn a_stack_and_a_ring_by_one_thread() {
    let (stack, ring) = (Stack::new(2).unwrap(), Ring::with_passes(2, 1).unwrap());
    for value in [1, 2] {
        assert!(stack.push(value).is_ok() && ring.push(value).is_ok());
    }
    assert_eq!((stack.push(3), ring.push(3)), (Err(PushError::Full(3)), Err(PushError::Full(3))));
    assert_eq!((ring.len(), ring.is_full(), ring.is_empty(), stack.is_empty()), (2, true, false, false));
    assert_eq!((stack.pop(), stack.pop(), stack.is_empty()), (Ok(2), Ok(1), true));
    assert_eq!((ring.pop(), ring.pop(), ring.is_empty()), (Ok(1), Ok(2), true));
    assert!(stack.close() && ring.close());
    assert_eq!((stack.pop(), ring.pop()), (Err(PopError::Closed), Err(PopError::Closed)));
}

#[test]
fn calls_by_reference_and_by_passes_are_of_one_container() {
    let queue = Queue::new(8).unwrap();
    let mut pass = queue.pass().unwrap();
    assert_eq!((pass.push([1; 4]), queue.push([2; 4]), pass.push([3; 4])), (Ok(0), Ok(1), Ok(2)));
    assert_eq!((queue.pop(), pass.pop(), queue.pop()), (Ok([1; 4]), Ok([2; 4]), Ok([3; 4])));
    assert!(queue.close() && pass.is_closed() && !pass.close());
}

/// What a container's calls by `&` are, for tests of all of them.
trait Shared: Send + Sync + 'static {
    fn push_wait(&self, value: u64);
    fn pop_wait(&self) -> Result<u64, PopError>;
    fn close(&self) -> bool;
}

macro_rules! shared {
    ($($Container:ident),*) => {
        $(impl Shared for $Container<(Box<u64>, [u64; 3])> {
            fn push_wait(&self, value: u64) {
                assert!(self.push_wait((Box::new(value), [0; 3]), None).is_ok());
            }
            fn pop_wait(&self) -> Result<u64, PopError> {
                self.pop_wait(None).map(|value| *value.0)
            }
            fn close(&self) -> bool {
                self.close()
            }
        })*
    };
}
shared!(Queue, Stack, Ring);

const EACH: u64 = 3_000;

/// Threads that have no pass move values. Each comes out once.
fn many_threads<C: Shared>(container: &Arc<C>, threads: u64) {
    let (sum, count) = (Arc::new(AtomicU64::new(0)), Arc::new(AtomicU64::new(0)));
    let putting: Vec<_> = (0..threads)
        .map(|side| {
            let container = container.clone();
            std::thread::spawn(move || {
                for i in 0..EACH {
                    container.push_wait(side * EACH + i);
                }
            })
        })
        .collect();
    let taking: Vec<_> = (0..threads)
        .map(|_| {
            let (container, sum, count) = (container.clone(), sum.clone(), count.clone());
            std::thread::spawn(move || {
                while let Ok(value) = container.pop_wait() {
                    sum.fetch_add(value, Ordering::Relaxed);
                    count.fetch_add(1, Ordering::Relaxed);
                }
            })
        })
        .collect();
    putting.into_iter().for_each(|thread| thread.join().unwrap());
    assert!(container.close());
    taking.into_iter().for_each(|thread| thread.join().unwrap());
    let all = threads * EACH;
    assert_eq!((count.load(Ordering::Relaxed), sum.load(Ordering::Relaxed)), (all, all * (all - 1) / 2));
}

#[test]
fn each_value_once() {
    many_threads(&Arc::new(Queue::new(64).unwrap()), 4);
    many_threads(&Arc::new(Stack::new(64).unwrap()), 4);
    many_threads(&Arc::new(Ring::new(64).unwrap()), 4);
    many_threads(&Arc::new(Queue::new(5).unwrap()), 2);
}

#[test]
fn each_value_once_if_few_passes_can_be_had() {
    for passes in [1, 3] {
        let ring = Arc::new(Ring::with_passes(16, passes).unwrap());
        many_threads(&ring, 4);
        // Whatever calls by `&` have made of them, all passes can be had.
        let all: Vec<_> = (0..passes).map(|_| ring.pass().unwrap()).collect();
        assert_eq!((ring.pass().err(), all.len()), (Some(MakeError::NoPass), passes as usize));
    }
}

#[test]
fn each_value_once_if_no_pass_can_be_had() {
    let ring = Arc::new(Ring::with_passes(16, 2).unwrap());
    let passes = (ring.pass().unwrap(), ring.pass().unwrap());
    assert_eq!(ring.pass().err(), Some(MakeError::NoPass));
    many_threads(&ring, 3);
    drop(passes);
}

#[test]
fn more_threads_than_places() {
    let queue = Queue::new(8).unwrap();
    std::thread::scope(|scope| {
        for side in 0..100u64 {
            let queue = &queue;
            scope.spawn(move || {
                for i in 0..100 {
                    queue.push_wait([side, i, 0], None).unwrap();
                    let [side, i, more] = queue.pop_wait(None).unwrap();
                    assert!(side < 100 && i < 100 && more == 0);
                }
            });
        }
    });
    assert_eq!((queue.len(), queue.push([0; 3])), (0, Ok(10_000)));
}

#[test]
fn each_stop_ends_a_wait() {
    let queue = Queue::new(1).unwrap();
    let mut pass = queue.pass().unwrap();
    let soon = Duration::from_millis(2);
    assert_eq!((queue.pop_wait(soon), pass.pop_wait(soon)), (Err(PopError::Late), Err(PopError::Late)));
    assert_eq!((queue.push_wait(1, None), pass.push_wait(2, soon)), (Ok(0), Err(PushError::Full(2))));
    let deadline = Instant::now() + soon;
    assert_eq!(
        (queue.push_wait(3, deadline), pass.push_wait(4, Some(deadline))),
        (Err(PushError::Full(3)), Err(PushError::Full(4)))
    );
    assert!(Instant::now() >= deadline);
    let mut asked = 0;
    let mut tries = || {
        asked += 1;
        asked == 300
    };
    assert_eq!((queue.push_wait(5, &mut tries), asked), (Err(PushError::Full(5)), 300));
    let stops = AtomicBool::new(true);
    assert_eq!(
        (queue.push_wait(6, &stops), queue.pop_wait(&stops), queue.pop_wait(&stops)),
        (Err(PushError::Full(6)), Ok(1), Err(PopError::Late))
    );
    std::thread::scope(|scope| {
        stops.store(false, Ordering::Release);
        let waiting = scope.spawn(|| queue.pop_wait(&stops));
        stops.store(true, Ordering::Release);
        assert_eq!(waiting.join().unwrap(), Err(PopError::Late));
    });
}

#[test]
fn a_pass_gives_another_as_long_as_there_are_some() {
    let ring = Ring::with_passes(4, 2).unwrap();
    let mut one = ring.pass().unwrap();
    let mut other = one.try_clone().unwrap();
    assert_eq!((one.try_clone().err(), other.push(1), one.pop()), (Some(MakeError::NoPass), Ok(0), Ok(1)));
    drop((ring, other));
    // (the container is gone, and passes are left)
    let mut other = one.try_clone().unwrap();
    assert_eq!((other.push(2), one.pop()), (Ok(1), Ok(2)));
}

#[test]
fn what_is_left_comes_out_at_the_end() {
    let (queue, stack, ring) = (Queue::new(4).unwrap(), Stack::with_tag_limit(4, 2).unwrap(), Ring::new(4).unwrap());
    for value in ["a", "b", "c"] {
        assert!(queue.push(value).is_ok() && ring.push(value).is_ok());
    }
    while stack.push("d").is_ok() {}
    assert!(queue.shut() && queue.pop().is_err() && stack.pop() == Err(PopError::Spent));
    assert_eq!(queue.into_iter().collect::<Vec<_>>(), ["a", "b", "c"]);
    assert_eq!(stack.into_iter().collect::<Vec<_>>(), ["d", "d"]);
    let mut pass = ring.pass().unwrap();
    let mut left = ring.into_iter();
    assert_eq!((left.next(), pass.pop(), left.next(), left.next()), (Some("a"), Ok("b"), Some("c"), None));
    assert!(pass.push("e").is_ok());
    assert_eq!((left.next(), left.next()), (Some("e"), None));
}

#[test]
fn what_is_not_taken_at_the_end_is_dropped() {
    let value = Arc::new(());
    for passes in [0, 1] {
        let queue = Queue::new(4).unwrap();
        (0..3).for_each(|i| assert!(queue.push((value.clone(), i)).is_ok()));
        let passes: Vec<_> = (0..passes).map(|_| queue.pass().unwrap()).collect();
        assert_eq!(queue.into_iter().next().map(|value| value.1), Some(0));
        assert_eq!(Arc::strong_count(&value), 1);
        drop(passes);
    }
}

#[test]
fn a_container_may_be_used_beyond_a_panic() {
    let queue = Queue::new(4).unwrap();
    assert!(queue.push(1).is_ok());
    assert!(catch_unwind(|| queue.pop().and(queue.pop()).unwrap()).is_err());
    assert!(queue.is_empty());
}

#[test]
fn values_may_borrow() {
    let text = "a b c".to_string();
    let stack = Stack::new(4).unwrap();
    std::thread::scope(|scope| {
        scope.spawn(|| text.split(' ').for_each(|word| assert!(stack.push(word).is_ok())));
    });
    assert_eq!(stack.into_iter().collect::<Vec<_>>(), ["c", "b", "a"]);
}
