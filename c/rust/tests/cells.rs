//! Values that lie in cells: each comes out once, is dropped once, and exactly `capacity` fit, whoever pushed before.
use lockfree::{Pass, PopError, PushError, Queue, Stack};
use std::sync::atomic::{AtomicU64, Ordering};
use std::sync::Arc;
use std::time::{Duration, Instant};

/// A value in a cell, with a number, that is counted by an `Arc`.
struct Counted(#[allow(dead_code)] Arc<()>, u64, [u64; 4]);

/// For calls that would wait without an end if something is lost.
fn a_minute() -> Option<Instant> {
    Some(Instant::now() + Duration::from_secs(60))
}

fn many<K>(all: Arc<()>, threads: u64, each: u64, pass: impl Fn() -> Pass<Counted, K> + Sync) {
    let (sum, got, pass) = (&AtomicU64::new(0), &AtomicU64::new(0), &pass);
    std::thread::scope(|scope| {
        for side in 0..threads {
            let all = all.clone();
            scope.spawn(move || {
                let mut pass = pass();
                for i in 0..each {
                    pass.push_wait(Counted(all.clone(), side * each + i, [0; 4]), a_minute()).unwrap();
                }
            });
            scope.spawn(move || {
                let mut pass = pass();
                while got.load(Ordering::Relaxed) < threads * each {
                    match pass.pop_wait(Some(Instant::now() + Duration::from_millis(1))) {
                        Ok(value) => {
                            sum.fetch_add(value.1 + value.2[3], Ordering::Relaxed);
                            got.fetch_add(1, Ordering::Relaxed);
                        }
                        Err(why) => assert_eq!(why, PopError::Late),
                    }
                }
            });
        }
    });
    let n = threads * each;
    assert_eq!(sum.load(Ordering::Relaxed), n * (n - 1) / 2);
    assert_eq!(Arc::strong_count(&all), 2);
}

fn fills<K>(all: &Arc<()>, capacity: u64, pass: &mut Pass<Counted, K>) {
    for i in 0..capacity {
        assert!(pass.push(Counted(all.clone(), i, [0; 4])).is_ok());
    }
    assert!(matches!(pass.push(Counted(all.clone(), 9, [0; 4])), Err(PushError::Full(Counted(_, 9, _)))));
}

#[test]
fn each_value_once() {
    for (capacity, threads, each) in [(1, 2, 300), (5, 4, 1000), (200, 4, 2000), (64, 80, 5)] {
        let all = Arc::new(());
        let (queue, stack) = (Queue::new(capacity).unwrap(), Stack::new(capacity).unwrap());
        many(all.clone(), threads, each, || queue.pass().unwrap());
        many(all.clone(), threads, each, || stack.pass().unwrap());
        for _ in 0..3 {
            let (mut a, mut b) = (queue.pass().unwrap(), queue.pass().unwrap());
            fills(&all, u64::from(capacity), &mut a);
            assert_eq!(b.drain().count() as u32, capacity);
            let mut c = stack.pass().unwrap();
            fills(&all, u64::from(capacity), &mut c);
            assert_eq!(stack.pass().unwrap().consume_all_atomic(drop), Ok(u64::from(capacity)));
        }
        fills(&all, u64::from(capacity), &mut queue.pass().unwrap());
        drop((queue, stack));
        assert_eq!(Arc::strong_count(&all), 1);
    }
}

#[test]
fn closing_wakes_the_waiting() {
    let queue = Queue::new(2).unwrap();
    let mut pass = queue.pass().unwrap();
    let mut other = queue.pass().unwrap();
    std::thread::scope(|scope| {
        let waiting = scope.spawn(move || {
            let mut sum = 0u64;
            loop {
                match other.pop_wait(a_minute()) {
                    Ok(text) => sum += String::len(&text) as u64,
                    Err(why) => return (sum, why),
                }
            }
        });
        for i in 0..1000 {
            assert!(pass.push_wait("x".repeat(i % 7), a_minute()).is_ok());
        }
        assert!(pass.close() && !pass.close());
        assert!(matches!(pass.push_wait(String::new(), None), Err(PushError::Closed(_))));
        assert_eq!(waiting.join().unwrap(), (2997, PopError::Closed));
    });
    assert!(pass.shut() && pass.pop() == Err(PopError::Shut));
}

/// Makes values go in and out by each call, and compares them.
fn go_through<T: Clone + PartialEq + std::fmt::Debug>(values: [T; 4]) {
    let (queue, stack) = (Queue::new(4).unwrap(), Stack::new(4).unwrap());
    let (mut queue, mut stack) = (queue.pass().unwrap(), stack.pass().unwrap());
    for _ in 0..3 {
        for value in &values {
            assert!(queue.push(value.clone()).is_ok());
            assert_eq!(stack.push_range([value.clone()]).map(|pushed| pushed.count), Ok(1));
            assert!(!queue.is_empty() && !stack.is_empty());
        }
        assert_eq!(queue.push(values[0].clone()).unwrap_err().into_inner(), values[0]);
        assert_eq!(stack.push_range(values.clone()).unwrap_err().into_inner(), values);
        assert_eq!(queue.drain().collect::<Vec<_>>(), values);
        let mut seen = vec![stack.pop().unwrap()];
        assert!(stack.push(seen.pop().unwrap()).is_ok());
        assert_eq!(stack.consume_all_atomic_reversed(|value| seen.push(value)), Ok(4));
        assert_eq!(seen, values);
    }
}

#[derive(Clone, Debug, PartialEq)]
#[repr(align(64))]
struct Aligned(u8);

#[derive(Clone, Debug, PartialEq)]
#[repr(align(16))]
struct Nothing;

#[test]
fn values_of_each_size_and_alignment() {
    go_through([(); 4]);
    go_through([Nothing, Nothing, Nothing, Nothing]);
    go_through([true, false, true, true]);
    go_through([(1u8, 2u16), (3, 4), (5, 6), (7, 8)]);
    go_through([[1u8; 7], [2; 7], [3; 7], [4; 7]]);
    go_through([[1u8; 9], [2; 9], [3; 9], [4; 9]]);
    go_through([1.5f64, -0.25, 1e300, 7.0]);
    go_through(["a", "b", "c", "d"]);
    go_through([Some(Box::new(1)), None, Some(Box::new(3)), None]);
    go_through([u128::MAX, 1, 2, 3]);
    go_through([Aligned(1), Aligned(2), Aligned(3), Aligned(4)]);
    go_through(["a", "bc", "def", "ghij"].map(String::from));
    go_through([vec![1u8; 700], vec![], vec![2], vec![3; 3]].map(|bytes| (bytes, [9u64; 40])));
}
