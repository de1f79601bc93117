use lockfree::{MakeError, Pass, PopError, PushError, Pushed, Queue, Stack};
use std::sync::atomic::{AtomicU64, Ordering};
use std::sync::Arc;

#[test]
fn one_thread() {
    assert_eq!(Queue::<u8>::new(0).err(), Some(MakeError::BadCapacity));
    let queue = Queue::new(2).unwrap();
    let mut pass = queue.pass().unwrap();
    assert_eq!(pass.pop(), Err(PopError::Empty));
    assert_eq!(pass.push("a".to_string()), Ok(0));
    assert_eq!(pass.push("b".to_string()), Ok(1));
    assert_eq!(pass.push("c".to_string()), Err(PushError::Full("c".to_string())));
    assert_eq!(pass.pop(), Ok("a".to_string()));
    assert!(pass.close());
    assert_eq!(pass.push("d".to_string()), Err(PushError::Closed("d".to_string())));
    assert_eq!(pass.pop(), Ok("b".to_string()));
    assert_eq!(pass.pop(), Err(PopError::Closed));
}

#[test]
fn a_queue_counts_its_values() {
    let queue = Queue::new(3).unwrap();
    let (mut putting, mut looking) = (queue.pass().unwrap(), queue.pass().unwrap());
    for round in 0..5 {
        for held in 0..3 {
            assert_eq!((putting.len(), looking.len()), (held, held));
            assert_eq!(putting.push(round), Ok((3 * round + held) as u64));
        }
        assert_eq!((putting.push(round).is_err(), looking.len()), (true, 3));
        assert_eq!((putting.drain().count(), looking.len()), (3, 0));
    }
}

#[test]
fn a_count_beside_other_threads_is_within_the_capacity() {
    let queue = Queue::new(4).unwrap();
    std::thread::scope(|scope| {
        for _ in 0..2 {
            let mut pass = queue.pass().unwrap();
            scope.spawn(move || (0..10_000).for_each(|value| assert!(pass.push(value).is_ok() && pass.pop().is_ok())));
        }
        let mut pass = queue.pass().unwrap();
        scope.spawn(move || (0..10_000).for_each(|_| assert!(pass.len() <= 2)));
    });
    assert_eq!(queue.pass().unwrap().len(), 0);
}

#[test]
fn the_last_comes_first() {
    let stack = Stack::new(8).unwrap();
    let mut pass = stack.pass().unwrap();
    for value in 1..=3 {
        assert!(pass.push(value).is_ok());
    }
    assert_eq!((pass.pop(), pass.pop(), pass.pop()), (Ok(3), Ok(2), Ok(1)));
}

#[test]
fn values_are_dropped_once() {
    let value = Arc::new(());
    let stack = Stack::new(8).unwrap();
    let mut pass = stack.pass().unwrap();
    for _ in 0..5 {
        assert!(pass.push(value.clone()).is_ok());
    }
    drop(pass.pop());
    assert_eq!(Arc::strong_count(&value), 5);
    drop(stack);
    assert_eq!(Arc::strong_count(&value), 1);
}

#[test]
fn all_values_at_once() {
    let stack = Stack::new(8).unwrap();
    let mut pass = stack.pass().unwrap();
    let mut seen = Vec::new();
    assert_eq!(pass.consume_all_atomic(|value| seen.push(value)), Err(PopError::Empty));
    for value in 1..=3 {
        assert!(pass.push(value.to_string()).is_ok());
    }
    assert_eq!(pass.consume_all_atomic(|value| seen.push(value)), Ok(3));
    for value in 4..=5 {
        assert!(pass.push(value.to_string()).is_ok());
    }
    assert_eq!(pass.consume_all_atomic_reversed(|value| seen.push(value)), Ok(2));
    assert_eq!(seen, ["3", "2", "1", "4", "5"]);
    assert!(pass.close());
    assert_eq!(pass.consume_all_atomic(|_| ()), Err(PopError::Closed));
}

#[test]
fn a_fold_that_panics_drops_the_rest() {
    let value = Arc::new(());
    let stack = Stack::new(8).unwrap();
    let mut pass = stack.pass().unwrap();
    for _ in 0..5 {
        assert!(pass.push(value.clone()).is_ok());
    }
    let fold = std::panic::AssertUnwindSafe(|| pass.consume_all_atomic(|_| panic!("on purpose")));
    assert!(std::panic::catch_unwind(fold).is_err());
    assert_eq!(Arc::strong_count(&value), 1);
    assert_eq!(pass.push(value.clone()), Ok(6));
}

#[test]
fn a_range_at_once() {
    let texts = |range: std::ops::RangeInclusive<u8>| range.map(|value| value.to_string());
    let stack = Stack::new(4).unwrap();
    let mut pass = stack.pass().unwrap();
    assert_eq!(pass.push_range(texts(1..=3)), Ok(Pushed { count: 3, left: vec![] }));
    assert_eq!(pass.push_range(texts(4..=6)), Ok(Pushed { count: 1, left: texts(5..=6).collect() }));
    assert_eq!(pass.push_range(texts(7..=8)), Err(PushError::Full(texts(7..=8).collect())));
    assert_eq!(pass.push_range([]), Ok(Pushed { count: 0, left: vec![] }));
    assert_eq!((pass.pop(), pass.pop()), (Ok("4".to_string()), Ok("3".to_string())));
    assert!(pass.close());
    assert_eq!(pass.push_range(texts(7..=8)), Err(PushError::Closed(texts(7..=8).collect())));
    assert_eq!((pass.pop(), pass.pop()), (Ok("2".to_string()), Ok("1".to_string())));
    assert_eq!(pass.pop(), Err(PopError::Closed));
}

#[test]
fn values_of_a_range_are_dropped_once() {
    let value = Arc::new(());
    let stack = Stack::new(4).unwrap();
    let mut pass = stack.pass().unwrap();
    drop(pass.push_range(vec![value.clone(); 6]));
    assert_eq!(Arc::strong_count(&value), 5);
    drop(stack);
    assert_eq!(Arc::strong_count(&value), 1);
}

/// Between two tries. (A sleep, since to yield takes very long on a machine that is busy with other things.)
fn a_moment() {
    std::thread::sleep(std::time::Duration::from_micros(10));
}

fn many_threads<K>(pass: impl Fn() -> Pass<Box<u64>, K> + Sync) {
    const EACH: u64 = 50_000;
    let (sum, count, pass) = (&AtomicU64::new(0), &AtomicU64::new(0), &pass);
    std::thread::scope(|scope| {
        let putting = (0..4u64).map(|side| {
            scope.spawn(move || {
                let mut pass = pass();
                for i in 0..EACH {
                    let mut value = Box::new(side * EACH + i);
                    while let Err(PushError::Full(back)) = pass.push(value) {
                        value = back;
                        a_moment();
                    }
                }
            })
        });
        let putting: Vec<_> = putting.collect();
        for _ in 0..4 {
            scope.spawn(move || {
                let mut pass = pass();
                loop {
                    match pass.pop() {
                        Ok(value) => {
                            sum.fetch_add(*value, Ordering::Relaxed);
                            count.fetch_add(1, Ordering::Relaxed);
                        }
                        Err(PopError::Closed) => break,
                        Err(_) => a_moment(),
                    }
                }
            });
        }
        for thread in putting {
            thread.join().unwrap();
        }
        pass().close();
    });
    let all = 4 * EACH;
    assert_eq!((count.load(Ordering::Relaxed), sum.load(Ordering::Relaxed)), (all, all * (all - 1) / 2));
}

#[test]
fn each_value_once() {
    let (queue, stack) = (Queue::new(64).unwrap(), Stack::new(64).unwrap());
    many_threads(|| queue.pass().unwrap());
    many_threads(|| stack.pass().unwrap());
}
