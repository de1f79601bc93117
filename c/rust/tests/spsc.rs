//! The ring for one producer and one consumer: what goes in comes out in order, a refusal gives its value back, and each
//! value is dropped once.
use lockfree::{spsc, Consumer, MakeError, PopError, Producer, PushError};
use std::cell::Cell;
use std::collections::VecDeque;
use std::fmt::Debug;
use std::panic::{catch_unwind, UnwindSafe};
use std::sync::atomic::{AtomicUsize, Ordering};
use std::sync::Arc;
use std::time::{Duration, Instant};

/// For calls that would wait without an end if something is lost.
const A_MINUTE: Duration = Duration::from_secs(60);
const TWO_MINUTES: Duration = Duration::from_secs(120);

/// Both ends, as if the ring had been full before and emptied, so that the next values go around its end.
fn ends<T: Clone>(capacity: u32, value: &T) -> (Producer<T>, Consumer<T>) {
    let (mut producer, mut consumer) = spsc(capacity).unwrap();
    for _ in 0..capacity {
        producer.push(value.clone()).unwrap();
        consumer.pop().unwrap();
    }
    (producer, consumer)
}

/// Makes each call, in one thread, and compares what it says.
fn go_through<T: Clone + PartialEq + Debug>(values: [T; 4]) {
    let [a, b, c, d] = &values;
    let (mut producer, mut consumer) = ends(3, a);
    assert_eq!((producer.capacity(), consumer.capacity()), (3, 3));
    assert_eq!((producer.room(), producer.is_full(), consumer.len(), consumer.is_empty()), (3, false, 0, true));
    assert_eq!((consumer.pop(), consumer.peek()), (Err(PopError::Empty), Err(PopError::Empty)));
    assert_eq!((producer.push(a.clone()), producer.push(b.clone())), (Ok(()), Ok(())));
    assert_eq!((producer.room(), producer.is_full(), consumer.len(), consumer.is_empty()), (1, false, 2, false));
    assert_eq!((consumer.peek(), producer.push(c.clone())), (Ok(a), Ok(())));
    assert_eq!((producer.room(), producer.is_full(), consumer.len()), (0, true, 3));
    assert_eq!(producer.push(d.clone()), Err(PushError::Full(d.clone())));
    assert_eq!(producer.push_wait(d.clone(), Duration::ZERO), Err(PushError::Full(d.clone())));
    assert_eq!((consumer.len(), consumer.peek()), (3, Ok(a)));
    assert_eq!((consumer.pop().as_ref(), consumer.peek()), (Ok(a), Ok(b)));
    assert_eq!(producer.push_wait(d.clone(), None), Ok(()));
    assert_eq!((producer.is_closed(), consumer.is_closed()), (false, false));
    producer.close();
    assert_eq!((consumer.is_closed(), consumer.len(), consumer.peek()), (true, 3, Ok(b)));
    assert_eq!(consumer.drain().collect::<Vec<_>>(), values[1..]);
    assert_eq!((consumer.pop(), consumer.peek()), (Err(PopError::Closed), Err(PopError::Closed)));
    assert_eq!((consumer.pop_wait(None), consumer.drain().next()), (Err(PopError::Closed), None));
}

#[derive(Clone, Copy, Debug, PartialEq)]
#[repr(align(128))]
struct Aligned(u8);

#[test]
fn values_of_each_size_and_alignment() {
    go_through([(); 4]);
    go_through([true, false, true, true]);
    go_through([(1u8, 2u16), (3, 4), (5, 6), (7, 8)]);
    go_through([[1u8; 7], [2; 7], [3; 7], [4; 7]]);
    go_through([[1u8; 9], [2; 9], [3; 9], [4; 9]]);
    go_through([1.5f64, -0.25, 1e300, 7.0]);
    go_through([Some(Box::new(1)), None, Some(Box::new(3)), None]);
    go_through([u128::MAX, 1, 2, 3]);
    go_through([Aligned(1), Aligned(2), Aligned(3), Aligned(4)]);
    go_through(["a", "bc", "def", "ghij"]);
    go_through(["a", "bc", "def", "ghij"].map(String::from));
    go_through([[1u64; 512], [2; 512], [3; 512], [4; 512]]);
}

/// Random calls beside a list, which say and do the same.
fn beside_a_list<T: Copy + PartialEq + Debug>(capacity: usize, calls: usize, value: impl Fn(u32) -> T) {
    let (mut producer, mut consumer) = spsc(capacity as u32).unwrap();
    let (mut list, mut random, mut out) = (VecDeque::new(), 1u32, vec![value(0); 300]);
    for _ in 0..calls {
        random = random.wrapping_mul(1_664_525).wrapping_add(1_013_904_223);
        let (kind, many) = (random >> 30, (random >> 8) as usize % 300);
        let room = capacity - list.len();
        match kind {
            0 => {
                let answer = if room == 0 { Err(PushError::Full(value(random))) } else { Ok(()) };
                assert_eq!(producer.push(value(random)), answer);
                list.extend((room > 0).then(|| value(random)));
            }
            1 => assert_eq!(consumer.pop(), list.pop_front().ok_or(PopError::Empty)),
            2 => {
                let values: Vec<_> = (0..many as u32).map(|i| value(random ^ i)).collect();
                let pushed = if many > 0 && room == 0 { Err(PushError::Full(())) } else { Ok(many.min(room)) };
                assert_eq!(producer.push_slice(&values), pushed);
                list.extend(&values[..many.min(room)]);
            }
            _ => {
                let (popped, before) = (many.min(list.len()), out.clone());
                let answer = if many > 0 && popped == 0 { Err(PopError::Empty) } else { Ok(popped) };
                assert_eq!(consumer.pop_slice(&mut out[..many]), answer);
                assert!(list.drain(..popped).eq(out[..popped].iter().copied()) && out[popped..] == before[popped..]);
            }
        }
        assert_eq!((producer.room(), consumer.len()), (capacity - list.len(), list.len()));
        assert_eq!(consumer.peek(), list.front().ok_or(PopError::Empty));
    }
}

#[test]
fn calls_beside_a_list() {
    for capacity in [1, 2, 3, 64, 100, 257] {
        beside_a_list(capacity, 3_000, |i| i as u8);
        beside_a_list(capacity, 3_000, u64::from);
        beside_a_list(capacity, 3_000, |i| [i; 2]);
        beside_a_list(capacity, 3_000, |i| (i, [u64::from(!i); 3]));
        beside_a_list(capacity, 3_000, |i| Aligned(i as u8));
        beside_a_list(capacity, 3_000, |_| ());
    }
}

/// Values that say how many of them were dropped, of some size.
struct Counted<const SIZE: usize>(Arc<AtomicUsize>, #[allow(dead_code)] [u64; SIZE]);

impl<const SIZE: usize> Drop for Counted<SIZE> {
    fn drop(&mut self) {
        self.0.fetch_add(1, Ordering::Relaxed);
    }
}

/// Leaves values in a ring, some of them pushed after the consumer has left, and sees when they are dropped.
fn left_in_the_ring<const SIZE: usize>(popped: usize, producer_first: bool) {
    let count = Arc::new(AtomicUsize::new(0));
    let dropped = || count.load(Ordering::Relaxed) - popped;
    let value = || Counted::<SIZE>(count.clone(), [7; SIZE]);
    let (mut producer, mut consumer) = spsc(4).unwrap();
    for _ in 0..popped {
        assert!(producer.push(value()).is_ok());
        drop(consumer.pop().unwrap());
    }
    (0..3).for_each(|_| producer.push(value()).unwrap());
    if producer_first {
        drop(producer);
        assert_eq!(dropped(), 0);
        drop(consumer);
        assert_eq!(dropped(), 3);
    } else {
        drop(consumer);
        assert_eq!((dropped(), producer.room()), (3, 1));
        assert!(producer.push(value()).is_ok() && dropped() == 3);
        assert!(matches!(producer.push(value()), Err(PushError::Closed(_))));
        assert_eq!(dropped(), 4);
        drop(producer);
        assert_eq!(dropped(), 5);
    }
    assert_eq!(Arc::strong_count(&count), 1);
}

#[test]
fn what_is_left_is_dropped_with_the_ends() {
    for popped in 0..13 {
        for producer_first in [true, false] {
            left_in_the_ring::<0>(popped, producer_first);
            left_in_the_ring::<1>(popped, producer_first);
            left_in_the_ring::<400>(popped, producer_first);
        }
    }
}

thread_local! {
    static OF_NO_SIZE: Cell<usize> = const { Cell::new(0) };
}

#[derive(Clone, Debug, PartialEq)]
struct OfNoSize;

impl Drop for OfNoSize {
    fn drop(&mut self) {
        OF_NO_SIZE.set(OF_NO_SIZE.get() + 1);
    }
}

#[test]
fn values_of_no_size_are_dropped() {
    let (mut producer, mut consumer) = spsc(5).unwrap();
    for dropped in 0..20 {
        assert!(producer.push(OfNoSize).is_ok());
        drop(consumer.pop().unwrap());
        assert_eq!(OF_NO_SIZE.get(), dropped + 1);
    }
    (0..4).for_each(|_| producer.push(OfNoSize).unwrap());
    drop((producer, consumer));
    assert_eq!(OF_NO_SIZE.get(), 24);
}

/// A value whose drop panics, after it was counted.
struct Panics(#[allow(dead_code)] Counted<2>);

impl Drop for Panics {
    fn drop(&mut self) {
        panic!("on purpose");
    }
}

fn panics(end: impl FnOnce() + UnwindSafe) -> bool {
    catch_unwind(end).is_err()
}

#[test]
fn a_drop_that_panics_leaks_no_other_value() {
    let count = Arc::new(AtomicUsize::new(0));
    let dropped = || count.load(Ordering::Relaxed);
    let push_four = |producer: &mut Producer<Panics>| {
        (0..4).for_each(|_| producer.push(Panics(Counted(count.clone(), [7; 2]))).unwrap());
    };
    let (mut producer, consumer) = spsc(8).unwrap();
    push_four(&mut producer);
    drop(producer);
    assert!(panics(|| drop(consumer)) && dropped() == 4);
    let (mut producer, consumer) = spsc(8).unwrap();
    push_four(&mut producer);
    assert!(panics(|| drop(consumer)) && dropped() == 8);
    push_four(&mut producer);
    assert!(panics(|| drop(producer)) && dropped() == 12);
    assert_eq!(Arc::strong_count(&count), 1);
}

#[test]
fn a_refusal_gives_back_the_very_value() {
    let (mut producer, consumer) = spsc(1).unwrap();
    let text = || "a text that takes memory of its own".to_string();
    producer.push(text()).unwrap();
    let value = text();
    let at = value.as_ptr();
    let full = producer.push(value).unwrap_err();
    assert!(matches!(&full, PushError::Full(text) if text.as_ptr() == at));
    drop(consumer);
    let closed = producer.push_wait(full.into_inner(), None).unwrap_err();
    assert!(matches!(&closed, PushError::Closed(text) if text.as_ptr() == at));
}

#[test]
fn each_end_is_told_that_the_other_has_left() {
    let (mut producer, mut consumer) = spsc(2).unwrap();
    assert_eq!((producer.push_slice(&[1u16, 2, 3]), producer.push_slice(&[3])), (Ok(2), Err(PushError::Full(()))));
    assert_eq!((producer.is_closed(), consumer.pop()), (false, Ok(1)));
    drop(consumer);
    assert_eq!((producer.is_closed(), producer.room()), (true, 1));
    assert_eq!((producer.push(3), producer.push(4)), (Ok(()), Err(PushError::Closed(4))));
    assert_eq!((producer.push_slice(&[4]), producer.push_slice(&[])), (Err(PushError::Closed(())), Ok(0)));
    let (mut producer, mut consumer) = spsc(2).unwrap();
    let mut values = [[0u64; 2]; 3];
    assert_eq!((consumer.pop_slice(&mut values), producer.push_slice(&[[5; 2]; 2])), (Err(PopError::Empty), Ok(2)));
    drop(producer);
    assert_eq!((consumer.is_closed(), consumer.len(), consumer.pop_slice(&mut values)), (true, 2, Ok(2)));
    assert_eq!((values, consumer.len(), consumer.is_closed()), ([[5; 2], [5; 2], [0; 2]], 0, true));
    assert_eq!((consumer.pop_slice(&mut values), consumer.pop_slice(&mut [])), (Err(PopError::Closed), Ok(0)));
}

#[test]
fn a_wait_ends_when_the_other_end_leaves() {
    for _ in 0..20 {
        let (mut producer, consumer) = spsc(1).unwrap();
        producer.push(1).unwrap();
        let waiting = std::thread::spawn(move || producer.push_wait(2, A_MINUTE));
        drop(consumer);
        assert_eq!(waiting.join().unwrap(), Err(PushError::Closed(2)));
        let (producer, mut consumer) = spsc::<String>(1).unwrap();
        let waiting = std::thread::spawn(move || consumer.pop_wait(A_MINUTE));
        drop(producer);
        assert_eq!(waiting.join().unwrap(), Err(PopError::Closed));
    }
}

#[test]
fn what_a_peek_lends_is_what_the_pop_gives() {
    let (mut producer, mut consumer) = spsc(2).unwrap();
    (1..=2).for_each(|i| producer.push(Cell::new(i)).unwrap());
    consumer.peek().unwrap().set(7);
    assert_eq!(consumer.peek().map(Cell::get), Ok(7));
    assert_eq!((consumer.pop().map(Cell::into_inner), consumer.pop().map(Cell::into_inner)), (Ok(7), Ok(2)));
    let (mut producer, mut consumer) = spsc(2).unwrap();
    (1..=2).for_each(|i| producer.push((Cell::new(i), [0u64; 3])).unwrap());
    consumer.peek().unwrap().0.set(7);
    assert_eq!((consumer.pop().unwrap().0.get(), consumer.pop().unwrap().0.get()), (7, 2));
}

#[test]
fn any_capacity_but_0() {
    assert_eq!(spsc::<u8>(0).err(), Some(MakeError::BadCapacity));
    assert_eq!(spsc::<String>(0).unwrap_err(), MakeError::BadCapacity);
    for capacity in [1, 7, 1000, 1_048_577] {
        let (mut producer, mut consumer) = spsc(capacity).unwrap();
        (0..capacity).for_each(|i| producer.push(i).unwrap());
        assert_eq!((producer.push(0), consumer.len()), (Err(PushError::Full(0)), capacity as usize));
        assert!(consumer.drain().eq(0..capacity));
    }
    let (producer, consumer) = spsc::<u8>(6).unwrap();
    assert_eq!(format!("{producer:?} {consumer:?}"), "Producer { capacity: 6, .. } Consumer { capacity: 6, .. }");
}

/// Numbers that one thread pushes and another one pops, one by one, as values of some kind.
fn two_threads<T: Send>(capacity: u32, count: u64, value: fn(u64) -> T, number: fn(&T) -> u64) {
    let (mut producer, consumer) = spsc(capacity).unwrap();
    std::thread::scope(|scope| {
        scope.spawn(move || {
            for i in 0..count {
                assert!(producer.push_wait(value(i), A_MINUTE).is_ok());
            }
        });
        let mut consumer = consumer;
        for i in 0..count {
            assert_eq!(consumer.pop_wait(A_MINUTE).map(|value| number(&value)), Ok(i));
        }
        assert_eq!(consumer.pop_wait(A_MINUTE).err(), Some(PopError::Closed));
    });
}

#[test]
fn a_million_values_from_one_thread_to_another() {
    two_threads(64, 1_000_000, |i| i, |i| *i);
    two_threads(64, 1_000_000, Box::new, |i| **i);
    // (one place, which goes to and fro, and values that take long to copy)
    two_threads(1, 100_000, |i| [i; 40], |of| if of.iter().all(|i| *i == of[0]) { of[0] } else { u64::MAX });
}

/// The same by slices of many lengths, whose calls are made again if they are refused.
fn two_threads_by_slices<T: Copy + Send + Sync>(count: usize, value: fn(usize) -> T, number: fn(T) -> usize) {
    let (producer, consumer) = spsc(100).unwrap();
    let (begun, values) = (Instant::now(), (0..count).map(value).collect::<Vec<T>>());
    std::thread::scope(|scope| {
        scope.spawn(|| {
            let (mut producer, mut at) = (producer, 0);
            while at < count {
                match producer.push_slice(&values[at..count.min(at + 1 + at % 150)]) {
                    Ok(pushed) => at += pushed,
                    Err(why) => assert!(why.is_full() && begun.elapsed() < TWO_MINUTES),
                }
            }
        });
        // (in here, so that it leaves if an assertion fails, and the other thread ends)
        let (mut consumer, mut at, mut out) = (consumer, 0, [value(0); 150]);
        loop {
            match consumer.pop_slice(&mut out[..1 + at % 150]) {
                Ok(popped) => {
                    assert!(out[..popped].iter().map(|value| number(*value)).eq(at..at + popped));
                    at += popped;
                }
                Err(PopError::Closed) => break,
                Err(why) => assert!(why == PopError::Empty && begun.elapsed() < TWO_MINUTES),
            }
        }
        assert_eq!(at, count);
    });
}

#[test]
fn a_million_values_by_slices() {
    two_threads_by_slices(1_000_000, |i| i as u32, |i| i as usize);
    two_threads_by_slices(1_000_000, |i| i, |i| i);
    two_threads_by_slices(1_000_000, |i| [i, !i], |[i, not]| if not == !i { i } else { usize::MAX });
}

#[test]
fn ends_of_values_that_borrow() {
    let text = "a b c".to_string();
    let (mut producer, mut consumer) = spsc::<&str>(4).unwrap();
    std::thread::scope(|scope| {
        scope.spawn(|| text.split(' ').for_each(|part| producer.push(part).unwrap()));
    });
    assert_eq!(consumer.drain().collect::<Vec<_>>(), ["a", "b", "c"]);
}
