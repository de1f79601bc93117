//! What a container says of itself by a gauge: whether it is closed, and how far it is worn, exactly.
use lockfree::{PopError, PushError, Queue, Ring, Stack};

const LIMIT: u64 = 1001;

#[test]
fn a_queue_wears_by_its_pushes() {
    let queue = Queue::with_tag_limit(2, LIMIT).unwrap();
    let (mut one, mut other) = (queue.pass().unwrap(), queue.pass().unwrap());
    assert_eq!((queue.wear(), one.wear(), one.pop().is_err(), one.wear()), (0.0, 0.0, true, 0.0));
    for pushes in 1..=700u32 {
        assert!(one.push("a".to_string()).is_ok());
        let wear = f64::from(pushes) / 1000.0;
        assert_eq!((queue.wear(), one.wear(), other.wear()), (wear, wear, wear));
        assert!(other.pop().is_ok());
        assert_eq!((queue.wear(), other.wear()), (wear, wear));
    }
}

#[test]
fn a_stack_wears_by_its_pushes_and_pops() {
    let stack = Stack::with_tag_limit(2, LIMIT).unwrap();
    let (mut one, mut other) = (stack.pass().unwrap(), stack.pass().unwrap());
    for calls in (1..=900u32).step_by(2) {
        assert!(one.push([7; 4]).is_ok());
        assert_eq!((stack.wear(), other.wear()), (f64::from(calls) / 1001.0, f64::from(calls) / 1001.0));
        assert!(other.pop().is_ok());
        assert_eq!((stack.wear(), one.wear()), (f64::from(calls + 1) / 1001.0, f64::from(calls + 1) / 1001.0));
    }
}

#[test]
fn spent_ones_are_worn_out() {
    let (queue, stack) = (Queue::with_tag_limit(2, 9).unwrap(), Stack::with_tag_limit(2, 9).unwrap());
    let (mut of_queue, mut of_stack) = (queue.pass().unwrap(), stack.pass().unwrap());
    while !matches!(of_queue.push(1), Err(PushError::Spent(_))) {
        assert!(of_queue.pop().is_ok());
    }
    while !matches!(of_stack.push(1), Err(PushError::Spent(_))) {
        let _ = of_stack.pop();
    }
    assert_eq!((queue.wear(), of_queue.wear(), stack.wear(), of_stack.wear()), (1.0, 1.0, 1.0, 1.0));
    assert!(!queue.is_closed() && !stack.is_closed());
}

#[test]
fn closed_by_a_pass_that_is_gone() {
    let (queue, stack, ring) =
        (Queue::<u8>::new(2).unwrap(), Stack::<u8>::new(2).unwrap(), Ring::<u8>::new(2).unwrap());
    let (mut of_queue, mut of_stack, mut of_ring) =
        (queue.pass().unwrap(), stack.pass().unwrap(), ring.pass().unwrap());
    assert!(!queue.is_closed() && !of_queue.is_closed() && !stack.is_closed() && !of_stack.is_closed());
    assert!(!ring.is_closed() && !of_ring.is_closed());
    std::thread::scope(|scope| {
        scope.spawn(|| {
            assert!(queue.pass().unwrap().close() && stack.pass().unwrap().close() && ring.pass().unwrap().close())
        });
    });
    assert!(queue.is_closed() && of_queue.is_closed() && stack.is_closed() && of_stack.is_closed());
    assert!(ring.is_closed() && of_ring.is_closed());
}

/// A pop that waits ends once nothing can come, also if it waits already when the last push is refused.
#[test]
fn waits_end_on_a_spent_container() {
    let queue = Queue::with_tag_limit(4, 8).unwrap();
    let ring = Ring::with_lap_limit(4, 2, 2).unwrap();
    std::thread::scope(|scope| {
        let waits = scope.spawn(|| {
            let mut count = 0;
            while queue.pop_wait(None).is_ok() {
                count += 1;
            }
            (count, queue.pop_wait(None), queue.pop())
        });
        let mut pushed = 0;
        while !matches!(queue.push_wait(1, None), Err(PushError::Spent(_))) {
            pushed += 1;
        }
        assert!(pushed >= 7);
        assert_eq!(waits.join().unwrap(), (pushed, Err(PopError::Spent), Err(PopError::Empty)));
    });
    let mut pass = ring.pass().unwrap();
    for _ in 0..2 {
        while pass.push(1).is_ok() {}
        while pass.pop().is_ok() {}
    }
    assert_eq!(pass.push(1), Err(PushError::Spent(1)));
    assert_eq!(pass.pop_wait(None), Err(PopError::Spent));
}
