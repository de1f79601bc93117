//! A pass that is dropped goes back to its container: the limit counts those that are out at one time.
use lockfree::{MakeError, Queue, QueuePass, Ring, RingPass, Stack, StackPass};

#[test]
fn containers_are_shared_and_passes_are_sent() {
    fn shared<T: Send + Sync>() {}
    fn sent<T: Send>() {}
    shared::<Queue<Box<u8>>>();
    shared::<Stack<Box<u8>>>();
    shared::<Ring<Box<u8>>>();
    sent::<QueuePass<Box<u8>>>();
    sent::<StackPass<Box<u8>>>();
    sent::<RingPass<Box<u8>>>();
}

#[test]
fn more_passes_than_the_limit_one_after_another() {
    let (queue, stack) = (Queue::new(4).unwrap(), Stack::new(4).unwrap());
    for i in 0..70_000u64 {
        assert!(queue.pass().unwrap().push(i).is_ok());
        assert_eq!(queue.pass().unwrap().pop(), Ok(i));
        assert!(stack.pass().unwrap().push([i; 3]).is_ok());
        assert_eq!(stack.pass().unwrap().pop(), Ok([i; 3]));
    }
}

#[test]
fn the_limit_is_of_those_that_are_out_at_one_time() {
    let queue = Queue::new(2).unwrap();
    let mut passes: Vec<_> = (0..65_534).map(|_| queue.pass().unwrap()).collect();
    assert_eq!(queue.pass().unwrap_err(), MakeError::NoPass);
    drop(passes.pop());
    let mut pass = queue.pass().unwrap();
    assert_eq!((pass.push(7), passes[9].pop()), (Ok(0), Ok(7)));
    assert_eq!(queue.pass().unwrap_err(), MakeError::NoPass);
}

#[test]
fn a_pass_goes_back_in_another_thread() {
    let stack = Stack::new(2).unwrap();
    for i in 0..200 {
        let mut pass = stack.pass().unwrap();
        std::thread::scope(|scope| scope.spawn(move || assert!(pass.push(i).is_ok())).join().unwrap());
        assert_eq!(stack.pass().unwrap().pop(), Ok(i));
    }
}
