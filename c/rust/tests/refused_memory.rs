//! A first call for which there is no memory costs nothing for ever: once there is memory, as many passes can be had as if
//! nothing had been refused.
mod refusing;

use lockfree::{MakeError, Pass, Queue, Ring, Stack};
use refusing::refused;

/// A pass that is had after each piece of its memory was refused once, and how often that was.
fn pass_at_last<T, K>(pass: impl Fn() -> Result<Pass<T, K>, MakeError>) -> (Pass<T, K>, u32) {
    let mut refusals = 0;
    loop {
        match refused(refusals, &pass) {
            (Ok(made), false) => return (made, refusals),
            (Ok(_), true) => panic!("a pass without all of its memory"),
            (Err(why), was) => assert_eq!((why, was), (MakeError::NoMemory, true)),
        }
        refusals += 1;
    }
}

/// Makes passes, each after refusals, and tries each one.
fn many_passes<T: Clone + PartialEq + std::fmt::Debug, K>(
    count: usize,
    value: T,
    pass: impl Fn() -> Result<Pass<T, K>, MakeError>,
) -> Vec<Pass<T, K>> {
    let mut passes = Vec::with_capacity(count);
    for _ in 0..count {
        let (mut made, refusals) = pass_at_last(&pass);
        assert!(refusals > 0, "a pass takes memory");
        assert_eq!((made.push(value.clone()).is_ok(), made.pop()), (true, Ok(value.clone())));
        passes.push(made);
    }
    passes
}

fn of_a_ring<T: Clone + PartialEq + std::fmt::Debug>(value: T) {
    let ring = Ring::with_passes(8, 4).unwrap();
    let mut passes = many_passes(4, value.clone(), || ring.pass());
    assert_eq!(ring.pass().err(), Some(MakeError::NoPass));
    for pass in &mut passes {
        assert!(pass.push(value.clone()).is_ok() && pass.push(value.clone()).is_ok());
    }
    assert!(passes[0].push(value).unwrap_err().is_full());
}

#[test]
fn a_ring_gives_all_of_its_passes_after_refusals() {
    of_a_ring(7u8);
    of_a_ring([7u64; 8]);
    of_a_ring([7u8; 3000]);
}

#[test]
fn three_refusals_of_one_block_cost_no_pass() {
    let ring = Ring::<[u64; 8]>::with_passes(8, 4).unwrap();
    let (pass, pieces) = pass_at_last(|| ring.pass());
    drop(pass);
    let mut passes = vec![ring.pass().unwrap()];
    for piece in (0..pieces).rev() {
        // (the block of a pass's cells is the last piece of its memory)
        match refused(piece, || ring.pass()) {
            (Err(why), true) => assert_eq!(why, MakeError::NoMemory),
            (made, _) => passes.push(made.unwrap()),
        }
    }
    passes.extend((passes.len()..4).map(|_| ring.pass().unwrap()));
    assert_eq!(ring.pass().err(), Some(MakeError::NoPass));
}

#[test]
fn a_queue_and_a_stack_lose_no_pass_either() {
    let (queue, stack) = (Queue::new(8).unwrap(), Stack::new(8).unwrap());
    let (of_queue, of_stack) = (many_passes(3, [7u64; 8], || queue.pass()), many_passes(3, [7u64; 8], || stack.pass()));
    let all: Vec<_> = std::iter::from_fn(|| queue.pass().ok()).collect();
    assert_eq!(all.len() + of_queue.len(), 65_534);
    drop(of_stack);
}
