//! Errors are errors, and nothing that a caller does wrong panics.
use lockfree::{MakeError, PopError, PushError, Queue, Stack};
use std::error::Error;

/// Neither Debug nor anything else.
struct Opaque;

fn pushed(stack: &Stack<u32>) -> Result<u64, Box<dyn Error>> {
    let mut pass = stack.pass()?;
    pass.push(1).map_err(|refused| refused.to_string())?;
    Ok(pass.push(pass.capacity())?)
}

#[test]
fn errors_go_up_by_a_question_mark() {
    assert_eq!(pushed(&Stack::new(2).unwrap()).unwrap(), 1);
    assert_eq!(pushed(&Stack::new(1).unwrap()).unwrap_err().to_string(), "the container is full");
}

#[test]
fn each_error_says_what_it_is() {
    let texts = [
        PushError::Full(()).to_string(),
        PushError::Closed(()).to_string(),
        PushError::Spent(()).to_string(),
        PopError::Empty.to_string(),
        PopError::Closed.to_string(),
        PopError::Shut.to_string(),
        PopError::Spent.to_string(),
        PopError::Late.to_string(),
        MakeError::NoMemory.to_string(),
        MakeError::NoPass.to_string(),
        MakeError::BadCapacity.to_string(),
    ];
    assert!(texts.iter().all(|text| text.len() > 8));
    assert_eq!(format!("{:?} {:?}", PushError::Full(Opaque), PopError::Late), "Full(..) Late");
}

#[test]
fn a_refusal_of_any_type_can_be_unwrapped() {
    let queue = Queue::new(1).unwrap();
    let mut pass = queue.pass().unwrap();
    assert!(pass.push(Opaque).unwrap() == 0 && pass.push(Opaque).unwrap_err().is_full());
    assert_eq!(format!("{queue:?} {pass:?}"), "Queue { capacity: 1, .. } Pass { capacity: 1, .. }");
}

#[test]
fn a_range_asks_for_at_most_the_capacity() {
    let stack = Stack::new(2).unwrap();
    let mut pass = stack.pass().unwrap();
    let mut asked = 0;
    let pushed = pass.push_range((0..100_000).inspect(|_| asked += 1)).unwrap();
    assert_eq!((pushed.count, asked), (2, 2));
    let mut endless = std::iter::repeat("a".to_string()).inspect(|_| asked += 1);
    let stack = Stack::new(3).unwrap();
    assert_eq!(stack.pass().unwrap().push_range(&mut endless).unwrap().count, 3);
    assert_eq!(asked, 5);
}

#[test]
fn bad_containers_are_refused() {
    assert_eq!(Queue::<u8>::new(1_048_574).unwrap_err(), MakeError::BadCapacity);
    assert_eq!(Stack::<[u64; 9]>::new(u32::MAX).unwrap_err(), MakeError::BadCapacity);
    assert_eq!(Stack::<u8>::with_tag_limit(4, 1).unwrap_err(), MakeError::BadLimit);
    assert_eq!(Queue::<u8>::with_tag_limit(4, 1 << 42).unwrap_err(), MakeError::BadLimit);
    assert!(Queue::<u8>::new(1_048_573).is_ok());
}
