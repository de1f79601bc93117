//! The memory of a ring for one producer and one consumer: it takes all when it is made, or gives back what it has if a part
//! is refused, and no call asks for any.
mod refusing;

use lockfree::{spsc, Consumer, MakeError, Producer};
use refusing::{blocks_out, refused};

/// Both ends, which are had after each piece of their memory was refused once, and how many pieces that are.
fn ends_at_last<T>(capacity: u32) -> (Producer<T>, Consumer<T>, u32) {
    let mut refusals = 0;
    loop {
        let before = blocks_out();
        match refused(refusals, || spsc(capacity)) {
            (Ok((producer, consumer)), false) => return (producer, consumer, refusals),
            (Ok(_), true) => panic!("a ring without all of its memory"),
            (Err(why), was) => assert_eq!((why, was, blocks_out()), (MakeError::NoMemory, true, before)),
        }
        refusals += 1;
    }
}

/// Makes each call, none of which asks for memory or gives any back.
fn calls_of<T: Clone>(value: &T, producer: &mut Producer<T>, consumer: &mut Consumer<T>) {
    let capacity = producer.capacity() as usize;
    let mut values = vec![value.clone(); capacity + 1];
    let mut back = Vec::with_capacity(capacity + 1);
    let before = blocks_out();
    let (_, was_asked) = refused(0, || {
        for _ in 0..3 {
            (0..capacity).for_each(|_| assert!(producer.push(values.pop().unwrap()).is_ok()));
            assert!(producer.is_full() && consumer.peek().is_ok());
            back.push(producer.push(values.pop().unwrap()).unwrap_err().into_inner());
            back.extend(consumer.drain());
            assert!(consumer.is_empty() && consumer.pop().is_err() && !producer.is_closed() && !consumer.is_closed());
            values.append(&mut back);
        }
    });
    assert_eq!((was_asked, blocks_out(), values.len()), (false, before, capacity + 1));
}

/// Refuses each piece of the memory of a ring, makes calls of it, and says how many pieces there are.
fn pieces_of<T: Clone>(capacity: u32, value: T) -> u32 {
    let before = blocks_out();
    let (mut producer, mut consumer, pieces) = ends_at_last(capacity);
    calls_of(&value, &mut producer, &mut consumer);
    producer.push(value.clone()).ok().unwrap();
    drop((consumer, producer));
    assert_eq!(blocks_out(), before);
    pieces
}

#[test]
fn each_piece_is_refused_once_and_no_call_asks_for_more() {
    // (of the library: the positions, the slots, and what lies behind each of the two handles)
    let of_words = pieces_of(5, 7u8);
    assert_eq!((of_words, pieces_of(100, [7u32; 2])), (4, 4));
    // (and the cells)
    assert_eq!((pieces_of(5, [7u64; 3]), pieces_of(100, [7u8; 3000]), pieces_of(1, Overaligned(7))), (5, 5, 5));
    assert_eq!((pieces_of(5, "a text".to_string()), pieces_of(5, std::sync::Arc::new(7))), (5, 5));
}

#[derive(Clone)]
#[repr(align(128))]
struct Overaligned(#[allow(dead_code)] u8);

#[test]
fn slices_take_no_memory() {
    let (mut producer, mut consumer) = spsc(100).unwrap();
    let (values, mut out) = ([[7u16; 9]; 100], [[0; 9]; 100]);
    let (counts, was_asked) = refused(0, || (producer.push_slice(&values), consumer.pop_slice(&mut out)));
    assert_eq!((counts, was_asked, out == values), ((Ok(100), Ok(100)), false, true));
}

#[test]
fn what_refuses_refuses() {
    let (made, was_asked) = refused(1, || (Box::new(7), Vec::<u64>::new().try_reserve(9).is_ok()));
    assert_eq!((made, was_asked), ((Box::new(7), false), true));
}
