//! The ring for one producer and one consumer.
use crate::circle::Walk;
use crate::ends::new_ends;
use crate::{Consumer, MakeError, Producer};

/// Makes a ring for one producer and one consumer, first in, first out, of exactly this capacity, and gives both ends. It
/// takes its memory now, and no call takes any later.
///
/// Each end is used by one thread at a time, and each may move to another thread. No call waits but those with `wait` in
/// their names, and each of the others makes a bounded number of steps, whatever the other end does (it is wait-free). A
/// ring of this kind does not wear out, and its calls have no numbers. For more producers or consumers take a
/// [`Ring`](crate::Ring).
///
/// An end leaves when it is dropped. The consumer pops what is left after the producer has left; it drops what is left when
/// it leaves itself, and what is pushed after that is dropped with the producer. (A consumer that is pushed into its own
/// ring never leaves, since nobody can pop it.)
///
/// # Errors
///
/// [`MakeError::BadCapacity`] if it is 0, [`MakeError::NoMemory`], and [`MakeError::OtherVersion`] if the library that was
/// linked is not of this crate's version.
///
/// ```
/// use lockfree::PopError;
/// let (mut producer, mut consumer) = lockfree::spsc(64).unwrap();
/// let thread = std::thread::spawn(move || {
///     for i in 0..1000 {
///         producer.push_wait(i, None).unwrap();      // waits while it is full
///     }
/// });                                                // the producer is dropped, so it leaves
/// for i in 0..1000 {
///     assert_eq!(consumer.pop_wait(None), Ok(i));
/// }
/// assert_eq!(consumer.pop_wait(None), Err(PopError::Closed));
/// thread.join().unwrap();
/// ```
pub fn spsc<T>(capacity: u32) -> Result<(Producer<T>, Consumer<T>), MakeError> {
    let (pushes, pops) = new_ends(capacity)?;
    let (ahead, behind) = Walk::pair(capacity)?;
    Ok((Producer::new(pushes, ahead, capacity), Consumer::new(pops, behind, capacity)))
}
