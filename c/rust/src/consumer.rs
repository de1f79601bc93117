//! The end of a ring for one producer and one consumer that pops.
use crate::cells::value_of_bytes;
use crate::circle::{Walk, PART_OF_SLICE};
use crate::ends::RawConsumer;
use crate::raw::{Code, Word};
use crate::shared::drop_each;
use crate::waiting::pop_until;
use crate::{PopError, Stop};
use std::fmt;
use std::iter;
use std::mem;
use std::slice;

/// The end that pops, which [`spsc`](crate::spsc()) gives.
///
/// When it is dropped it leaves, and what is left in the ring is dropped with it. Once no slot is free, the producer is told
/// [`PushError::Closed`](crate::PushError::Closed).
///
/// It is `Send` if the values are. There is one of each ring, and its calls take it by `&mut`, so it is neither `Clone` nor
/// `Sync`:
///
/// ```compile_fail,E0277
/// fn shared<T: Sync>() {}
/// shared::<lockfree::Consumer<u64>>();
/// ```
///
/// ```compile_fail,E0599
/// let (producer, consumer) = lockfree::spsc::<u64>(2).unwrap();
/// let other = consumer.clone();
/// ```
///
/// ```compile_fail,E0277
/// let (producer, consumer) = lockfree::spsc::<std::rc::Rc<u8>>(2).unwrap();
/// std::thread::spawn(move || consumer.capacity());
/// ```
#[repr(align(64))] // (of cache lines of its own, since its calls write to it)
pub struct Consumer<T> {
    end: RawConsumer,
    walk: Walk<T>,
    capacity: u32,
    /// A copy of the word that is popped next, which a peek has lent. The pop gives this copy, since whoever has a
    /// [`Cell`](std::cell::Cell) may have changed it by `&`.
    front: Option<Word>,
}

impl<T> Consumer<T> {
    pub(crate) fn new(end: RawConsumer, walk: Walk<T>, capacity: u32) -> Consumer<T> {
        Consumer { end, walk, capacity, front: None }
    }

    /// Pops the oldest value.
    ///
    /// # Errors
    ///
    /// [`PopError::Empty`], or [`PopError::Closed`] if nothing is left and the producer has left.
    ///
    /// ```
    /// use lockfree::PopError;
    /// let (mut producer, mut consumer) = lockfree::spsc(4).unwrap();
    /// assert_eq!(consumer.pop(), Err(PopError::Empty));
    /// producer.push("a").unwrap();
    /// drop(producer);
    /// assert_eq!((consumer.pop(), consumer.pop()), (Ok("a"), Err(PopError::Closed)));
    /// ```
    pub fn pop(&mut self) -> Result<T, PopError> {
        let popped = self.end.pop().map_err(PopError::of)?;
        let word = if Walk::<T>::ARE_WORDS { self.front.take().unwrap_or(popped) } else { popped };
        // SAFETY: the word was popped, and a copy of it is used for no other value.
        let value = unsafe { self.walk.value(word) };
        self.walk.go_on(1);
        Ok(value)
    }

    /// Pops the oldest value, and waits as long as there is none and one may come, until the [`Stop`] ends the wait. It
    /// tries once at least, and waits as [`Pass::push_wait`](crate::Pass::push_wait) does.
    ///
    /// # Errors
    ///
    /// [`PopError::Late`] if the stop ended the wait, or [`PopError::Closed`] if nothing is left and the producer has left.
    ///
    /// ```
    /// use lockfree::PopError;
    /// use std::time::Duration;
    /// let (producer, mut consumer) = lockfree::spsc::<u8>(4).unwrap();
    /// assert_eq!(consumer.pop_wait(Duration::from_millis(2)), Err(PopError::Late));
    /// drop(producer);
    /// assert_eq!(consumer.pop_wait(None), Err(PopError::Closed));
    /// ```
    pub fn pop_wait(&mut self, stop: impl Stop) -> Result<T, PopError> {
        pop_until(stop, || (false, self.pop()))
    }

    /// Pops the oldest values into the first places of a slice, as many as there are and as it has places, and gives how
    /// many. Of no places it gives 0.
    ///
    /// # Errors
    ///
    /// [`PopError::Empty`], or [`PopError::Closed`] if nothing is left and the producer has left. The slice is unchanged.
    ///
    /// ```
    /// use lockfree::PopError;
    /// let (mut producer, mut consumer) = lockfree::spsc(4).unwrap();
    /// producer.push_slice(&[1, 2, 3]).unwrap();
    /// let mut values = [0; 2];
    /// assert_eq!((consumer.pop_slice(&mut values), values), (Ok(2), [1, 2]));
    /// assert_eq!((consumer.pop_slice(&mut values), values), (Ok(1), [3, 2]));
    /// assert_eq!(consumer.pop_slice(&mut values), Err(PopError::Empty));
    /// ```
    pub fn pop_slice(&mut self, values: &mut [T]) -> Result<usize, PopError>
    where
        T: Copy,
    {
        let popped = if values.is_empty() {
            Ok(0)
        } else if Walk::<T>::LIE_AS_WORDS {
            // SAFETY: each value is a word, of the same size and alignment, and the library writes words that were values.
            self.end.pop_many(unsafe { slice::from_raw_parts_mut(values.as_mut_ptr().cast(), values.len()) })
        } else if Walk::<T>::ARE_WORDS {
            self.pop_parts(values.len(), |from, words| {
                for (value, word) in values[from..].iter_mut().zip(words) {
                    // SAFETY: the word was a value, and values are `Copy`.
                    *value = unsafe { value_of_bytes(*word) };
                }
            })
        } else {
            self.pop_cells(values)
        };
        if popped.is_ok_and(|count| count > 0) {
            // (what is `Copy` has not changed since a peek)
            self.front = None;
        }
        popped.map_err(PopError::of)
    }

    fn pop_cells(&mut self, values: &mut [T]) -> Result<usize, Code>
    where
        T: Copy,
    {
        let there = self.end.size();
        let count = there.count.min(values.len());
        if count == 0 {
            return Err(if there.is_closed { Code::CLOSED } else { Code::EMPTY });
        }
        // SAFETY: this is the consumer, and so many values are there.
        unsafe { self.walk.read(&mut values[..count]) };
        let popped = self.pop_parts(count, |_, _| ())?;
        self.walk.go_on(popped);
        Ok(popped)
    }

    /// Pops words in parts, each of which `use_them` reads, told how many were popped before.
    fn pop_parts(&mut self, count: usize, mut use_them: impl FnMut(usize, &[Word])) -> Result<usize, Code> {
        let mut words = [Word::new(0); PART_OF_SLICE];
        let mut popped = 0;
        while popped < count {
            match self.end.pop_many(&mut words[..PART_OF_SLICE.min(count - popped)]) {
                Ok(more) => {
                    use_them(popped, &words[..more]);
                    popped += more;
                }
                Err(code) if popped == 0 => return Err(code),
                Err(_) => break,
            }
        }
        Ok(popped)
    }

    /// Lends the oldest value, which stays.
    ///
    /// # Errors
    ///
    /// Those of [`pop`](Consumer::pop).
    ///
    /// ```
    /// let (mut producer, mut consumer) = lockfree::spsc(4).unwrap();
    /// producer.push("a".to_string()).unwrap();
    /// assert_eq!(consumer.peek().unwrap(), "a");
    /// assert_eq!(consumer.pop().unwrap(), "a");
    /// assert!(consumer.peek().is_err());
    /// ```
    pub fn peek(&mut self) -> Result<&T, PopError> {
        if !Walk::<T>::ARE_WORDS {
            self.end.front().map_err(PopError::of)?;
            // SAFETY: this is the consumer, and a value is there.
            return Ok(unsafe { self.walk.front() });
        }
        let word = match self.front {
            Some(word) => word,
            None => self.end.front().map_err(PopError::of)?,
        };
        // SAFETY: the word has the bytes of a value, and its pop gives this copy.
        Ok(unsafe { &*self.front.insert(word).as_ptr().cast() })
    }

    /// Pops values one after another, until there is none: then it gives `None`, and may give values again later. What was
    /// not asked for stays in the ring.
    ///
    /// ```
    /// let (mut producer, mut consumer) = lockfree::spsc(4).unwrap();
    /// (1..=3).for_each(|value| producer.push(value).unwrap());
    /// assert_eq!(consumer.drain().collect::<Vec<_>>(), [1, 2, 3]);
    /// ```
    pub fn drain(&mut self) -> impl Iterator<Item = T> + '_ {
        iter::from_fn(|| self.pop().ok())
    }

    /// How many values there are: so many pops are not refused. The producer may push more at any time.
    ///
    /// ```
    /// let (mut producer, mut consumer) = lockfree::spsc(4).unwrap();
    /// producer.push_slice(&[1, 2]).unwrap();
    /// assert_eq!(consumer.len(), 2);
    /// ```
    pub fn len(&mut self) -> usize {
        self.end.size().count
    }

    /// Whether there was no value.
    ///
    /// ```
    /// let (mut producer, mut consumer) = lockfree::spsc(4).unwrap();
    /// assert!(consumer.is_empty());
    /// producer.push(1).unwrap();
    /// assert!(!consumer.is_empty());
    /// ```
    pub fn is_empty(&mut self) -> bool {
        self.len() == 0
    }

    /// Whether the producer has left, so that no value comes any more. What it pushed may be left.
    ///
    /// ```
    /// let (mut producer, mut consumer) = lockfree::spsc(4).unwrap();
    /// producer.push(1).unwrap();
    /// assert!(!consumer.is_closed());
    /// drop(producer);
    /// assert!(consumer.is_closed() && consumer.pop() == Ok(1));
    /// ```
    pub fn is_closed(&mut self) -> bool {
        self.end.size().is_closed
    }

    /// How many values the ring holds at most, as [`Producer::capacity`](crate::Producer::capacity) says it.
    ///
    /// ```
    /// let (_producer, consumer) = lockfree::spsc::<u8>(3).unwrap();
    /// assert_eq!(consumer.capacity(), 3);
    /// ```
    pub fn capacity(&self) -> u32 {
        self.capacity
    }
}

impl<T> Drop for Consumer<T> {
    /// Drops what is left, without a pop, so that a producer whose ring was full is told at once that the consumer has left.
    /// What is pushed meanwhile and later is dropped by `Walk`.
    fn drop(&mut self) {
        if !mem::needs_drop::<T>() {
            return;
        }
        let mut left = self.end.size().count;
        drop_each(|| {
            left = left.checked_sub(1)?;
            // SAFETY: what needs a drop lies in a cell. The value was pushed, and the producer does not write to the cell of
            // one that was not popped. It is read once, since the walk goes on.
            let value = unsafe { self.walk.value(Word::new(0)) };
            self.walk.go_on(1);
            Some(value)
        });
    }
}

impl<T> fmt::Debug for Consumer<T> {
    fn fmt(&self, to: &mut fmt::Formatter<'_>) -> fmt::Result {
        to.debug_struct("Consumer").field("capacity", &self.capacity).finish_non_exhaustive()
    }
}

#[cfg(test)]
mod tests {
    /// The longest time that a value lies in its cell: the consumer has popped it, and reads it out only after the ring was
    /// filled again and another push was refused.
    #[test]
    fn a_value_that_was_popped_stays_until_it_is_read_out() {
        for capacity in 1..5 {
            let (mut producer, mut consumer) = crate::spsc(capacity).unwrap();
            (0..capacity).for_each(|i| producer.push([i; 3]).unwrap());
            for i in 0..20 {
                let word = consumer.end.pop().ok().unwrap();
                assert!(producer.push([capacity + i; 3]).is_ok());
                assert_eq!(producer.push([u32::MAX; 3]).unwrap_err().into_inner(), [u32::MAX; 3]);
                // SAFETY: the word was popped.
                assert_eq!(unsafe { consumer.walk.value(word) }, [i; 3]);
                consumer.walk.go_on(1);
            }
        }
    }
}
