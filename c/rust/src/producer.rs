//! The end of a ring for one producer and one consumer that pushes.
use crate::cells::word_of_bytes;
use crate::circle::{Walk, PART_OF_SLICE};
use crate::ends::RawProducer;
use crate::raw::{Code, Word};
use crate::waiting::push_until;
use crate::{PushError, Stop};
use std::fmt;
use std::slice;

/// The end that pushes, which [`spsc`](crate::spsc()) gives.
///
/// When it is dropped it leaves: the consumer pops what is left, and is then told
/// [`PopError::Closed`](crate::PopError::Closed).
///
/// It is `Send` if the values are. There is one of each ring, and its calls take it by `&mut`, so it is neither `Clone` nor
/// `Sync`:
///
/// ```compile_fail,E0277
/// fn shared<T: Sync>() {}
/// shared::<lockfree::Producer<u64>>();
/// ```
///
/// ```compile_fail,E0599
/// let (producer, consumer) = lockfree::spsc::<u64>(2).unwrap();
/// let other = producer.clone();
/// ```
///
/// ```compile_fail,E0277
/// let (producer, consumer) = lockfree::spsc::<std::rc::Rc<u8>>(2).unwrap();
/// std::thread::spawn(move || producer.capacity());
/// ```
///
/// Its values are of one type, since the consumer pops them as that. So this does not compile either:
///
/// ```compile_fail
/// fn of_values_that_end<'a>(of: lockfree::Producer<&'static str>) -> lockfree::Producer<&'a str> {
///     of
/// }
/// ```
#[repr(align(64))] // (of cache lines of its own, since its calls write to it)
pub struct Producer<T> {
    end: RawProducer,
    walk: Walk<T>,
    capacity: u32,
}

impl<T> Producer<T> {
    pub(crate) fn new(end: RawProducer, walk: Walk<T>, capacity: u32) -> Producer<T> {
        Producer { end, walk, capacity }
    }

    /// Pushes a value behind all others.
    ///
    /// # Errors
    ///
    /// With the value: [`PushError::Full`], or [`PushError::Closed`] if no slot is free and the consumer has left.
    ///
    /// ```
    /// use lockfree::PushError;
    /// let (mut producer, consumer) = lockfree::spsc(1).unwrap();
    /// assert_eq!(producer.push("a".to_string()), Ok(()));
    /// assert_eq!(producer.push("b".to_string()), Err(PushError::Full("b".to_string())));
    /// drop(consumer);
    /// assert_eq!(producer.push("b".to_string()), Err(PushError::Closed("b".to_string())));
    /// ```
    pub fn push(&mut self, value: T) -> Result<(), PushError<T>> {
        // SAFETY: this is the producer.
        let word = unsafe { self.walk.word(value) };
        match self.end.push(word) {
            Ok(()) => {
                self.walk.go_on(1);
                Ok(())
            }
            // SAFETY: the word was not pushed.
            Err(code) => Err(PushError::of(code, unsafe { self.walk.value(word) })),
        }
    }

    /// Pushes a value, and waits as long as no slot is free, until the [`Stop`] ends the wait. It tries once at least, and
    /// waits as [`Pass::push_wait`](crate::Pass::push_wait) does.
    ///
    /// # Errors
    ///
    /// With the value: [`PushError::Full`] if the stop ended the wait, or [`PushError::Closed`] if no slot is free and the
    /// consumer has left.
    ///
    /// ```
    /// use std::time::Duration;
    /// let (mut producer, _consumer) = lockfree::spsc(1).unwrap();
    /// assert_eq!(producer.push_wait('a', None), Ok(()));
    /// assert!(producer.push_wait('b', Duration::from_millis(2)).unwrap_err().is_full());
    /// ```
    pub fn push_wait(&mut self, value: T, stop: impl Stop) -> Result<(), PushError<T>> {
        push_until(value, stop, |value| self.push(value))
    }

    /// Pushes the first values of a slice, as many as there are free slots, and gives how many. Of no values it gives 0.
    ///
    /// # Errors
    ///
    /// [`PushError::Full`] if there was no free slot at all, or [`PushError::Closed`] if the consumer has left besides.
    ///
    /// ```
    /// use lockfree::PushError;
    /// let (mut producer, mut consumer) = lockfree::spsc(4).unwrap();
    /// assert_eq!(producer.push_slice(&[1, 2, 3]), Ok(3));
    /// assert_eq!(producer.push_slice(&[4, 5, 6]), Ok(1));
    /// assert_eq!(producer.push_slice(&[5, 6]), Err(PushError::Full(())));
    /// assert_eq!(consumer.drain().collect::<Vec<_>>(), [1, 2, 3, 4]);
    /// ```
    pub fn push_slice(&mut self, values: &[T]) -> Result<usize, PushError<()>>
    where
        T: Copy,
    {
        let pushed = if values.is_empty() {
            Ok(0)
        } else if Walk::<T>::LIE_AS_WORDS {
            // SAFETY: each value is a word, of the same size and alignment.
            self.end.push_many(unsafe { slice::from_raw_parts(values.as_ptr().cast(), values.len()) })
        } else if Walk::<T>::ARE_WORDS {
            self.push_parts(values.len(), |from, words| {
                for (word, value) in words.iter_mut().zip(&values[from..]) {
                    *word = word_of_bytes(*value);
                }
            })
        } else {
            self.push_cells(values)
        };
        pushed.map_err(|code| PushError::of(code, ()))
    }

    fn push_cells(&mut self, values: &[T]) -> Result<usize, Code>
    where
        T: Copy,
    {
        let room = self.end.room();
        let count = room.count.min(values.len());
        if count == 0 {
            return Err(if room.is_closed { Code::CLOSED } else { Code::FULL });
        }
        // SAFETY: this is the producer, and so many slots are free.
        unsafe { self.walk.write(&values[..count]) };
        let pushed = self.push_parts(count, |_, _| ())?;
        self.walk.go_on(pushed);
        Ok(pushed)
    }

    /// Pushes words in parts, each of which `fill` writes, told how many were pushed before.
    fn push_parts(&mut self, count: usize, mut fill: impl FnMut(usize, &mut [Word])) -> Result<usize, Code> {
        let mut words = [Word::new(0); PART_OF_SLICE];
        let mut pushed = 0;
        while pushed < count {
            let part = &mut words[..PART_OF_SLICE.min(count - pushed)];
            fill(pushed, part);
            match self.end.push_many(part) {
                Ok(more) => pushed += more,
                Err(code) if pushed == 0 => return Err(code),
                Err(_) => break,
            }
        }
        Ok(pushed)
    }

    /// How many slots are free: so many pushes are not refused. The consumer may free more at any time.
    ///
    /// ```
    /// let (mut producer, mut consumer) = lockfree::spsc(4).unwrap();
    /// producer.push(1).unwrap();
    /// assert_eq!(producer.room(), 3);
    /// consumer.pop().unwrap();
    /// assert_eq!(producer.room(), 4);
    /// ```
    pub fn room(&mut self) -> usize {
        self.end.room().count
    }

    /// Whether no slot was free.
    ///
    /// ```
    /// let (mut producer, _consumer) = lockfree::spsc(1).unwrap();
    /// assert!(!producer.is_full());
    /// producer.push(1).unwrap();
    /// assert!(producer.is_full());
    /// ```
    pub fn is_full(&mut self) -> bool {
        self.room() == 0
    }

    /// Whether the consumer has left, so that nobody pops any more.
    ///
    /// ```
    /// let (mut producer, consumer) = lockfree::spsc::<u8>(1).unwrap();
    /// assert!(!producer.is_closed());
    /// drop(consumer);
    /// assert!(producer.is_closed());
    /// ```
    pub fn is_closed(&mut self) -> bool {
        self.end.room().is_closed
    }

    /// How many values the ring holds at most: as many as it was made for.
    ///
    /// ```
    /// let (producer, consumer) = lockfree::spsc::<u8>(3).unwrap();
    /// assert_eq!((producer.capacity(), consumer.capacity()), (3, 3));
    /// ```
    pub fn capacity(&self) -> u32 {
        self.capacity
    }

    /// The producer leaves, as it does when it is dropped. The consumer pops what is left, and is then told
    /// [`PopError::Closed`](crate::PopError::Closed).
    ///
    /// ```
    /// use lockfree::PopError;
    /// let (mut producer, mut consumer) = lockfree::spsc(4).unwrap();
    /// producer.push(1).unwrap();
    /// producer.close();
    /// assert_eq!((consumer.pop(), consumer.pop()), (Ok(1), Err(PopError::Closed)));
    /// ```
    pub fn close(self) {
        drop(self);
    }
}

impl<T> fmt::Debug for Producer<T> {
    fn fmt(&self, to: &mut fmt::Formatter<'_>) -> fmt::Result {
        to.debug_struct("Producer").field("capacity", &self.capacity).finish_non_exhaustive()
    }
}
