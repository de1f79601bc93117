//! The calls that passes of all containers make.
use crate::shared::{Core, Seat};
use crate::waiting::{pop_until, push_until};
use crate::{MakeError, PopError, PushError, Stop};
use std::fmt;
use std::marker::PhantomData;
use std::mem;
use std::sync::Arc;

/// The kinds of containers, as types: what [`QueuePass`], [`StackPass`] and [`RingPass`] differ in.
pub mod kind {
    /// First in, first out.
    #[derive(Debug)]
    pub enum Queue {}
    /// Last in, first out.
    #[derive(Debug)]
    pub enum Stack {}
    /// First in, first out, for a known number of passes.
    #[derive(Debug)]
    pub enum Ring {}
}

/// A pass of a queue.
pub type QueuePass<T> = Pass<T, kind::Queue>;

/// A pass of a stack. It has the calls of many values at once, and those of [`Pass`].
pub type StackPass<T> = Pass<T, kind::Stack>;

/// A pass of a ring. It has the calls of [`Pass`].
pub type RingPass<T> = Pass<T, kind::Ring>;

/// One thread's way to a container: a [`QueuePass`], a [`StackPass`] or a [`RingPass`].
///
/// It borrows nothing, so it goes into `std::thread::spawn` and into a future, without a scope and without an `Arc` around the
/// container. Its calls take it by `&mut`, so that one thread uses it at a time. It is `Send` if the values are. It is not
/// `Sync`:
///
/// ```compile_fail
/// fn shared<T: Sync>() {}
/// shared::<lockfree::QueuePass<u64>>();
/// ```
///
/// Only calls with `wait` in their names wait for room or a value. Only `push_range` of a stack and `try_clone`, which
/// takes a lock too, take memory. Any other call of a ring takes no lock. Nor does one of a queue or a stack, unless its
/// values are larger than 8 bytes and more than 64 passes were out at one time. A pass keeps what it needs if its
/// container is dropped, but not the values that were in the container then. It goes back to the container, under a lock,
/// when it is dropped itself.
///
/// If a call says that something is so, it was so at one moment of the call: other threads may have changed it since.
#[repr(align(64))] // (of cache lines of its own, since its calls write to the seat)
pub struct Pass<T, K> {
    pub(crate) core: Arc<Core<T>>,
    pub(crate) seat: Seat<T>,
    kind: PhantomData<fn() -> K>,
}

impl<T, K> Pass<T, K> {
    pub(crate) fn new(core: &Arc<Core<T>>) -> Result<Self, MakeError> {
        Ok(Pass { core: core.clone(), seat: core.seat()?, kind: PhantomData })
    }

    /// Another pass of the same container, also if the container was dropped. Passes can run out and memory too, so this is no
    /// `Clone`.
    ///
    /// # Errors
    ///
    /// Those of [`Queue::pass`](crate::Queue::pass).
    ///
    /// ```
    /// let ring = lockfree::Ring::with_passes(4, 2).unwrap();
    /// let mut one = ring.pass().unwrap();
    /// let mut other = one.try_clone().unwrap();
    /// std::thread::spawn(move || other.push(7)).join().unwrap().unwrap();
    /// assert_eq!(one.pop(), Ok(7));
    /// ```
    pub fn try_clone(&self) -> Result<Self, MakeError> {
        Pass::new(&self.core)
    }

    /// Pushes a value. Gives the push's number, counted from 0 over all threads: of a queue the pushes alone, of a stack the
    /// pushes and pops together.
    ///
    /// # Errors
    ///
    /// With the value: [`PushError::Full`], [`PushError::Closed`], [`PushError::Spent`].
    ///
    /// ```
    /// use lockfree::{PushError, Queue};
    /// let queue = Queue::new(2).unwrap();
    /// let mut pass = queue.pass().unwrap();
    /// assert_eq!(pass.push("a".to_string()), Ok(0));
    /// assert_eq!(pass.push("b".to_string()), Ok(1));
    /// assert_eq!(pass.push("c".to_string()), Err(PushError::Full("c".to_string())));
    /// ```
    pub fn push(&mut self, value: T) -> Result<u64, PushError<T>> {
        self.core.push(&mut self.seat, value)
    }

    /// Pops a value.
    ///
    /// # Errors
    ///
    /// [`PopError::Empty`], [`PopError::Closed`], [`PopError::Shut`], [`PopError::Spent`].
    ///
    /// ```
    /// use lockfree::{PopError, Queue};
    /// let queue = Queue::new(2).unwrap();
    /// let mut pass = queue.pass().unwrap();
    /// assert_eq!(pass.pop(), Err(PopError::Empty));
    /// pass.push(5).unwrap();
    /// pass.close();
    /// assert_eq!(pass.pop(), Ok(5));
    /// assert_eq!(pass.pop(), Err(PopError::Closed));
    /// ```
    pub fn pop(&mut self) -> Result<T, PopError> {
        self.core.pop(&mut self.seat)
    }

    /// Pops a value, and gives the pop's number too: of a queue the number that the value's push had; of a stack pushes and
    /// pops are counted together.
    ///
    /// # Errors
    ///
    /// Those of [`pop`](Pass::pop).
    ///
    /// ```
    /// let queue = lockfree::Queue::new(2).unwrap();
    /// let mut pass = queue.pass().unwrap();
    /// let number = pass.push("a").unwrap();
    /// assert_eq!(pass.pop_numbered(), Ok(("a", number)));
    /// ```
    pub fn pop_numbered(&mut self) -> Result<(T, u64), PopError> {
        let value = self.pop()?;
        Ok((value, self.seat.pass.number()))
    }

    /// Pushes a value, and waits as long as there is no room, until the [`Stop`] ends the wait. It tries once at least. It
    /// waits by trying again: at first at once, then after other threads had their turn, and at last after sleeps that grow
    /// from 50 microseconds to a millisecond.
    ///
    /// # Errors
    ///
    /// With the value: [`PushError::Full`] if the stop ended the wait, [`PushError::Closed`], [`PushError::Spent`].
    ///
    /// ```
    /// use std::time::{Duration, Instant};
    /// let queue = lockfree::Queue::new(1).unwrap();
    /// let mut pass = queue.pass().unwrap();
    /// assert_eq!(pass.push_wait('a', None), Ok(0));
    /// assert!(pass.push_wait('b', Duration::from_millis(2)).unwrap_err().is_full());
    /// let soon = Instant::now() + Duration::from_millis(2);
    /// assert!(pass.push_wait('b', soon).unwrap_err().is_full());
    /// ```
    pub fn push_wait(&mut self, value: T, stop: impl Stop) -> Result<u64, PushError<T>> {
        push_until(value, stop, |value| self.push(value))
    }

    /// Pops a value, and waits as long as there is none and one may come, until the [`Stop`] ends the wait. It tries once at
    /// least, and waits as [`push_wait`](Pass::push_wait) does.
    ///
    /// # Errors
    ///
    /// [`PopError::Late`] if the stop ended the wait, [`PopError::Closed`], [`PopError::Shut`], [`PopError::Spent`].
    ///
    /// ```
    /// use lockfree::PopError;
    /// use std::time::Duration;
    /// let queue = lockfree::Queue::<u8>::new(1).unwrap();
    /// let mut pass = queue.pass().unwrap();
    /// assert_eq!(pass.pop_wait(Duration::from_millis(2)), Err(PopError::Late));
    /// pass.close();
    /// assert_eq!(pass.pop_wait(None), Err(PopError::Closed));
    /// ```
    pub fn pop_wait(&mut self, stop: impl Stop) -> Result<T, PopError> {
        pop_until(stop, || (self.core.is_spent(), self.pop()))
    }

    /// Pops values one after another, until there is none: then it gives `None`, and may give values again later. What was
    /// not asked for stays in the container.
    ///
    /// ```
    /// let queue = lockfree::Queue::new(4).unwrap();
    /// let mut pass = queue.pass().unwrap();
    /// (1..=3).for_each(|value| drop(pass.push(value)));
    /// assert_eq!(pass.drain().collect::<Vec<_>>(), [1, 2, 3]);
    /// ```
    pub fn drain(&mut self) -> Drain<'_, T, K> {
        Drain { pass: self }
    }

    /// Closes the container, so that no push follows; what it holds can be popped. Whether this call closed it.
    ///
    /// ```
    /// let queue = lockfree::Queue::new(4).unwrap();
    /// let mut pass = queue.pass().unwrap();
    /// assert!(pass.close());
    /// assert!(!pass.close());
    /// assert_eq!(pass.push(1), Err(lockfree::PushError::Closed(1)));
    /// ```
    pub fn close(&mut self) -> bool {
        self.core.close(&mut self.seat)
    }

    /// Shuts the container, so that no pop follows; pushes may. What it holds is dropped when the container and all passes
    /// have been. Whether this call shut it.
    ///
    /// ```
    /// let queue = lockfree::Queue::new(4).unwrap();
    /// let mut pass = queue.pass().unwrap();
    /// pass.push(1).unwrap();
    /// assert!(pass.shut());
    /// assert_eq!(pass.pop(), Err(lockfree::PopError::Shut));
    /// ```
    pub fn shut(&mut self) -> bool {
        self.seat.pass.shut()
    }

    /// Whether the container was closed.
    ///
    /// ```
    /// let queue = lockfree::Queue::<u8>::new(4).unwrap();
    /// let mut pass = queue.pass().unwrap();
    /// assert!(!pass.is_closed());
    /// pass.close();
    /// assert!(pass.is_closed());
    /// ```
    pub fn is_closed(&mut self) -> bool {
        self.core.is_closed(&mut self.seat)
    }

    /// Whether the container was empty.
    ///
    /// ```
    /// let stack = lockfree::Stack::new(4).unwrap();
    /// let mut pass = stack.pass().unwrap();
    /// assert!(pass.is_empty());
    /// pass.push(1).unwrap();
    /// assert!(!pass.is_empty());
    /// ```
    pub fn is_empty(&mut self) -> bool {
        self.seat.pass.is_empty()
    }

    /// How many values the container holds at most.
    ///
    /// ```
    /// let stack = lockfree::Stack::<u8>::new(4).unwrap();
    /// assert_eq!(stack.pass().unwrap().capacity(), 4);
    /// ```
    pub fn capacity(&self) -> u32 {
        self.core.capacity
    }

    /// Which part of the container's life has gone, 0 to 1. A queue has numbers for 2^42 - 1 pushes, or one fewer, a stack
    /// for 2^42 - 1 pushes and pops, a ring for 2^41 - 1 times its capacity of pushes; then no push succeeds. That takes
    /// more than a day of calls without a pause. A program that runs for so long replaces its container before.
    ///
    /// ```
    /// let queue = lockfree::Queue::with_tag_limit(1, 1001).unwrap();
    /// let mut pass = queue.pass().unwrap();
    /// for value in 0..500 {
    ///     pass.push(value).unwrap();
    ///     pass.pop().unwrap();
    /// }
    /// assert_eq!(pass.wear(), 0.5);
    /// ```
    pub fn wear(&mut self) -> f64 {
        self.core.wear(&mut self.seat)
    }
}

impl<T, K> Drop for Pass<T, K> {
    fn drop(&mut self) {
        self.core.rest(mem::replace(&mut self.seat, Seat::none()));
    }
}

impl<T, K> fmt::Debug for Pass<T, K> {
    fn fmt(&self, to: &mut fmt::Formatter<'_>) -> fmt::Result {
        to.debug_struct("Pass").field("capacity", &self.core.capacity).finish_non_exhaustive()
    }
}

/// The values that [`Pass::drain`] pops.
///
/// ```
/// let queue = lockfree::Queue::new(4).unwrap();
/// let mut pass = queue.pass().unwrap();
/// (1..=3).for_each(|value| drop(pass.push(value)));
/// assert_eq!(pass.drain().next(), Some(1));
/// assert_eq!(pass.pop(), Ok(2));
/// ```
pub struct Drain<'a, T, K> {
    pass: &'a mut Pass<T, K>,
}

impl<T, K> fmt::Debug for Drain<'_, T, K> {
    fn fmt(&self, to: &mut fmt::Formatter<'_>) -> fmt::Result {
        to.debug_struct("Drain").finish_non_exhaustive()
    }
}

impl<T, K> Iterator for Drain<'_, T, K> {
    type Item = T;

    fn next(&mut self) -> Option<T> {
        self.pass.pop().ok()
    }
}
