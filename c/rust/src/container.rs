//! The queue and the stack, and what all containers have: passes, and calls by `&`.
use crate::pass::{Pass, QueuePass, StackPass};
use crate::raw::Kind;
use crate::shared::Owner;
use crate::waiting::{pop_until, push_until};
use crate::{IntoIter, MakeError, PopError, PushError, Stop, TAG_LIMIT};
use std::fmt;

/// A bounded queue: first in, first out.
///
/// Threads share it by `&`, as `Arc<Queue<T>>` or in a scope, and call it so. It also gives passes: a thread that keeps one
/// calls faster by it, and can use it where the queue itself cannot be borrowed.
///
/// ```
/// let queue = lockfree::Queue::new(64).unwrap();
/// std::thread::scope(|scope| {
///     scope.spawn(|| {
///         for i in 0..1000 {
///             queue.push_wait(i, None).unwrap();
///         }
///         queue.close();
///     });
///     let mut pass = queue.pass().unwrap();
///     scope.spawn(move || {
///         for i in 0..1000 {
///             assert_eq!(pass.pop_wait(None), Ok(i));
///         }
///         assert_eq!(pass.pop_wait(None), Err(lockfree::PopError::Closed));
///     });
/// });
/// ```
///
#[doc = include_str!("dropped.md")]
///
/// It is `Send` and `Sync` if its values are `Send`:
///
/// ```compile_fail
/// let queue = lockfree::Queue::<std::rc::Rc<u8>>::new(2).unwrap();
/// std::thread::spawn(move || queue.capacity());
/// ```
pub struct Queue<T> {
    owner: Owner<T>,
}

/// A bounded stack: last in, first out.
///
/// Threads share it by `&`, as `Arc<Stack<T>>` or in a scope, and call it so. It also gives passes: a thread that keeps one
/// calls faster by it, can use it where the stack itself cannot be borrowed, and has the calls of many values at once.
///
/// ```
/// let stack = lockfree::Stack::new(64).unwrap();
/// stack.push("a").unwrap();
/// stack.push("b").unwrap();
/// let mut pass = stack.pass().unwrap();
/// assert_eq!(pass.drain().collect::<Vec<_>>(), ["b", "a"]);
/// ```
///
#[doc = include_str!("dropped.md")]
pub struct Stack<T> {
    owner: Owner<T>,
}

/// Containers that have as many passes as there may be.
macro_rules! of_all_passes {
    ($Container:ident, $name:literal) => {
        impl<T> $Container<T> {
            #[doc = concat!("A ", $name, " of at most `capacity` values: 1 to 1,048,573. It takes its memory now.")]
            ///
            /// # Errors
            ///
            /// [`MakeError::BadCapacity`], [`MakeError::NoMemory`], and [`MakeError::OtherVersion`] if the library that was
            /// linked is not of this crate's version.
            ///
            /// ```
            #[doc = concat!("use lockfree::{MakeError, ", stringify!($Container), "};")]
            #[doc = concat!("assert!(", stringify!($Container), "::<u8>::new(4).is_ok());")]
            #[doc = concat!("assert_eq!(", stringify!($Container), "::<u8>::new(0).err(), Some(MakeError::BadCapacity));")]
            /// ```
            pub fn new(capacity: u32) -> Result<Self, MakeError> {
                Self::with_tag_limit(capacity, TAG_LIMIT)
            }

            /// The same with a lower limit for its tags, 2 to 2^42 - 1, for tests of what a program does when a container is
            /// spent. A queue of limit n takes n - 1 or n values in its life; a stack makes n pushes and pops in all.
            ///
            /// # Errors
            ///
            /// Those of `new`, and [`MakeError::BadLimit`].
            ///
            /// ```
            /// use lockfree::PushError;
            #[doc = concat!("let container = lockfree::", stringify!($Container), "::with_tag_limit(8, 3).unwrap();")]
            /// let refused = (0..4).find_map(|value| container.push(value).err());
            /// assert!(matches!(refused, Some(PushError::Spent(_))));
            /// ```
            pub fn with_tag_limit(capacity: u32, tag_limit: u64) -> Result<Self, MakeError> {
                if !(2..=TAG_LIMIT).contains(&tag_limit) {
                    return Err(MakeError::BadLimit);
                }
                Ok(Self { owner: Owner::new(Kind::$Container { tags: tag_limit }, capacity)? })
            }
        }
    };
}

/// What each container has, by its `owner`.
macro_rules! container {
    ($Container:ident, $Pass:ident) => {
        impl<T> $Container<T> {
            /// A pass, for one thread at a time: one that was dropped, or a new one, which takes memory. It takes a lock.
            ///
            /// # Errors
            ///
            /// [`MakeError::NoPass`] if 65,534 are out at this time, or in a ring as many as it was made for, and
            /// [`MakeError::NoMemory`]. A later call may succeed. A pass that a call by `&` is using counts as out.
            ///
            /// ```
            #[doc = concat!("let container = lockfree::", stringify!($Container), "::new(4).unwrap();")]
            /// let (mut one, mut other) = (container.pass().unwrap(), container.pass().unwrap());
            /// one.push(7).unwrap();
            /// assert_eq!(other.pop(), Ok(7));
            /// ```
            pub fn pass(&self) -> Result<$Pass<T>, MakeError> {
                Pass::new(&self.owner.core)
            }

            /// How many values it holds at most.
            ///
            /// ```
            #[doc = concat!("let container = lockfree::", stringify!($Container), "::<u8>::new(4).unwrap();")]
            /// assert_eq!(container.capacity(), 4);
            /// ```
            pub fn capacity(&self) -> u32 {
                self.owner.core.capacity
            }
        }

        #[doc = include_str!("by_reference.md")]
        impl<T> $Container<T> {
            /// Pushes a value, as [`Pass::push`] does.
            ///
            /// # Errors
            ///
            /// With the value: [`PushError::Full`], [`PushError::Closed`], [`PushError::Spent`].
            ///
            /// ```
            /// use lockfree::PushError;
            #[doc = concat!("let container = lockfree::", stringify!($Container), "::new(1).unwrap();")]
            /// assert_eq!(container.push("a"), Ok(0));
            /// assert_eq!(container.push("b"), Err(PushError::Full("b")));
            /// ```
            pub fn push(&self, value: T) -> Result<u64, PushError<T>> {
                let core = &*self.owner.core;
                core.by_any_seat(|seat| core.push(seat, value))
            }

            /// Pops a value, as [`Pass::pop`] does.
            ///
            /// # Errors
            ///
            /// [`PopError::Empty`], [`PopError::Closed`], [`PopError::Shut`], [`PopError::Spent`].
            ///
            /// ```
            /// use lockfree::PopError;
            #[doc = concat!("let container = lockfree::", stringify!($Container), "::new(1).unwrap();")]
            /// container.push(7).unwrap();
            /// assert_eq!((container.pop(), container.pop()), (Ok(7), Err(PopError::Empty)));
            /// ```
            pub fn pop(&self) -> Result<T, PopError> {
                let core = &*self.owner.core;
                core.by_any_seat(|seat| core.pop(seat))
            }

            /// Pushes a value, and waits as long as there is no room, as [`Pass::push_wait`] does.
            ///
            /// # Errors
            ///
            /// With the value: [`PushError::Full`] if the stop ended the wait, [`PushError::Closed`], [`PushError::Spent`].
            ///
            /// ```
            /// use std::time::Duration;
            #[doc = concat!("let container = lockfree::", stringify!($Container), "::new(1).unwrap();")]
            /// assert!(container.push_wait('a', None).is_ok());
            /// assert!(container.push_wait('b', Duration::from_millis(2)).unwrap_err().is_full());
            /// ```
            pub fn push_wait(&self, value: T, stop: impl Stop) -> Result<u64, PushError<T>> {
                push_until(value, stop, |value| self.push(value))
            }

            /// Pops a value, and waits as long as there is none and one may come, as [`Pass::pop_wait`] does.
            ///
            /// # Errors
            ///
            /// [`PopError::Late`] if the stop ended the wait, [`PopError::Closed`], [`PopError::Shut`], [`PopError::Spent`].
            ///
            /// ```
            /// use lockfree::PopError;
            /// use std::time::Duration;
            #[doc = concat!("let container = lockfree::", stringify!($Container), "::<u8>::new(1).unwrap();")]
            /// assert_eq!(container.pop_wait(Duration::from_millis(2)), Err(PopError::Late));
            /// ```
            pub fn pop_wait(&self, stop: impl Stop) -> Result<T, PopError> {
                pop_until(stop, || (self.owner.core.is_spent(), self.pop()))
            }

            /// Closes it, so that no push follows; what it holds can be popped. Whether this call closed it.
            ///
            /// ```
            #[doc = concat!("let container = lockfree::", stringify!($Container), "::new(4).unwrap();")]
            /// assert!(container.close() && !container.close());
            /// assert_eq!(container.push(1), Err(lockfree::PushError::Closed(1)));
            /// ```
            pub fn close(&self) -> bool {
                let core = &*self.owner.core;
                core.by_any_seat(|seat| core.close(seat))
            }

            /// Shuts it, so that no pop follows; pushes may. Whether this call shut it.
            ///
            /// ```
            #[doc = concat!("let container = lockfree::", stringify!($Container), "::<u8>::new(4).unwrap();")]
            /// assert!(container.shut() && !container.shut());
            /// assert_eq!(container.pop(), Err(lockfree::PopError::Shut));
            /// ```
            pub fn shut(&self) -> bool {
                self.owner.core.by_any_seat(|seat| seat.pass.shut())
            }

            /// Whether it was empty, as [`Pass::is_empty`] says it.
            ///
            /// ```
            #[doc = concat!("let container = lockfree::", stringify!($Container), "::new(4).unwrap();")]
            /// assert!(container.is_empty());
            /// container.push(1).unwrap();
            /// assert!(!container.is_empty());
            /// ```
            pub fn is_empty(&self) -> bool {
                self.owner.core.by_any_seat(|seat| seat.pass.is_empty())
            }

            /// Whether it was closed, as [`Pass::is_closed`] says it.
            ///
            /// ```
            #[doc = concat!("let container = lockfree::", stringify!($Container), "::<u8>::new(4).unwrap();")]
            /// container.close();
            /// assert!(container.is_closed());
            /// ```
            pub fn is_closed(&self) -> bool {
                let core = &*self.owner.core;
                core.by_any_seat(|seat| core.is_closed(seat))
            }

            /// Which part of its life has gone, 0 to 1, as [`Pass::wear`] says it.
            ///
            /// ```
            #[doc = concat!("let container = lockfree::", stringify!($Container), "::<u8>::new(4).unwrap();")]
            /// assert_eq!(container.wear(), 0.0);
            /// ```
            pub fn wear(&self) -> f64 {
                let core = &*self.owner.core;
                core.by_any_seat(|seat| core.wear(seat))
            }
        }

        impl<T> IntoIterator for $Container<T> {
            type Item = T;
            type IntoIter = IntoIter<T>;

            /// Ends the container, and gives what is left in it, in the order of pops.
            fn into_iter(self) -> IntoIter<T> {
                IntoIter::new(self.owner)
            }
        }

        impl<T> fmt::Debug for $Container<T> {
            fn fmt(&self, to: &mut fmt::Formatter<'_>) -> fmt::Result {
                to.debug_struct(stringify!($Container)).field("capacity", &self.capacity()).finish_non_exhaustive()
            }
        }
    };
}

/// What the containers have that know how many values they hold: a queue and a ring, and no stack.
macro_rules! counts {
    ($Container:ident, $Pass:ident) => {
        /// How many values it holds.
        impl<T> $Container<T> {
            /// How many values it held. The count begins anew while others pop.
            ///
            /// ```
            #[doc = concat!("let container = lockfree::", stringify!($Container), "::new(4).unwrap();")]
            /// container.push('a').unwrap();
            /// container.push('b').unwrap();
            /// assert_eq!(container.len(), 2);
            /// ```
            pub fn len(&self) -> usize {
                let core = &*self.owner.core;
                core.by_any_seat(|seat| core.len(seat))
            }

            /// Whether it held as many values as its capacity. A push of a queue may be refused as full earlier, while other
            /// pushes and pops are under way.
            ///
            /// ```
            #[doc = concat!("let container = lockfree::", stringify!($Container), "::new(1).unwrap();")]
            /// assert!(!container.is_full());
            /// container.push('a').unwrap();
            /// assert!(container.is_full());
            /// ```
            pub fn is_full(&self) -> bool {
                self.len() == self.capacity() as usize
            }
        }

        impl<T> $Pass<T> {
            /// How many values the container held. The count begins anew while others pop.
            ///
            /// ```
            #[doc = concat!("let container = lockfree::", stringify!($Container), "::new(4).unwrap();")]
            /// let mut pass = container.pass().unwrap();
            /// pass.push('a').unwrap();
            /// pass.push('b').unwrap();
            /// assert_eq!(pass.len(), 2);
            /// ```
            pub fn len(&mut self) -> usize {
                self.core.len(&mut self.seat)
            }

            /// Whether the container held as many values as its capacity. A push of a queue may be refused as full earlier,
            /// while other pushes and pops are under way.
            ///
            /// ```
            #[doc = concat!("let container = lockfree::", stringify!($Container), "::new(1).unwrap();")]
            /// let mut pass = container.pass().unwrap();
            /// pass.push('a').unwrap();
            /// assert!(pass.is_full());
            /// ```
            pub fn is_full(&mut self) -> bool {
                self.len() == self.core.capacity as usize
            }
        }
    };
}

of_all_passes!(Queue, "queue");
of_all_passes!(Stack, "stack");
container!(Queue, QueuePass);
container!(Stack, StackPass);
counts!(Queue, QueuePass);

pub(crate) use {container, counts};
