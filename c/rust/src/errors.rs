//! Why a call was refused.
use crate::raw::Code;
use std::error::Error;
use std::fmt;

/// Why a push was refused. The value comes back in it.
///
/// ```
/// use lockfree::{PushError, Queue};
/// let queue = Queue::new(1).unwrap();
/// let mut pass = queue.pass().unwrap();
/// assert!(pass.push("a").is_ok());
/// assert_eq!(pass.push("b"), Err(PushError::Full("b")));
/// ```
#[derive(Clone, Copy, PartialEq, Eq)]
#[non_exhaustive]
pub enum PushError<T> {
    /// Each place holds a value, or is held by a call under way; there may be room later.
    Full(T),
    /// The container was closed: it takes no value any more. Of a [`Producer`](crate::Producer): no slot is free, and the
    /// consumer has left.
    Closed(T),
    /// A tag is at its limit: the container takes no value any more. See [`Pass::wear`](crate::Pass::wear).
    Spent(T),
}

impl<T> PushError<T> {
    /// The value that was refused.
    ///
    /// ```
    /// let queue = lockfree::Queue::new(1).unwrap();
    /// let mut pass = queue.pass().unwrap();
    /// assert!(pass.push(1).is_ok());
    /// assert_eq!(pass.push(2).unwrap_err().into_inner(), 2);
    /// ```
    pub fn into_inner(self) -> T {
        match self {
            PushError::Full(value) | PushError::Closed(value) | PushError::Spent(value) => value,
        }
    }

    /// Whether there was no room, so that the same push may be taken later.
    ///
    /// ```
    /// let queue = lockfree::Queue::new(1).unwrap();
    /// let mut pass = queue.pass().unwrap();
    /// assert!(pass.push(1).is_ok());
    /// assert!(pass.push(2).unwrap_err().is_full());
    /// pass.close();
    /// assert!(!pass.push(2).unwrap_err().is_full());
    /// ```
    pub fn is_full(&self) -> bool {
        matches!(self, PushError::Full(_))
    }

    pub(crate) fn of(code: Code, value: T) -> PushError<T> {
        match code {
            Code::FULL => PushError::Full(value),
            Code::CLOSED => PushError::Closed(value),
            _ => PushError::Spent(value),
        }
    }
}

// Of every type, so that `unwrap` and `?` ask nothing of a value.
impl<T> fmt::Debug for PushError<T> {
    fn fmt(&self, to: &mut fmt::Formatter<'_>) -> fmt::Result {
        to.write_str(match self {
            PushError::Full(_) => "Full(..)",
            PushError::Closed(_) => "Closed(..)",
            PushError::Spent(_) => "Spent(..)",
        })
    }
}

impl<T> fmt::Display for PushError<T> {
    fn fmt(&self, to: &mut fmt::Formatter<'_>) -> fmt::Result {
        to.write_str(match self {
            PushError::Full(_) => "the container is full",
            PushError::Closed(_) => "the container was closed",
            PushError::Spent(_) => "a tag of the container is at its limit",
        })
    }
}

impl<T> Error for PushError<T> {}

/// Why there was no value.
///
/// ```
/// use lockfree::{PopError, Queue};
/// let queue = Queue::<u8>::new(1).unwrap();
/// let mut pass = queue.pass().unwrap();
/// assert_eq!(pass.pop(), Err(PopError::Empty));
/// assert_eq!(PopError::Empty.to_string(), "the container is empty");
/// ```
#[derive(Clone, Copy, Debug, PartialEq, Eq, Hash)]
#[non_exhaustive]
pub enum PopError {
    /// There is none; one may come.
    Empty,
    /// There is none, and none will come: the container was closed, or the producer of [`spsc`](crate::spsc()) has left.
    Closed,
    /// The container was shut: it gives no value any more.
    Shut,
    /// A tag is at its limit. A stack: it gives no value any more. A pop of a queue or a ring that waits: it is empty, and a
    /// push was refused as spent, so nothing comes any more. See [`Pass::wear`](crate::Pass::wear).
    Spent,
    /// There was none until the [`Stop`](crate::Stop) ended the wait.
    Late,
}

impl PopError {
    pub(crate) fn of(code: Code) -> PopError {
        match code {
            Code::EMPTY => PopError::Empty,
            Code::CLOSED => PopError::Closed,
            Code::SHUT => PopError::Shut,
            _ => PopError::Spent,
        }
    }
}

impl fmt::Display for PopError {
    fn fmt(&self, to: &mut fmt::Formatter<'_>) -> fmt::Result {
        to.write_str(match self {
            PopError::Empty => "the container is empty",
            PopError::Closed => "the container is empty and was closed",
            PopError::Shut => "the container was shut",
            PopError::Spent => "a tag of the container is at its limit",
            PopError::Late => "no value came before the wait ended",
        })
    }
}

impl Error for PopError {}

/// Why there is no container, or no pass.
///
/// ```
/// use lockfree::{MakeError, Queue};
/// assert_eq!(Queue::<u8>::new(0).unwrap_err(), MakeError::BadCapacity);
/// ```
#[derive(Clone, Copy, Debug, PartialEq, Eq, Hash)]
#[non_exhaustive]
pub enum MakeError {
    /// There is no memory.
    NoMemory,
    /// As many passes of the container are out as there may be: 65,534, and in a ring as many as it was made for.
    NoPass,
    /// A capacity is 1 to 1,048,573; in a ring with its passes at most 1,048,574; of [`spsc`](crate::spsc()) any but 0.
    BadCapacity,
    /// A tag limit is 2 to 2^42 - 1, a lap limit 1 to 2^41 - 1, and a ring's passes are 1 to 65,534.
    BadLimit,
    /// The library that was linked is not of this crate's version.
    OtherVersion,
}

impl fmt::Display for MakeError {
    fn fmt(&self, to: &mut fmt::Formatter<'_>) -> fmt::Result {
        to.write_str(match self {
            MakeError::NoMemory => "there is no memory",
            MakeError::NoPass => "all passes of the container are out",
            MakeError::BadCapacity => {
                "a capacity is 1 to 1,048,573, in a ring with its passes at most 1,048,574, and of spsc any but 0"
            }
            MakeError::BadLimit => {
                "a tag limit is 2 to 2^42 - 1, a lap limit 1 to 2^41 - 1, and a ring's passes are 1 to 65,534"
            }
            MakeError::OtherVersion => "liblockfree.a is of another version than this crate",
        })
    }
}

impl Error for MakeError {}
