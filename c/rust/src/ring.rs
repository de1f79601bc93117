//! The ring: a queue for a known number of passes.
use crate::container::{container, counts};
use crate::pass::{Pass, RingPass};
use crate::raw::Kind;
use crate::shared::Owner;
use crate::waiting::{pop_until, push_until};
use crate::{IntoIter, MakeError, PopError, PushError, Stop, TAG_LIMIT};
use std::fmt;

/// The passes of a ring if its caller gives no number: enough for the threads of a large machine. (A ring takes memory for each
/// of them, and calls by `&` need none of their own.)
const USUAL_PASSES: u32 = 256;

/// How many passes may be out at one time.
const PASS_LIMIT: u32 = 65_534;

/// How many times a ring can be filled.
pub(crate) const LAP_LIMIT: u64 = TAG_LIMIT / 2;

/// A bounded queue for a known number of passes: first in, first out. Between threads it takes less time than a
/// [`Queue`](crate::Queue).
///
/// Threads share it by `&`, as `Arc<Ring<T>>` or in a scope, and call it so. It also gives passes: a thread that keeps one
/// calls faster by it, and can use it where the ring itself cannot be borrowed.
///
/// ```
/// let ring = lockfree::Ring::with_passes(64, 2).unwrap();
/// let (mut putting, mut taking) = (ring.pass().unwrap(), ring.pass().unwrap());
/// assert!(ring.pass().is_err());
/// putting.push("a").unwrap();
/// putting.push("b").unwrap();
/// assert_eq!(ring.len(), 2);
/// assert_eq!(taking.drain().collect::<Vec<_>>(), ["a", "b"]);
/// ```
///
#[doc = include_str!("dropped.md")]
pub struct Ring<T> {
    owner: Owner<T>,
}

impl<T> Ring<T> {
    /// A ring of at most `capacity` values, 1 to 1,048,318, and 256 passes. It takes its memory now.
    ///
    /// # Errors
    ///
    /// [`MakeError::BadCapacity`], [`MakeError::NoMemory`], and [`MakeError::OtherVersion`] if the library that was
    /// linked is not of this crate's version.
    ///
    /// ```
    /// use lockfree::{MakeError, Ring};
    /// assert!(Ring::<u8>::new(4).is_ok());
    /// assert_eq!(Ring::<u8>::new(0).err(), Some(MakeError::BadCapacity));
    /// ```
    pub fn new(capacity: u32) -> Result<Self, MakeError> {
        Self::with_passes(capacity, USUAL_PASSES)
    }

    /// A ring of at most `capacity` values, of which at most `passes` passes are out at one time: 1 to 65,534, and with
    /// the capacity at most 1,048,574.
    ///
    /// # Errors
    ///
    /// Those of `new`, and [`MakeError::BadLimit`].
    ///
    /// ```
    /// use lockfree::{MakeError, Ring};
    /// let ring = Ring::<u8>::with_passes(4, 1).unwrap();
    /// let pass = ring.pass().unwrap();
    /// assert_eq!(ring.pass().err(), Some(MakeError::NoPass));
    /// drop(pass);
    /// assert!(ring.pass().is_ok());
    /// ```
    pub fn with_passes(capacity: u32, passes: u32) -> Result<Self, MakeError> {
        Self::with_lap_limit(capacity, passes, LAP_LIMIT)
    }

    /// The same with a lower limit for its laps, 1 to 2^41 - 1, for tests of what a program does when a ring is spent: it
    /// takes `laps` times its capacity of values in its life.
    ///
    /// # Errors
    ///
    /// Those of `with_passes`.
    ///
    /// ```
    /// use lockfree::{PushError, Ring};
    /// let ring = Ring::with_lap_limit(2, 1, 3).unwrap();
    /// let mut pass = ring.pass().unwrap();
    /// for value in 0..6 {
    ///     pass.push(value).unwrap();
    ///     pass.pop().unwrap();
    /// }
    /// assert_eq!(pass.push(6), Err(PushError::Spent(6)));
    /// ```
    pub fn with_lap_limit(capacity: u32, passes: u32, laps: u64) -> Result<Self, MakeError> {
        if !(1..=PASS_LIMIT).contains(&passes) || !(1..=LAP_LIMIT).contains(&laps) {
            return Err(MakeError::BadLimit);
        }
        // (one more: the ring's own)
        Ok(Self { owner: Owner::new(Kind::Ring { laps, passes: passes + 1 }, capacity)? })
    }
}

container!(Ring, RingPass);
counts!(Ring, RingPass);
