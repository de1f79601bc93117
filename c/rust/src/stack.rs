//! The calls of a stack's pass alone: many values at once.
use crate::cells::word_in_a_box;
use crate::raw::{Code, Folded, Word};
use crate::shared::drop_each;
use crate::{PopError, PushError, StackPass};

/// A range that was pushed, as far as there was room for it.
///
/// ```
/// let stack = lockfree::Stack::new(2).unwrap();
/// let pushed = stack.pass().unwrap().push_range(vec!["a", "b"]).unwrap();
/// assert_eq!((pushed.count, pushed.left), (2, vec![]));
/// ```
#[derive(Clone, Debug, PartialEq, Eq)]
pub struct Pushed<T> {
    /// How many values were pushed, from the first.
    pub count: u64,
    /// Those that the iterator gave and for which there was no room.
    pub left: Vec<T>,
}

impl<T> StackPass<T> {
    /// Pushes values by one compare-and-swap, from the first, as many as there is room for: other threads see all of these
    /// or none. The last one is on top. It takes at most as many values from the iterator as the capacity; the rest is
    /// dropped with the iterator, unless you pass `&mut iterator`. The call takes memory for these values. Pops give back
    /// the memory of values over 8 bytes.
    ///
    /// # Errors
    ///
    /// With all values that the iterator gave: [`PushError::Full`] if there was no room at all, [`PushError::Closed`],
    /// [`PushError::Spent`].
    ///
    /// ```
    /// use lockfree::{PushError, Stack};
    /// let stack = Stack::new(3).unwrap();
    /// let mut pass = stack.pass().unwrap();
    /// pass.push(0).unwrap();
    /// let pushed = pass.push_range(1..=1000).unwrap();
    /// assert_eq!((pushed.count, pushed.left), (2, vec![3]));
    /// assert_eq!(pass.push_range([9]), Err(PushError::Full(vec![9])));
    /// assert_eq!(pass.drain().collect::<Vec<_>>(), [2, 1, 0]);
    /// ```
    pub fn push_range(&mut self, values: impl IntoIterator<Item = T>) -> Result<Pushed<T>, PushError<Vec<T>>> {
        let values: Vec<T> = values.into_iter().take(self.core.capacity as usize).collect();
        let mut words: Vec<Word> = values.into_iter().map(word_in_a_box).collect();
        let put = match self.seat.pass.put_range(&words) {
            Err(Code::EMPTY) => Ok(0),
            answer => answer,
        };
        let rest = words.drain(*put.as_ref().unwrap_or(&0)..);
        // SAFETY: these words were not put.
        let left = rest.map(|word| unsafe { self.seat.hand.value(&self.core.cells, word) }).collect();
        match put {
            Ok(count) => Ok(Pushed { count: count as u64, left }),
            Err(code) => {
                self.core.note_refusal(code);
                Err(PushError::of(code, left))
            }
        }
    }

    /// Pops all values by one compare-and-swap, and hands them to `f` from the top down: what is pushed later is not among
    /// them. Gives how many there were. Their places are free again when the call ends. If `f` panics, the values that it
    /// has not got are dropped.
    ///
    /// # Errors
    ///
    /// Those of [`pop`](crate::Pass::pop), if there was no value.
    ///
    /// ```
    /// let stack = lockfree::Stack::new(4).unwrap();
    /// let mut pass = stack.pass().unwrap();
    /// pass.push_range(["a", "b", "c"]).unwrap();
    /// let mut seen = Vec::new();
    /// assert_eq!(pass.consume_all_atomic(|value| seen.push(value)), Ok(3));
    /// assert_eq!(seen, ["c", "b", "a"]);
    /// ```
    pub fn consume_all_atomic(&mut self, f: impl FnMut(T)) -> Result<u64, PopError> {
        self.fold(false, f)
    }

    /// The same from the bottom up: in the order in which the values were pushed.
    ///
    /// # Errors
    ///
    /// Those of [`pop`](crate::Pass::pop), if there was no value.
    ///
    /// ```
    /// let stack = lockfree::Stack::new(4).unwrap();
    /// let mut pass = stack.pass().unwrap();
    /// pass.push_range(["a", "b", "c"]).unwrap();
    /// let mut seen = Vec::new();
    /// assert_eq!(pass.consume_all_atomic_reversed(|value| seen.push(value)), Ok(3));
    /// assert_eq!(seen, ["a", "b", "c"]);
    /// ```
    pub fn consume_all_atomic_reversed(&mut self, f: impl FnMut(T)) -> Result<u64, PopError> {
        self.fold(true, f)
    }

    fn fold(&mut self, reversed: bool, mut f: impl FnMut(T)) -> Result<u64, PopError> {
        let folded = self.seat.pass.fold(reversed);
        if let Folded::Refused(code) = folded {
            self.core.note_refusal(code);
            return Err(PopError::of(code));
        }
        let mut fold = Fold { pass: self, folded };
        let mut count = 0;
        while let Some(value) = fold.next() {
            count += 1;
            f(value);
        }
        Ok(count)
    }
}

/// A fold under way. It goes to its end also if its values are not wanted any more.
struct Fold<'a, T> {
    pass: &'a mut StackPass<T>,
    folded: Folded,
}

impl<T> Fold<'_, T> {
    fn next(&mut self) -> Option<T> {
        let Folded::Value(word) = self.folded else { return None };
        self.folded = self.pass.seat.pass.fold_on();
        // SAFETY: the word comes out. (That none comes out twice is proved.)
        Some(unsafe { self.pass.seat.hand.value(&self.pass.core.cells, word) })
    }
}

impl<T> Drop for Fold<'_, T> {
    fn drop(&mut self) {
        drop_each(|| self.next());
    }
}
