//! What is left in a container that ends.
use crate::shared::Owner;
use std::fmt;

/// The values that were left in a [`Queue`](crate::Queue), a [`Stack`](crate::Stack) or a [`Ring`](crate::Ring), in the order
/// of pops. If no pass is left, it gives all of them, also those of a container that was shut or is spent. What it did not
/// give is dropped with it.
///
/// ```
/// let stack = lockfree::Stack::with_tag_limit(4, 3).unwrap();
/// while stack.push("kept").is_ok() {}
/// assert_eq!(stack.pop(), Err(lockfree::PopError::Spent));
/// assert_eq!(stack.into_iter().collect::<Vec<_>>(), ["kept", "kept", "kept"]);
/// ```
pub struct IntoIter<T> {
    owner: Owner<T>,
}

impl<T> IntoIter<T> {
    pub(crate) fn new(owner: Owner<T>) -> IntoIter<T> {
        IntoIter { owner }
    }
}

impl<T> Iterator for IntoIter<T> {
    type Item = T;

    fn next(&mut self) -> Option<T> {
        self.owner.next_left()
    }
}

impl<T> fmt::Debug for IntoIter<T> {
    fn fmt(&self, to: &mut fmt::Formatter<'_>) -> fmt::Result {
        to.debug_struct("IntoIter").finish_non_exhaustive()
    }
}
