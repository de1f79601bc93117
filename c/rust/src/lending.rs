//! Seats for calls by `&`, whose threads have no pass. A container has its own seat, and places for more of them. A call
//! takes one with a single atomic exchange, and leaves it when it ends. A thread begins where it was last, at first with
//! the container's own seat. So threads that never call at the same time share a seat, and those that do soon have one
//! each. Nothing is kept of a thread, so a thread and a container may end in any order.
use crate::shared::Seat;
use std::cell::{Cell, UnsafeCell};
use std::panic::{RefUnwindSafe, UnwindSafe};
use std::sync::atomic::{AtomicBool, Ordering};
use std::sync::OnceLock;

/// The places come in parts, which take memory when a thread needs them.
const PARTS: [usize; 3] = [4, 16, 44];

/// So many calls by `&` may be under way beside one by the container's own seat.
pub(crate) const PLACES: usize = 64;

/// The container's own seat, as a beginning.
pub(crate) const OWN: usize = 0;

thread_local! {
    /// Where the thread begins, in each container: [`OWN`], or one more than the number of a place. (It needs no destructor,
    /// so it is there up to the thread's end.)
    static BEGIN: Cell<usize> = const { Cell::new(OWN) };
}

#[inline]
pub(crate) fn begin() -> usize {
    BEGIN.get()
}

/// The places of a container.
pub(crate) struct Places<T> {
    parts: [OnceLock<Vec<Place<T>>>; PARTS.len()],
}

/// It has a cache line of its own, since its calls write to its seat.
#[repr(align(64))]
struct Place<T> {
    is_taken: AtomicBool,
    seat: UnsafeCell<Option<Seat<T>>>,
}

// SAFETY: only the call that has set `is_taken` reaches the seat, which is `Send` if `T` is.
unsafe impl<T: Send> Sync for Place<T> {}

// No call inside a place runs a user's code, so a panic leaves no seat in the middle of something.
impl<T> UnwindSafe for Place<T> {}
impl<T> RefUnwindSafe for Place<T> {}

/// A place that a call is in.
pub(crate) struct Entered<'a, T> {
    place: &'a Place<T>,
}

impl<T> Places<T> {
    pub(crate) const fn new() -> Places<T> {
        Places { parts: [const { OnceLock::new() }; PARTS.len()] }
    }

    /// A place that a thread has called by before. None if another call is in it, or if there is no such place yet.
    #[inline]
    pub(crate) fn enter(&self, begin: usize) -> Option<Entered<'_, T>> {
        let (part, at) = part_of(begin.checked_sub(1)?);
        self.parts[part].get()?.get(at)?.enter()
    }

    /// A place with a seat, where the thread begins from now on: the first one, from where it began, that no other call is in.
    /// If that has no seat yet, it gets one from `make`. None if there is no such place.
    #[cold]
    pub(crate) fn find(&self, begin: usize, make: impl Fn() -> Option<Seat<T>>) -> Option<Entered<'_, T>> {
        let mut may_make = true;
        let first = begin.saturating_sub(1);
        for place in (first..first + PLACES).map(|at| at % PLACES) {
            let (part, at) = part_of(place);
            let part = if may_make { self.made(part) } else { self.parts[part].get() };
            let Some(mut entered) = part.and_then(|part| part[at].enter()) else { continue };
            if entered.seat().is_none() && may_make {
                *entered.seat() = make();
                may_make = entered.seat().is_some();
            }
            if entered.seat().is_some() {
                BEGIN.set(place + 1);
                return Some(entered);
            }
        }
        None
    }

    /// A seat that no call is using, for a pass.
    pub(crate) fn take_a_seat(&self) -> Option<Seat<T>> {
        self.parts.iter().filter_map(OnceLock::get).flatten().find_map(|place| place.enter()?.seat().take())
    }

    /// A part of the places, which is made now if it was not. None if there is no memory.
    fn made(&self, part: usize) -> Option<&Vec<Place<T>>> {
        let at = &self.parts[part];
        if at.get().is_none() {
            let mut places = Vec::new();
            places.try_reserve_exact(PARTS[part]).ok()?;
            places.resize_with(PARTS[part], || Place { is_taken: AtomicBool::new(false), seat: UnsafeCell::new(None) });
            // (if another thread was faster, its part stays)
            let _ = at.set(places);
        }
        at.get()
    }
}

/// The part that a place is in, and where in it.
#[inline]
fn part_of(place: usize) -> (usize, usize) {
    if place < PARTS[0] {
        (0, place)
    } else if place < PARTS[0] + PARTS[1] {
        (1, place - PARTS[0])
    } else {
        (2, place - PARTS[0] - PARTS[1])
    }
}

impl<T> Place<T> {
    #[inline]
    fn enter(&self) -> Option<Entered<'_, T>> {
        (!self.is_taken.swap(true, Ordering::Acquire)).then(|| Entered { place: self })
    }
}

impl<T> Entered<'_, T> {
    /// The place's seat, if it has one.
    #[inline]
    pub(crate) fn seat(&mut self) -> &mut Option<Seat<T>> {
        // SAFETY: this call alone is in the place, and has its seat by `&mut self`.
        unsafe { &mut *self.place.seat.get() }
    }
}

impl<T> Drop for Entered<'_, T> {
    #[inline]
    fn drop(&mut self) {
        self.place.is_taken.store(false, Ordering::Release);
    }
}

#[cfg(test)]
mod tests {
    use super::*;

    #[test]
    fn each_place_is_in_a_part() {
        let mut all = (0..PLACES).map(part_of);
        for (part, length) in PARTS.into_iter().enumerate() {
            assert!((0..length).all(|at| all.next() == Some((part, at))));
        }
        assert_eq!(all.next(), None);
    }
}
