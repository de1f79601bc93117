//! What a container and its passes share, and the calls that each of them makes.
use crate::cells::{self, Cells, Hand};
use crate::lending::{self, Places};
use crate::raw::{Code, Kind, RawPass, Root};
use crate::{MakeError, PopError, PushError};
use std::iter;
use std::mem;
use std::panic::{catch_unwind, resume_unwind, AssertUnwindSafe};
use std::sync::atomic::{AtomicBool, Ordering};
use std::sync::{Arc, Mutex, MutexGuard, PoisonError, TryLockError};

/// It ends with the container or with the last pass, whichever ends later.
pub(crate) struct Core<T> {
    seats: Mutex<Seats<T>>,
    /// The container's own seat, so that its calls by `&` and its drop need no memory and no other pass.
    own: Mutex<Seat<T>>,
    places: Places<T>,
    pub(crate) cells: Cells<T>,
    pub(crate) capacity: u32,
    kind: Kind,
    /// What some call has heard.
    is_closed: AtomicBool,
    is_spent: AtomicBool,
}

/// A pass of the library, with what its caller has at hand. It goes to the next caller when its own gives it back, so that
/// the library's limit counts those that are out at one time.
pub(crate) struct Seat<T> {
    pub(crate) pass: RawPass,
    pub(crate) hand: Hand<T>,
}

struct Seats<T> {
    root: Root,
    resting: Vec<Seat<T>>,
    made: usize,
}

impl<T> Core<T> {
    pub(crate) fn new(kind: Kind, capacity: u32) -> Result<Core<T>, MakeError> {
        let root = Root::new(kind, capacity)?;
        let mut seats = Seats { root, resting: Vec::new(), made: 0 };
        let cells = Cells::new(kind, capacity)?;
        let own = Mutex::new(seats.seat(&cells)?);
        Ok(Core {
            seats: Mutex::new(seats),
            own,
            places: Places::new(),
            cells,
            capacity,
            kind,
            is_closed: AtomicBool::new(false),
            is_spent: AtomicBool::new(false),
        })
    }

    /// A seat for a pass: one that nobody has, or a new one, or else one that a call by `&` has left in its place.
    pub(crate) fn seat(&self) -> Result<Seat<T>, MakeError> {
        let made = self.new_seat();
        made.or_else(|why| self.places.take_a_seat().ok_or(why))
    }

    fn new_seat(&self) -> Result<Seat<T>, MakeError> {
        lock(&self.seats).seat(&self.cells)
    }

    pub(crate) fn rest(&self, seat: Seat<T>) {
        lock(&self.seats).resting.push(seat);
    }

    pub(crate) fn own(&self) -> MutexGuard<'_, Seat<T>> {
        lock(&self.own)
    }

    /// Makes a call for a thread that has no pass, by a seat that no other call is using. If there is none, since more threads
    /// are calling than there are places, or there is no pass or no memory for one more seat, the callers wait for each other,
    /// and use the container's own seat. The call runs no code of a user, so it never comes back here.
    #[inline]
    pub(crate) fn by_any_seat<R>(&self, call: impl FnOnce(&mut Seat<T>) -> R) -> R {
        let begin = lending::begin();
        if begin == lending::OWN {
            if let Some(mut own) = self.try_own() {
                return call(&mut own);
            }
        } else if let Some(mut place) = self.places.enter(begin) {
            if let Some(seat) = place.seat() {
                return call(seat);
            }
        }
        self.by_another_seat(begin, call)
    }

    #[cold]
    fn by_another_seat<R>(&self, begin: usize, call: impl FnOnce(&mut Seat<T>) -> R) -> R {
        if let Some(mut place) = self.places.find(begin, || self.new_seat().ok()) {
            if let Some(seat) = place.seat() {
                return call(seat);
            }
        }
        call(&mut self.own())
    }

    fn try_own(&self) -> Option<MutexGuard<'_, Seat<T>>> {
        match self.own.try_lock() {
            Ok(own) => Some(own),
            Err(TryLockError::Poisoned(own)) => Some(own.into_inner()),
            Err(TryLockError::WouldBlock) => None,
        }
    }

    /// Drops what the container holds, when it ends and passes may be left: at most as many values as it has room for, so
    /// that it ends beside threads that push, and with values that push again.
    pub(crate) fn drop_what_is_left(&self) {
        let mut most = self.capacity;
        drop_each(|| {
            most = most.checked_sub(1)?;
            self.pop(&mut self.own()).ok()
        });
    }

    /// Ends all seats, when nobody has one any more. The root takes their passes back, so what it hands out then is exactly
    /// what is left.
    fn end_seats(&mut self) {
        let Seats { root, resting, .. } = self.seats.get_mut().unwrap_or_else(PoisonError::into_inner);
        let own = self.own.get_mut().unwrap_or_else(PoisonError::into_inner);
        let called = iter::from_fn(|| self.places.take_a_seat());
        for seat in resting.drain(..).chain(called).chain([mem::replace(own, Seat::none())]) {
            root.join(seat.pass);
        }
        self.places = Places::new();
    }

    /// The next value that is left, when there is no seat any more. A container that was shut or is spent gives it too.
    fn next_left(&mut self) -> Option<T> {
        let word = self.seats.get_mut().unwrap_or_else(PoisonError::into_inner).root.finish()?;
        // SAFETY: the word comes out of the container, and its cell's memory is still there.
        Some(unsafe { cells::read::<T>(word) }.0)
    }
}

/// The calls, each by a seat of this container.
impl<T> Core<T> {
    #[inline]
    pub(crate) fn push(&self, by: &mut Seat<T>, value: T) -> Result<u64, PushError<T>> {
        let Seat { pass, hand } = by;
        let word = hand.word(&self.cells, value).map_err(PushError::Full)?;
        pass.put(word).map_err(|code| {
            // SAFETY: the word was not put.
            let value = unsafe { hand.value(&self.cells, word) };
            self.note_refusal(code);
            PushError::of(code, value)
        })
    }

    #[inline]
    pub(crate) fn pop(&self, by: &mut Seat<T>) -> Result<T, PopError> {
        let Seat { pass, hand } = by;
        match pass.take() {
            // SAFETY: the word comes out. (That none comes out twice is proved.)
            Ok(word) => Ok(unsafe { hand.value(&self.cells, word) }),
            Err(code) => {
                self.note_refusal(code);
                Err(PopError::of(code))
            }
        }
    }

    pub(crate) fn close(&self, by: &mut Seat<T>) -> bool {
        let closed = by.pass.close();
        self.note_closed();
        closed
    }

    pub(crate) fn is_closed(&self, by: &mut Seat<T>) -> bool {
        self.is_closed.load(Ordering::Acquire) || by.pass.gauge().is_closed
    }

    /// How many values a queue or a ring holds.
    pub(crate) fn len(&self, by: &mut Seat<T>) -> usize {
        // (it holds no more than its capacity)
        by.pass.count() as usize
    }

    pub(crate) fn wear(&self, by: &mut Seat<T>) -> f64 {
        if self.is_spent() {
            return 1.0;
        }
        let life = match self.kind {
            Kind::Queue { tags } => tags as f64 - 1.0,
            Kind::Stack { tags } => tags as f64,
            Kind::Ring { laps, .. } => laps as f64 * f64::from(self.capacity),
        };
        (by.pass.gauge().used as f64 / life).min(1.0)
    }

    /// Whether some push or pop was refused because the container is spent. Then no push that begins now succeeds.
    pub(crate) fn is_spent(&self) -> bool {
        self.is_spent.load(Ordering::Acquire)
    }

    /// Keeps what a refusal says of the container.
    #[cold]
    pub(crate) fn note_refusal(&self, code: Code) {
        match code {
            Code::CLOSED => self.note_closed(),
            Code::SPENT => self.is_spent.store(true, Ordering::Release),
            _ => (),
        }
    }

    fn note_closed(&self) {
        self.is_closed.store(true, Ordering::Release);
    }
}

impl<T> Seats<T> {
    fn seat(&mut self, cells: &Cells<T>) -> Result<Seat<T>, MakeError> {
        if let Some(seat) = self.resting.pop() {
            return Ok(seat);
        }
        // There is room for each seat that was made, so that a pass that is dropped asks for no memory.
        let room = self.made + 1;
        self.resting.try_reserve(room).map_err(|_| MakeError::NoMemory)?;
        let pass = self.root.split()?;
        match cells.hand() {
            Ok(hand) => {
                self.made = room;
                Ok(Seat { pass, hand })
            }
            Err(why) => {
                self.root.join(pass);
                Err(why)
            }
        }
    }
}

impl<T> Seat<T> {
    /// What stands in for a seat that was given back.
    pub(crate) const fn none() -> Seat<T> {
        Seat { pass: RawPass::none(), hand: Hand::none() }
    }
}

impl<T> Drop for Core<T> {
    fn drop(&mut self) {
        self.end_seats();
        drop_each(|| self.next_left());
    }
}

/// A container's share of what it and its passes share. What it holds ends with it.
pub(crate) struct Owner<T> {
    pub(crate) core: Arc<Core<T>>,
}

impl<T> Owner<T> {
    pub(crate) fn new(kind: Kind, capacity: u32) -> Result<Owner<T>, MakeError> {
        Ok(Owner { core: Arc::new(Core::new(kind, capacity)?) })
    }

    /// The next value of a container that ends. If a pass is left, it is popped; so there is none if the container was shut
    /// or a stack is spent.
    pub(crate) fn next_left(&mut self) -> Option<T> {
        match Arc::get_mut(&mut self.core) {
            Some(core) => {
                core.end_seats();
                core.next_left()
            }
            None => self.core.pop(&mut self.core.own()).ok(),
        }
    }
}

impl<T> Drop for Owner<T> {
    fn drop(&mut self) {
        self.core.drop_what_is_left();
    }
}

fn lock<V>(of: &Mutex<V>) -> MutexGuard<'_, V> {
    of.lock().unwrap_or_else(PoisonError::into_inner)
}

/// Drops each value. If drops panic, it continues, and then panics as the first of them did.
pub(crate) fn drop_each<T>(mut next: impl FnMut() -> Option<T>) {
    let mut first = None;
    while let Some(value) = next() {
        if let Err(panic) = catch_unwind(AssertUnwindSafe(|| drop(value))) {
            first.get_or_insert(panic);
        }
    }
    // A second panic while the first one unwinds would end the process.
    if let Some(panic) = first.filter(|_| !std::thread::panicking()) {
        resume_unwind(panic);
    }
}

#[cfg(test)]
mod tests {
    use super::*;

    #[test]
    fn a_call_by_reference_gets_a_seat_that_a_pass_can_have_later() {
        // (two seats: the container's own, and one)
        let core = Core::<u64>::new(Kind::Ring { laps: 9, passes: 2 }, 4).unwrap();
        let own = core.own();
        assert_eq!(core.by_any_seat(|seat| core.push(seat, 7)), Ok(0));
        assert_eq!(core.new_seat().err(), Some(MakeError::NoPass));
        drop(own);
        let seat = core.seat().unwrap();
        assert_eq!(core.seat().err(), Some(MakeError::NoPass));
        assert_eq!(core.by_any_seat(|seat| core.pop(seat)), Ok(7));
        core.rest(seat);
        assert!(core.seat().is_ok());
    }

    #[test]
    fn calls_without_a_seat_take_turns() {
        let core = &Core::<[u64; 2]>::new(Kind::Ring { laps: 9, passes: 2 }, 4).unwrap();
        let (own, seat) = (core.own(), core.seat().unwrap());
        std::thread::scope(|scope| {
            let push = |i| core.by_any_seat(|seat| core.push(seat, [i; 2]));
            let callers: Vec<_> = (0..3).map(|i| scope.spawn(move || push(i).unwrap())).collect();
            drop(own);
            let mut numbers: Vec<_> = callers.into_iter().map(|caller| caller.join().unwrap()).collect();
            numbers.sort();
            assert_eq!(numbers, [0, 1, 2]);
        });
        core.rest(seat);
    }
}
