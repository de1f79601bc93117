//! How a call waits that has to try again, and what ends the wait.
use crate::{PopError, PushError};
use std::hint::spin_loop;
use std::sync::atomic::{AtomicBool, Ordering};
use std::thread::{sleep, yield_now};
use std::time::{Duration, Instant};

/// What ends the wait of [`push_wait`](crate::Pass::push_wait) and [`pop_wait`](crate::Pass::pop_wait), also those of a
/// [`Producer`](crate::Producer) and a [`Consumer`](crate::Consumer), while there is no room or no value:
///
/// - `None`: nothing does
/// - a [`Duration`]: that much time since the call was refused for the first time
/// - an [`Instant`], or `Some` of it: the deadline
/// - an `&AtomicBool`: it is true
/// - a function: it says true. It is asked before each pause, so it should take little time
///
/// ```
/// use lockfree::{PopError, Queue};
/// use std::sync::atomic::{AtomicBool, Ordering};
/// use std::time::{Duration, Instant};
///
/// let queue = Queue::<u8>::new(1).unwrap();
/// let mut pass = queue.pass().unwrap();
/// assert_eq!(pass.pop_wait(Duration::from_millis(2)), Err(PopError::Late));
/// assert_eq!(pass.pop_wait(Instant::now() + Duration::from_millis(2)), Err(PopError::Late));
/// let stops = AtomicBool::new(false);
/// std::thread::scope(|scope| {
///     let waiting = scope.spawn(|| queue.pop_wait(&stops));
///     stops.store(true, Ordering::Release);
///     assert_eq!(waiting.join().unwrap(), Err(PopError::Late));
/// });
/// let mut tries = 0;
/// assert_eq!(pass.pop_wait(|| { tries += 1; tries == 3 }), Err(PopError::Late));
/// ```
pub trait Stop {
    /// How much longer a call may wait that began to wait at `since`. If it is no time, the wait ends.
    fn time_left(&mut self, since: Instant) -> Duration;
}

impl Stop for Duration {
    fn time_left(&mut self, since: Instant) -> Duration {
        self.saturating_sub(since.elapsed())
    }
}

impl Stop for Instant {
    fn time_left(&mut self, _: Instant) -> Duration {
        self.saturating_duration_since(Instant::now())
    }
}

impl Stop for Option<Instant> {
    fn time_left(&mut self, since: Instant) -> Duration {
        self.as_mut().map_or(Duration::MAX, |deadline| deadline.time_left(since))
    }
}

impl Stop for &AtomicBool {
    fn time_left(&mut self, _: Instant) -> Duration {
        unless(self.load(Ordering::Acquire))
    }
}

impl<F: FnMut() -> bool> Stop for F {
    fn time_left(&mut self, _: Instant) -> Duration {
        unless(self())
    }
}

fn unless(stops: bool) -> Duration {
    if stops {
        Duration::ZERO
    } else {
        Duration::MAX
    }
}

/// The first rounds go on at once.
const AT_ONCE: u32 = 64;
/// Later ones let other threads have their turn until so much time has gone, and then they sleep.
const AWAKE: Duration = Duration::from_micros(50);
/// Each sleep is twice as long as the one before, so that a wait of seconds leaves the processor to others.
const FIRST_SLEEP: Duration = Duration::from_micros(50);
const LONGEST_SLEEP: Duration = Duration::from_millis(1);

/// The rounds of one call that waits.
pub(crate) struct Waiting<S> {
    stop: S,
    since: Option<Instant>,
    rounds: u32,
    sleep: Duration,
}

impl<S: Stop> Waiting<S> {
    pub(crate) fn until(stop: S) -> Waiting<S> {
        Waiting { stop, since: None, rounds: 0, sleep: FIRST_SLEEP }
    }

    /// Waits a moment. Whether the call tries again.
    pub(crate) fn go_on(&mut self) -> bool {
        let since = *self.since.get_or_insert_with(Instant::now);
        let left = self.stop.time_left(since);
        if left.is_zero() {
            return false;
        }
        self.rounds = self.rounds.saturating_add(1);
        if self.rounds <= AT_ONCE {
            spin_loop();
        } else if since.elapsed() <= AWAKE {
            yield_now();
        } else {
            sleep(left.min(self.sleep));
            self.sleep = LONGEST_SLEEP.min(2 * self.sleep);
        }
        true
    }
}

/// Pushes by `push` until it is not refused as full, or the stop ends the wait.
pub(crate) fn push_until<T, R>(
    value: T,
    stop: impl Stop,
    mut push: impl FnMut(T) -> Result<R, PushError<T>>,
) -> Result<R, PushError<T>> {
    let mut waiting = Waiting::until(stop);
    let mut value = value;
    loop {
        match push(value) {
            Err(PushError::Full(back)) if waiting.go_on() => value = back,
            answer => return answer,
        }
    }
}

/// Pops by `pop` until it is not refused as empty, the stop ends the wait, or nothing can come: `pop` also says whether
/// the container was known to be spent before it looked.
pub(crate) fn pop_until<T>(stop: impl Stop, mut pop: impl FnMut() -> (bool, Result<T, PopError>)) -> Result<T, PopError> {
    let mut waiting = Waiting::until(stop);
    loop {
        let (was_spent, answer) = pop();
        match answer {
            Err(PopError::Empty) if was_spent => return Err(PopError::Spent),
            Err(PopError::Empty) if waiting.go_on() => continue,
            Err(PopError::Empty) => return Err(PopError::Late),
            answer => return answer,
        }
    }
}
