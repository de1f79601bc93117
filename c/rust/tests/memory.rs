//! No call asks for memory, whatever a value's type, but the put of a range.
use lockfree::{Pass, PushError, Queue, Ring, Stack};
use std::alloc::{GlobalAlloc, Layout, System};
use std::cell::Cell;

thread_local! {
    static CALLS: Cell<usize> = const { Cell::new(0) };
}

/// Counts what a thread asks of the allocator and gives back to it.
struct Counting;

fn count() {
    let _ = CALLS.try_with(|calls| calls.set(calls.get() + 1));
}

// SAFETY: all is done by the system's allocator.
unsafe impl GlobalAlloc for Counting {
    unsafe fn alloc(&self, layout: Layout) -> *mut u8 {
        count();
        unsafe { System.alloc(layout) }
    }

    unsafe fn dealloc(&self, at: *mut u8, layout: Layout) {
        count();
        unsafe { System.dealloc(at, layout) }
    }
}

#[global_allocator]
static ALLOCATOR: Counting = Counting;

/// How often `calls` asks for memory or gives it back.
fn counted(calls: impl FnOnce()) -> usize {
    let before = CALLS.get();
    calls();
    CALLS.get() - before
}

/// Pushes until one push is refused.
fn fill<T, K>(pass: &mut Pass<T, K>, values: &mut Vec<T>, back: &mut Vec<T>) {
    while let Some(value) = values.pop() {
        if let Err(refused) = pass.push(value) {
            return back.push(refused.into_inner());
        }
    }
}

fn of_type<T: Clone>(value: T) {
    const CAPACITY: u32 = 100;
    let (queue, stack) = (Queue::new(CAPACITY).unwrap(), Stack::new(CAPACITY).unwrap());
    let (mut a, mut b) = (queue.pass().unwrap(), queue.pass().unwrap());
    let (mut c, mut d) = (stack.pass().unwrap(), stack.pass().unwrap());
    let ring = Ring::new(CAPACITY).unwrap();
    let (mut e, mut f) = (ring.pass().unwrap(), ring.pass().unwrap());
    let mut values = vec![value; 3 * CAPACITY as usize + 3];
    let mut back = Vec::with_capacity(values.len() + 2);
    for _ in 0..10 {
        let asked = counted(|| {
            fill(&mut a, &mut values, &mut back);
            fill(&mut c, &mut values, &mut back);
            fill(&mut e, &mut values, &mut back);
            back.extend(b.drain());
            back.extend(f.drain());
            assert_eq!(d.consume_all_atomic(|value| back.push(value)), Ok(u64::from(CAPACITY)));
            assert!(a.is_empty() && d.is_empty() && d.pop().is_err() && e.is_empty());
        });
        assert_eq!((asked, back.len()), (0, 3 * CAPACITY as usize + 3));
        values.append(&mut back);
    }
}

#[test]
fn pushes_and_pops_take_no_memory() {
    of_type(7u8);
    of_type([7u64; 2]);
    of_type([7u64; 8]);
    of_type([7u8; 300]);
    of_type("a text that takes memory of its own".to_string());
    of_type(std::sync::Arc::new(7));
    of_type(Some(Box::new(7)));
}

/// Fills and empties containers by `&`, also at a thread's first call.
fn by_reference<T: Clone>(value: T) {
    const CAPACITY: u32 = 100;
    let (queue, stack, ring) =
        (Queue::new(CAPACITY).unwrap(), Stack::new(CAPACITY).unwrap(), Ring::new(CAPACITY).unwrap());
    let mut values = vec![value; 3 * CAPACITY as usize + 3];
    let mut back = Vec::with_capacity(values.len());
    for _ in 0..10 {
        let asked = counted(|| {
            let (mut to_queue, mut to_stack, mut to_ring) = (true, true, true);
            let mut refused =
                |answer: Result<u64, PushError<T>>| answer.map_err(|why| back.push(why.into_inner())).is_ok();
            while to_queue || to_stack || to_ring {
                to_queue = to_queue && refused(queue.push(values.pop().unwrap()));
                to_stack = to_stack && refused(stack.push(values.pop().unwrap()));
                to_ring = to_ring && refused(ring.push(values.pop().unwrap()));
            }
            assert!(queue.is_full() && ring.is_full() && !stack.is_empty() && queue.len() == ring.len());
            while let (Ok(a), Ok(b), Ok(c)) = (queue.pop(), stack.pop(), ring.pop()) {
                back.extend([a, b, c]);
            }
        });
        assert_eq!((asked, back.len()), (0, 3 * CAPACITY as usize + 3));
        values.append(&mut back);
    }
}

#[test]
fn calls_by_reference_take_no_memory() {
    by_reference(7u8);
    by_reference([7u64; 8]);
    by_reference("a text that takes memory of its own".to_string());
}

#[test]
fn the_count_counts() {
    assert_eq!(counted(|| drop(Box::new(7))), 2);
}
