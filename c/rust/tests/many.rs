//! Many containers, and threads that come and go: what they take, they give back. The crate and the library both ask for
//! memory by `malloc`, and give it back by `free`, which count the blocks that are out.
use lockfree::{spsc, Queue, Ring, Stack};
use std::ffi::c_void;
use std::sync::atomic::{AtomicIsize, Ordering};

static OUT: AtomicIsize = AtomicIsize::new(0);

extern "C" {
    fn __libc_malloc(size: usize) -> *mut c_void;
    fn __libc_calloc(count: usize, size: usize) -> *mut c_void;
    fn __libc_realloc(at: *mut c_void, size: usize) -> *mut c_void;
    fn __libc_memalign(align: usize, size: usize) -> *mut c_void;
    fn __libc_free(at: *mut c_void);
}

fn counted(at: *mut c_void) -> *mut c_void {
    OUT.fetch_add(isize::from(!at.is_null()), Ordering::Relaxed);
    at
}

#[no_mangle]
unsafe extern "C" fn malloc(size: usize) -> *mut c_void {
    counted(unsafe { __libc_malloc(size) })
}

#[no_mangle]
unsafe extern "C" fn calloc(count: usize, size: usize) -> *mut c_void {
    counted(unsafe { __libc_calloc(count, size) })
}

#[no_mangle]
unsafe extern "C" fn realloc(at: *mut c_void, size: usize) -> *mut c_void {
    let is_new = at.is_null();
    let at = unsafe { __libc_realloc(at, size) };
    if is_new {
        counted(at)
    } else {
        at
    }
}

/// What Rust asks for memory of a large alignment.
#[no_mangle]
unsafe extern "C" fn posix_memalign(to: *mut *mut c_void, align: usize, size: usize) -> i32 {
    const NO_MEMORY: i32 = 12;
    let at = counted(unsafe { __libc_memalign(align, size) });
    unsafe { *to = at };
    if at.is_null() {
        NO_MEMORY
    } else {
        0
    }
}

#[no_mangle]
unsafe extern "C" fn free(at: *mut c_void) {
    OUT.fetch_sub(isize::from(!at.is_null()), Ordering::Relaxed);
    unsafe { __libc_free(at) }
}

/// What a round leaves behind, after a first one that took what is taken once.
fn left_by(rounds: usize, mut round: impl FnMut()) -> isize {
    round();
    let before = OUT.load(Ordering::Relaxed);
    (0..rounds).for_each(|_| round());
    OUT.load(Ordering::Relaxed) - before
}

/// 3,000 containers that one thread calls in turn, by `&` and by passes, and ends in another order.
fn in_one_thread() {
    const MANY: usize = 1_000;
    let mut queues: Vec<_> = (0..MANY).map(|_| Queue::new(3).unwrap()).collect();
    let mut stacks: Vec<_> = (0..MANY).map(|_| Stack::new(3).unwrap()).collect();
    let rings: Vec<_> = (0..MANY).map(|_| Ring::with_passes(3, 2).unwrap()).collect();
    let mut passes: Vec<_> = rings.iter().map(|ring| ring.pass().unwrap()).collect();
    for round in 0..3 {
        for at in 0..MANY {
            assert!(queues[at].push((at, round, at)).is_ok() && stacks[at].push(at).is_ok());
            assert!(passes[at].push((at, round, at)).is_ok());
        }
    }
    for at in (0..MANY).rev() {
        assert_eq!((queues[at].pop(), stacks[at].pop(), rings[at].pop()), (Ok((at, 0, at)), Ok(at), Ok((at, 0, at))));
    }
    (0..MANY / 2).for_each(|at| drop((queues.swap_remove(at), stacks.pop())));
    drop((rings, passes, queues, stacks));
}

/// Rings for one producer and one consumer, whose ends leave in each order, with values in them.
fn ends_that_leave() {
    for round in 0..1_000 {
        let (mut producer, mut consumer) = spsc(3).unwrap();
        for at in 0..9 {
            assert!(producer.push(format!("round {round}, {at}")).is_ok());
            assert!(at < 2 || consumer.pop().is_ok());
        }
        let thread = std::thread::spawn(move || drop(producer));
        if round % 2 == 0 {
            thread.join().unwrap();
            drop(consumer);
        } else {
            drop(consumer);
            thread.join().unwrap();
        }
    }
}

/// Threads that call four containers, and end.
fn threads_that_come_and_go() {
    let (queue, stack, ring) = (Queue::new(9).unwrap(), Stack::new(9).unwrap(), Ring::with_passes(9, 3).unwrap());
    for _ in 0..5 {
        std::thread::scope(|scope| {
            let (queue, stack, ring) = (&queue, &stack, &ring);
            let calls = |side| {
                for i in 0..50 {
                    let text = || format!("{side} pushes {i}");
                    assert!(queue.push(text()).is_ok() && stack.push(text()).is_ok() && ring.push(text()).is_ok());
                    assert!(queue.pop().is_ok() && stack.pop().is_ok() && ring.pop().is_ok());
                }
            };
            let threads: Vec<_> = (0..4).map(|side| scope.spawn(move || calls(side))).collect();
            // (joined, since the end of a scope does not wait for what a thread gives back last)
            threads.into_iter().for_each(|thread| thread.join().unwrap());
        });
    }
    assert!(queue.push("left".to_string()).is_ok() && ring.push("left".to_string()).is_ok());
}

// (one test, since others beside it would take memory and give it back too)
#[test]
fn what_is_taken_is_given_back() {
    let mut kept = Vec::with_capacity(9);
    assert_eq!(left_by(8, || kept.push(Box::new(7))), 8);
    assert_eq!(left_by(2, in_one_thread), 0);
    assert_eq!(left_by(2, ends_that_leave), 0);
    assert_eq!(left_by(20, threads_that_come_and_go), 0);
}
