//! The calls of `lockfree.h`, as safe methods of a root and of a pass; `ends` has those of a ring for one producer and
//! one consumer. The library answers each misuse of a handle by a code; what a word means is the business of who calls.
use crate::MakeError;
use std::mem::MaybeUninit;
use std::ptr;

/// What crosses the library. Bytes of it may be unset: those of a value's padding.
pub(crate) type Word = MaybeUninit<u64>;

/// The version of `lockfree.h` whose calls are declared here.
const VERSION: u32 = 200;

/// `lockfree_handle`: no bytes set is an empty one.
#[repr(C)]
pub(crate) struct Handle {
    at: *mut u8,
    full: bool,
}

/// `lockfree_answer`.
#[repr(C)]
pub(crate) struct Answer {
    pub(crate) value: Word,
    pub(crate) code: Code,
}

/// A code of `lockfree.h`. One that is not named here is one more code, and no fault.
#[repr(transparent)]
#[derive(Clone, Copy, PartialEq, Eq)]
pub(crate) struct Code(u32);

impl Code {
    pub(crate) const OK: Code = Code(0);
    pub(crate) const FULL: Code = Code(1);
    pub(crate) const EMPTY: Code = Code(2);
    pub(crate) const CLOSED: Code = Code(3);
    pub(crate) const SHUT: Code = Code(4);
    pub(crate) const SPENT: Code = Code(5);
    const BUSY: Code = Code(6);
    const NO_PASS: Code = Code(10);
    const BAD_CAPACITY: Code = Code(11);
    const VALUE: Code = Code(15);

    pub(crate) fn made(self) -> Result<(), MakeError> {
        match self {
            Code::OK => Ok(()),
            Code::BAD_CAPACITY => Err(MakeError::BadCapacity),
            Code::NO_PASS => Err(MakeError::NoPass),
            _ => Err(MakeError::NoMemory),
        }
    }
}

extern "C" {
    fn lockfree_version() -> u32;
    fn lockfree_queue_limited(root: *mut Handle, capacity: u32, tag_limit: u64) -> Code;
    fn lockfree_stack_limited(root: *mut Handle, capacity: u32, tag_limit: u64) -> Code;
    fn lockfree_ring_limited(root: *mut Handle, capacity: u32, laps: u64, passes: u32) -> Code;
    fn lockfree_split(root: *mut Handle, pass: *mut Handle) -> Code;
    fn lockfree_join(root: *mut Handle, pass: *mut Handle) -> Code;
    fn lockfree_free(handle: *mut Handle) -> Code;
    fn lockfree_finish(root: *mut Handle) -> Answer;
    fn lockfree_put(pass: *mut Handle, value: Word, tries: u64) -> Answer;
    fn lockfree_take(pass: *mut Handle, tries: u64) -> Answer;
    fn lockfree_close(pass: *mut Handle, tries: u64) -> Answer;
    fn lockfree_shut(pass: *mut Handle, tries: u64) -> Answer;
    fn lockfree_look(pass: *mut Handle, tries: u64) -> Answer;
    fn lockfree_count(pass: *mut Handle, tries: u64) -> Answer;
    fn lockfree_gauge(pass: *mut Handle, tries: u64) -> Answer;
    fn lockfree_number(pass: *mut Handle) -> Answer;
    fn lockfree_go_on(pass: *mut Handle, tries: u64) -> Answer;
    fn lockfree_fold(pass: *mut Handle, reversed: bool, tries: u64) -> Answer;
    fn lockfree_put_range(pass: *mut Handle, values: *const Word, count: usize, tries: u64) -> Answer;
}

impl Handle {
    pub(crate) const fn empty() -> Handle {
        Handle { at: ptr::null_mut(), full: false }
    }
}

impl Drop for Handle {
    fn drop(&mut self) {
        // SAFETY: no call is under way with the handle, since each goes by `&mut`. An empty one is answered by a code.
        unsafe { lockfree_free(self) };
    }
}

// SAFETY: behind a handle are a share of the container, which threads share, and a root, a pass or an end, which crosses
// threads.
unsafe impl Send for Handle {}

impl Answer {
    pub(crate) fn number(&self) -> u64 {
        // SAFETY: the library sets the whole word, but for a value's, and nobody asks for the number of that.
        unsafe { self.value.assume_init() }
    }
}

/// Whether the library has the calls that are declared here.
pub(crate) fn compare_versions() -> Result<(), MakeError> {
    // SAFETY: it only returns a number. A patch changes no call, so it is not compared.
    let linked = unsafe { lockfree_version() };
    if linked / 100 == VERSION / 100 {
        Ok(())
    } else {
        Err(MakeError::OtherVersion)
    }
}

/// Which container a root is made for, and how far that goes.
#[derive(Clone, Copy)]
pub(crate) enum Kind {
    Queue { tags: u64 },
    Stack { tags: u64 },
    Ring { laps: u64, passes: u32 },
}

/// A container's root, or none.
pub(crate) struct Root(Handle);

impl Root {
    pub(crate) const fn none() -> Root {
        Root(Handle::empty())
    }

    pub(crate) fn new(kind: Kind, capacity: u32) -> Result<Root, MakeError> {
        compare_versions()?;
        let mut root = Root::none();
        // SAFETY: the handle is empty, and this call's alone.
        let code = unsafe {
            match kind {
                Kind::Queue { tags } => lockfree_queue_limited(&mut root.0, capacity, tags),
                Kind::Stack { tags } => lockfree_stack_limited(&mut root.0, capacity, tags),
                Kind::Ring { laps, passes } => lockfree_ring_limited(&mut root.0, capacity, laps, passes),
            }
        };
        code.made().map(|()| root)
    }

    pub(crate) fn split(&mut self) -> Result<RawPass, MakeError> {
        let mut pass = RawPass::none();
        // SAFETY: both handles are this call's alone, and the second is empty.
        unsafe { lockfree_split(&mut self.0, &mut pass.0) }.made().map(|()| pass)
    }

    /// Takes back a pass that it has split off, so that it can split off another one.
    pub(crate) fn join(&mut self, mut pass: RawPass) {
        // SAFETY: both handles are this call's alone. (A pass that the root does not take is freed as it is dropped.)
        unsafe { lockfree_join(&mut self.0, &mut pass.0) };
    }

    /// Takes what is left, one word after another. There is none as long as a pass is out, or if there is no container.
    pub(crate) fn finish(&mut self) -> Option<Word> {
        // SAFETY: the handle is this call's alone.
        let answer = unsafe { lockfree_finish(&mut self.0) };
        (answer.code == Code::VALUE).then_some(answer.value)
    }
}

/// What a container was at one moment.
pub(crate) struct Gauge {
    pub(crate) is_closed: bool,
    /// How many tags are used, in a ring how many values were put.
    pub(crate) used: u64,
}

/// What a call of a fold gives.
pub(crate) enum Folded {
    /// The next value; others may follow.
    Value(Word),
    /// There is no other, so the fold is at its end.
    End,
    /// There was no fold.
    Refused(Code),
}

/// A pass, or none.
pub(crate) struct RawPass(Handle);

impl RawPass {
    pub(crate) const fn none() -> RawPass {
        RawPass(Handle::empty())
    }

    /// Makes a call, and continues it until it has ended.
    #[inline]
    fn call(&mut self, call: impl FnOnce(*mut Handle) -> Answer) -> Answer {
        let mut answer = call(&mut self.0);
        while answer.code == Code::BUSY {
            // SAFETY: the handle is reached by `&mut` alone, so by one call at a time, and only the library writes it.
            answer = unsafe { lockfree_go_on(&mut self.0, u64::MAX) };
        }
        answer
    }

    /// Puts a word; gives the put's number.
    #[inline]
    pub(crate) fn put(&mut self, word: Word) -> Result<u64, Code> {
        // SAFETY: as in `call`.
        let answer = self.call(|at| unsafe { lockfree_put(at, word, u64::MAX) });
        if answer.code == Code::OK {
            Ok(answer.number())
        } else {
            Err(answer.code)
        }
    }

    #[inline]
    pub(crate) fn take(&mut self) -> Result<Word, Code> {
        // SAFETY: as in `call`.
        let answer = self.call(|at| unsafe { lockfree_take(at, u64::MAX) });
        if answer.code == Code::OK {
            Ok(answer.value)
        } else {
            Err(answer.code)
        }
    }

    /// The number of the put or the take that this pass made last; 0 after another call.
    pub(crate) fn number(&mut self) -> u64 {
        // SAFETY: as in `call`.
        unsafe { lockfree_number(&mut self.0) }.number()
    }

    pub(crate) fn close(&mut self) -> bool {
        // SAFETY: as in `call`.
        self.call(|at| unsafe { lockfree_close(at, u64::MAX) }).code == Code::OK
    }

    pub(crate) fn shut(&mut self) -> bool {
        // SAFETY: as in `call`.
        self.call(|at| unsafe { lockfree_shut(at, u64::MAX) }).code == Code::OK
    }

    pub(crate) fn is_empty(&mut self) -> bool {
        // SAFETY: as in `call`.
        self.call(|at| unsafe { lockfree_look(at, u64::MAX) }).code == Code::EMPTY
    }

    /// How many values a queue or a ring holds.
    pub(crate) fn count(&mut self) -> u64 {
        // SAFETY: as in `call`.
        self.call(|at| unsafe { lockfree_count(at, u64::MAX) }).number()
    }

    /// Gauges the container.
    pub(crate) fn gauge(&mut self) -> Gauge {
        // SAFETY: as in `call`.
        let answer = self.call(|at| unsafe { lockfree_gauge(at, u64::MAX) });
        Gauge { is_closed: answer.code == Code::CLOSED, used: answer.number() }
    }

    /// Begins a fold of a stack, and gives the first value. `fold_on` gives the remaining values, and the caller calls it to the end.
    pub(crate) fn fold(&mut self, reversed: bool) -> Folded {
        // SAFETY: as in `call`.
        let answer = self.call(|at| unsafe { lockfree_fold(at, reversed, u64::MAX) });
        Folded::of(answer)
    }

    pub(crate) fn fold_on(&mut self) -> Folded {
        // SAFETY: as in `call`.
        let answer = self.call(|at| unsafe { lockfree_go_on(at, u64::MAX) });
        Folded::of(answer)
    }

    /// Puts words onto a stack at once, from the first, as many as there is room for; gives how many.
    pub(crate) fn put_range(&mut self, words: &[Word]) -> Result<usize, Code> {
        let mut answer = Answer { value: Word::new(0), code: Code::BUSY };
        while answer.code == Code::BUSY {
            // SAFETY: as in `call`; and the words are the same each time.
            answer = unsafe { lockfree_put_range(&mut self.0, words.as_ptr(), words.len(), u64::MAX) };
        }
        // (a range is no longer than a slice)
        if answer.code == Code::OK {
            Ok(answer.number() as usize)
        } else {
            Err(answer.code)
        }
    }
}

impl Folded {
    fn of(answer: Answer) -> Folded {
        match answer.code {
            Code::VALUE => Folded::Value(answer.value),
            Code::OK => Folded::End,
            code => Folded::Refused(code),
        }
    }
}
