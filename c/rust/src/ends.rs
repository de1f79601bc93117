//! The calls of `lockfree.h` of a ring for one producer and one consumer, as safe methods of its two ends. An end leaves
//! when it is dropped: the producer's `lockfree_spsc_close` is the same as `lockfree_free`.
use crate::raw::{compare_versions, Answer, Code, Handle, Word};
use crate::MakeError;

extern "C" {
    fn lockfree_spsc_new(producer: *mut Handle, consumer: *mut Handle, capacity: u32) -> Code;
    fn lockfree_spsc_push(producer: *mut Handle, value: Word) -> Answer;
    fn lockfree_spsc_push_many(producer: *mut Handle, values: *const Word, count: usize) -> Answer;
    fn lockfree_spsc_room(producer: *mut Handle) -> Answer;
    fn lockfree_spsc_pop(consumer: *mut Handle) -> Answer;
    fn lockfree_spsc_pop_many(consumer: *mut Handle, values: *mut Word, count: usize) -> Answer;
    fn lockfree_spsc_front(consumer: *mut Handle) -> Answer;
    fn lockfree_spsc_size(consumer: *mut Handle) -> Answer;
}

/// The end that pushes.
pub(crate) struct RawProducer(Handle);

/// The end that pops.
pub(crate) struct RawConsumer(Handle);

/// Both ends of a new ring.
pub(crate) fn new_ends(capacity: u32) -> Result<(RawProducer, RawConsumer), MakeError> {
    compare_versions()?;
    let (mut producer, mut consumer) = (Handle::empty(), Handle::empty());
    // SAFETY: both handles are empty, and this call's alone.
    unsafe { lockfree_spsc_new(&mut producer, &mut consumer, capacity) }.made()?;
    Ok((RawProducer(producer), RawConsumer(consumer)))
}

/// How many slots are free or how many values there are, and whether the other end has left.
pub(crate) struct Looked {
    pub(crate) count: usize,
    pub(crate) is_closed: bool,
}

impl Looked {
    fn of(answer: Answer) -> Looked {
        // (no more than the capacity)
        Looked { count: answer.number() as usize, is_closed: answer.code == Code::CLOSED }
    }
}

fn value_of(answer: Answer) -> Result<Word, Code> {
    if answer.code == Code::OK {
        Ok(answer.value)
    } else {
        Err(answer.code)
    }
}

fn count_of(answer: Answer) -> Result<usize, Code> {
    if answer.code == Code::OK {
        // (no more than the length of a slice)
        Ok(answer.number() as usize)
    } else {
        Err(answer.code)
    }
}

impl RawProducer {
    #[inline]
    pub(crate) fn push(&mut self, word: Word) -> Result<(), Code> {
        // SAFETY: the handle is reached by `&mut` alone, so by one call at a time, and only the library writes it.
        value_of(unsafe { lockfree_spsc_push(&mut self.0, word) }).map(|_| ())
    }

    /// Pushes the first words, as many as there are free slots, and gives how many. There is one at least.
    pub(crate) fn push_many(&mut self, words: &[Word]) -> Result<usize, Code> {
        // SAFETY: as in `push`; and there are so many words, which the library only reads.
        count_of(unsafe { lockfree_spsc_push_many(&mut self.0, words.as_ptr(), words.len()) })
    }

    /// So many pushes are not refused.
    pub(crate) fn room(&mut self) -> Looked {
        // SAFETY: as in `push`.
        Looked::of(unsafe { lockfree_spsc_room(&mut self.0) })
    }
}

impl RawConsumer {
    #[inline]
    pub(crate) fn pop(&mut self) -> Result<Word, Code> {
        // SAFETY: the handle is reached by `&mut` alone, so by one call at a time, and only the library writes it.
        value_of(unsafe { lockfree_spsc_pop(&mut self.0) })
    }

    /// Pops the oldest words, as many as there are and as find a place, and gives how many. There is one place at least.
    pub(crate) fn pop_many(&mut self, words: &mut [Word]) -> Result<usize, Code> {
        // SAFETY: as in `pop`; and there are so many places, which the library writes with words that were pushed.
        count_of(unsafe { lockfree_spsc_pop_many(&mut self.0, words.as_mut_ptr(), words.len()) })
    }

    /// The oldest word, which stays.
    pub(crate) fn front(&mut self) -> Result<Word, Code> {
        // SAFETY: as in `pop`.
        value_of(unsafe { lockfree_spsc_front(&mut self.0) })
    }

    /// So many pops are not refused.
    pub(crate) fn size(&mut self) -> Looked {
        // SAFETY: as in `pop`.
        Looked::of(unsafe { lockfree_spsc_size(&mut self.0) })
    }
}
