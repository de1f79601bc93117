//! How a value crosses the library, which carries words. A value of up to 8 bytes is its word. Another lies in a cell,
//! whose address is the word: a place that the container took memory for when it was made, or when a pass was.
//!
//! Free cells hang together in chains of [`LENGTH`](Cells::LENGTH). A chain is a word of a second container of the
//! library. Each pass has a [`Hand`] with fewer loose cells than a chain has, and one whole chain or none. A push takes a
//! cell from there, and a pop puts it there; so a chain crosses at most once in as many calls as it has cells. The second
//! container wears out after the first. For a queue and a stack it is a stack, which counts two moves of a chain for at
//! least four values. For a ring it is a ring, for as many passes, and with a slot for each chain.
//!
//! Why a push always finds a cell. Let the capacity be N, a chain's length B, and P passes out. There are N cells, in
//! whole chains, and 2 B for each pass. N values lie in N cells at most. A pass has at most 2 B cells in its hand, with
//! the one that it is just filling or emptying. So if one pass has none, at least two chains are free.
//! A range puts values into boxes of its own instead, since it has more than one in its hand before they are put.
use crate::raw::{Kind, RawPass, Root, Word};
use crate::ring::LAP_LIMIT;
use crate::{MakeError, TAG_LIMIT};
use std::alloc::{alloc, dealloc, Layout};
use std::mem::{self, ManuallyDrop};
use std::ptr::{self, NonNull};
use std::sync::{Mutex, MutexGuard, PoisonError};

/// A value's place, or a link of a chain of free ones.
pub(crate) union Cell<T> {
    next: Link<T>,
    value: ManuallyDrop<T>,
}

type Link<T> = Option<NonNull<Cell<T>>>;

/// A word with this bit is the address of a cell that the pop gives back to the allocator. (Cells are aligned by 8.)
const BOXED: u64 = 1;

/// Passes for whose free chains a stack has room: more than most programs have threads.
const PLANNED: u32 = 64;

/// The chains that each pass brings.
const BROUGHT: u32 = 2;

/// The cells of a container, none if its values are words.
pub(crate) struct Cells<T> {
    made: Mutex<Made<T>>,
}

struct Made<T> {
    /// Of the container of free chains.
    root: Root,
    /// A pass of it that the next hand takes: the first one, or one for whose hand there was no memory. (A ring gives no more
    /// passes than it was made for, so none may be left over or lost.)
    next: Option<RawPass>,
    blocks: Vec<Block<T>>,
    /// Free chains for which a stack has no room, since there are more passes than planned.
    crowd: Vec<NonNull<Cell<T>>>,
    chains: usize,
}

/// Cells that were allocated together.
struct Block<T> {
    at: NonNull<Cell<T>>,
    layout: Layout,
}

/// The free cells that one pass has at hand.
pub(crate) struct Hand<T> {
    /// Of the container of free chains.
    pass: RawPass,
    loose: Link<T>,
    count: u32,
    whole: Link<T>,
}

// SAFETY: the blocks are memory, whose cells nobody reaches from here; the chains in the crowd are free cells.
unsafe impl<T: Send> Send for Made<T> {}
// SAFETY: the cells in a hand are free, and nobody else has them.
unsafe impl<T: Send> Send for Hand<T> {}

impl<T> Cells<T> {
    /// Whether a value is its word, and needs no cell.
    pub(crate) const ARE_WORDS: bool =
        mem::size_of::<T>() <= mem::size_of::<Word>() && mem::align_of::<T>() <= mem::align_of::<Word>();

    /// The cells of a chain: half a KiB, so that a chain of large values is no large memory.
    pub(crate) const LENGTH: u32 = match 512 / mem::size_of::<Cell<T>>() {
        fit if fit < 4 => 4,
        fit if fit > 16 => 16,
        fit => fit as u32,
    };

    /// The cells for as many values of a container of this kind, and none for a pass.
    pub(crate) fn new(kind: Kind, capacity: u32) -> Result<Cells<T>, MakeError> {
        let mut made = Made { root: Root::none(), next: None, blocks: Vec::new(), crowd: Vec::new(), chains: 0 };
        if !Self::ARE_WORDS {
            let (kind, planned) = match kind {
                Kind::Queue { .. } | Kind::Stack { .. } => (Kind::Stack { tags: TAG_LIMIT }, PLANNED),
                Kind::Ring { passes, .. } => (Kind::Ring { laps: LAP_LIMIT, passes }, passes),
            };
            let chains = capacity.div_ceil(Self::LENGTH);
            // (a place more for each pass, which a take that is under way may hold)
            made.root = Root::new(kind, chains + (BROUGHT + 1) * planned)?;
            let mut pass = made.root.split()?;
            made.add_chains(chains, &mut pass)?;
            made.next = Some(pass);
        }
        Ok(Cells { made: Mutex::new(made) })
    }

    /// What a new pass has at hand, with the chains that it brings.
    pub(crate) fn hand(&self) -> Result<Hand<T>, MakeError> {
        let mut hand = Hand::none();
        if !Self::ARE_WORDS {
            let mut made = self.lock();
            let mut pass = match made.next.take() {
                Some(pass) => pass,
                None => made.root.split()?,
            };
            if let Err(why) = made.add_chains(BROUGHT, &mut pass) {
                made.next = Some(pass);
                return Err(why);
            }
            hand.pass = pass;
        }
        Ok(hand)
    }

    fn lock(&self) -> MutexGuard<'_, Made<T>> {
        self.made.lock().unwrap_or_else(PoisonError::into_inner)
    }
}

impl<T> Made<T> {
    /// Allocates chains, and gives them to those that are free.
    fn add_chains(&mut self, count: u32, pass: &mut RawPass) -> Result<(), MakeError> {
        let length = Cells::<T>::LENGTH as usize;
        let layout = Layout::array::<Cell<T>>(count as usize * length).map_err(|_| MakeError::NoMemory)?;
        self.blocks.try_reserve(1).map_err(|_| MakeError::NoMemory)?;
        // In the crowd there is room for all chains, so that nobody asks for memory who puts one there.
        let chains = self.chains + count as usize;
        self.crowd.try_reserve(chains - self.crowd.len()).map_err(|_| MakeError::NoMemory)?;
        let block = Block::new(layout).ok_or(MakeError::NoMemory)?;
        self.chains = chains;
        for first in (0..count as usize).map(|k| k * length) {
            let chain = (first..first + length).rev().fold(None, |next, i| {
                // SAFETY: `i` is below the length of the block, and no other call has it.
                let at = unsafe { block.at.add(i) };
                // SAFETY: as above.
                unsafe { at.write(Cell { next }) };
                Some(at)
            });
            if let Some(chain) = chain.filter(|chain| pass.put(word_of(*chain)).is_err()) {
                self.crowd.push(chain);
            }
        }
        self.blocks.push(block);
        Ok(())
    }
}

impl<T> Block<T> {
    fn new(layout: Layout) -> Option<Block<T>> {
        // SAFETY: the layout is of one cell at least, and a cell has bytes.
        let at = NonNull::new(unsafe { alloc(layout) })?.cast();
        Some(Block { at, layout })
    }
}

impl<T> Drop for Block<T> {
    fn drop(&mut self) {
        // SAFETY: the block was allocated with this layout. The container ends, so no hand is left and no value.
        unsafe { dealloc(self.at.as_ptr().cast(), self.layout) };
    }
}

fn word_of<T>(at: NonNull<Cell<T>>) -> Word {
    Word::new(at.as_ptr() as u64)
}

impl<T> Hand<T> {
    pub(crate) const fn none() -> Hand<T> {
        Hand { pass: RawPass::none(), loose: None, count: 0, whole: None }
    }

    /// Makes a value a word. There is a cell for each value that the container has room for.
    #[inline]
    pub(crate) fn word(&mut self, cells: &Cells<T>, value: T) -> Result<Word, T> {
        if Cells::<T>::ARE_WORDS {
            return Ok(word_of_bytes(value));
        }
        let Some(at) = self.take(cells) else { return Err(value) };
        // SAFETY: the cell is free, and this hand's alone.
        unsafe { at.write(Cell { value: ManuallyDrop::new(value) }) };
        Ok(word_of(at))
    }

    /// Makes a word a value again.
    ///
    /// # Safety
    ///
    /// The word is of this container's values, and is made a value once: it came out of the container, or was not put.
    #[inline]
    pub(crate) unsafe fn value(&mut self, cells: &Cells<T>, word: Word) -> T {
        // SAFETY: as said.
        let (value, free) = unsafe { read(word) };
        if let Some(at) = free {
            self.give(cells, at);
        }
        value
    }

    fn take(&mut self, cells: &Cells<T>) -> Link<T> {
        if self.loose.is_none() {
            self.loose = self.fetch(cells);
            self.count = Cells::<T>::LENGTH;
        }
        let at = self.loose?;
        // SAFETY: a loose cell is free, so that it has a link.
        self.loose = unsafe { at.as_ref().next };
        self.count -= 1;
        Some(at)
    }

    fn give(&mut self, cells: &Cells<T>, at: NonNull<Cell<T>>) {
        // SAFETY: the cell's value was moved out, so that it is free, and this hand's alone.
        unsafe { at.write(Cell { next: self.loose }) };
        self.loose = Some(at);
        self.count += 1;
        if self.count == Cells::<T>::LENGTH {
            self.count = 0;
            if let Some(whole) = mem::replace(&mut self.whole, self.loose.take()) {
                self.store(cells, whole);
            }
        }
    }

    #[cold]
    fn fetch(&mut self, cells: &Cells<T>) -> Link<T> {
        if let Some(chain) = self.whole.take().or_else(|| self.take_chain()) {
            return Some(chain);
        }
        // While the crowd is locked, no chain gets there or leaves. So if it has none, the other chains have one.
        let mut made = cells.lock();
        made.crowd.pop().or_else(|| self.take_chain())
    }

    fn take_chain(&mut self) -> Link<T> {
        let word = self.pass.take().ok()?;
        // SAFETY: each word of this container is a chain's address, which `word_of` set.
        NonNull::new(unsafe { word.assume_init() } as *mut Cell<T>)
    }

    #[cold]
    fn store(&mut self, cells: &Cells<T>, chain: NonNull<Cell<T>>) {
        if self.pass.put(word_of(chain)).is_err() {
            cells.lock().crowd.push(chain);
        }
    }
}

/// Makes a value of a range a word, in a box of its own if it is no word itself.
pub(crate) fn word_in_a_box<T>(value: T) -> Word {
    if Cells::<T>::ARE_WORDS {
        return word_of_bytes(value);
    }
    let cell = Box::new(Cell { value: ManuallyDrop::new(value) });
    Word::new(Box::into_raw(cell) as u64 | BOXED)
}

/// Makes a word a value again, and gives the cell that is free now, if it is one of the container's.
///
/// # Safety
///
/// As of [`Hand::value`].
pub(crate) unsafe fn read<T>(word: Word) -> (T, Link<T>) {
    if Cells::<T>::ARE_WORDS {
        // SAFETY: `word_of_bytes` made the word, and the value is read once.
        return (unsafe { value_of_bytes(word) }, None);
    }
    // SAFETY: the word is an address, which is set.
    let word = unsafe { word.assume_init() };
    let at = (word & !BOXED) as *mut Cell<T>;
    if word & BOXED != 0 {
        // SAFETY: `word_in_a_box` made the box, and who calls has its word alone.
        let cell = *unsafe { Box::from_raw(at) };
        // SAFETY: it has a value.
        return (ManuallyDrop::into_inner(unsafe { cell.value }), None);
    }
    // SAFETY: the cell has a value, which is read once.
    (unsafe { ptr::read(at.cast()) }, NonNull::new(at))
}

/// Makes a value a word, which it fits (`ARE_WORDS`).
#[inline]
pub(crate) fn word_of_bytes<T>(value: T) -> Word {
    let mut word = Word::zeroed();
    // SAFETY: the value is no longer than a word, and no stricter aligned.
    unsafe { word.as_mut_ptr().cast::<T>().write(value) };
    word
}

/// Makes it a value again.
///
/// # Safety
///
/// `word_of_bytes` made the word of a `T`, and of its copies one at most is made a value that is used.
#[inline]
pub(crate) unsafe fn value_of_bytes<T>(word: Word) -> T {
    // SAFETY: the word's first bytes are the value's.
    unsafe { ptr::read(word.as_ptr().cast()) }
}

#[cfg(test)]
mod tests {
    use super::*;

    /// Makes hands, and says how many chains have no place but the crowd.
    fn crowd_of(kind: Kind, hands: usize) -> usize {
        let cells = Cells::<[u64; 8]>::new(kind, 1000).unwrap();
        let hands: Vec<_> = (0..hands).map(|_| cells.hand().unwrap()).collect();
        let crowd = cells.lock().crowd.len();
        drop(hands);
        crowd
    }

    #[test]
    fn each_chain_of_a_ring_has_a_place() {
        assert_eq!(crowd_of(Kind::Ring { laps: LAP_LIMIT, passes: 200 }, 200), 0);
        assert_eq!(crowd_of(Kind::Ring { laps: 1, passes: 2 }, 2), 0);
        assert!(Cells::<[u64; 8]>::new(Kind::Ring { laps: 1, passes: 65_535 }, 983_040).is_ok());
    }

    #[test]
    fn a_stack_has_room_for_those_of_64_passes() {
        assert_eq!(crowd_of(Kind::Queue { tags: TAG_LIMIT }, 64), 0);
        assert!(crowd_of(Kind::Stack { tags: TAG_LIMIT }, 200) > 0);
    }
}
