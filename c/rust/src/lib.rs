#![doc = include_str!("../README.md")]
#![deny(missing_docs)]
#![deny(unsafe_op_in_unsafe_fn)]

#[cfg(not(all(target_arch = "x86_64", target_os = "linux")))]
compile_error!("liblockfree.a is for x86-64 and Linux");

mod cells;
mod circle;
mod consumer;
mod container;
mod ends;
mod errors;
mod into_iter;
mod lending;
mod pass;
mod producer;
mod raw;
mod ring;
mod shared;
mod spsc;
mod stack;
mod waiting;

pub use consumer::Consumer;
pub use container::{Queue, Stack};
pub use errors::{MakeError, PopError, PushError};
pub use into_iter::IntoIter;
pub use pass::{kind, Drain, Pass, QueuePass, RingPass, StackPass};
pub use producer::Producer;
pub use ring::Ring;
pub use spsc::spsc;
pub use stack::Pushed;
pub use waiting::Stop;

/// The greatest tag, and the limit of a container's numbers.
const TAG_LIMIT: u64 = (1 << 42) - 1;
