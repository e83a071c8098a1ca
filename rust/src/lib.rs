//! Kivdrag, a proved slot scheduler for a crossbar switch, from Rust. docs/RULES.md has its rules on a page.
//!
//! - [`Direct`] and [`Pipelined`] are switches that own their memory: begin here.
//! - [`slices`] has the fourteen calls on memory that the caller lends, for programs that allocate nothing.
//! - [`raw`] has the C functions themselves.
//!
//! ```
//! use kivdrag::{Book, Direct, Refusal};
//!
//! let mut s = Direct::start(4, 8, 0, Book::Plain)?; // 4 ports, frames of 8 slots, no rates
//! s.book(1, 2, 3)?; // 3 slots of each frame from input 1 to output 2
//! s.arrive(1, 2, 1)?; // a packet
//! let pairs = s.tick()?;
//! assert_eq!(pairs.iter().map(|pair| (pair.input, pair.output, pair.booked)).collect::<Vec<_>>(), [(1, 2, true)]);
//! # Ok::<(), Refusal>(())
//! ```
//!
//! The proofs speak of the library's words and calls. That these functions hand them on as they are is tested: `compare/` calls [`slices`] beside a
//! second program, and this crate's tests call the switches beside [`slices`].
#![deny(unsafe_op_in_unsafe_fn, missing_docs)]

pub mod raw;
mod refusal;
pub mod slices;
mod switch;

pub use refusal::{PreviewRefusal, Refusal, Sums};
pub use switch::{Book, Direct, DirectForm, Pair, Pairs, Pipelined, PipelinedForm, Switch};
