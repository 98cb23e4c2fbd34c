//! The oracle: what every call of document 01 must give, written from the paper and the
//! readings of it alone, with the crate arrow-schema 60.1.0 itself doing each operation. What
//! document 02 adds beside the crate is by hand, over as much of the crate as there is.
//!
//! Nothing here is taken from the port, so that both can be held against each other:
//!
//! - [`read`] and [`write`](mod@write) turn sheets into the crate's schemas and back;
//! - [`dict_id`] sees and sets the dictionary number of a field of any type;
//! - [`operations`] gives the outcome of each operation: the answer's bytes, or a refusal;
//! - [`call`] adds the lent buffers: the order of 32, the outcome, 30 and 31, and what each
//!   buffer holds at exit;
//! - [`calls`] has every call whole, with the buffers that the port's calls take;
//! - [`random`] makes random schemas for the tests here and for the comparison.

#![forbid(unsafe_code)]

pub mod call;
pub mod calls;
mod cursor;
pub mod dict_id;
pub mod limits;
pub mod number;
pub mod operations;
pub mod random;
pub mod read;
mod refusal;
pub mod write;

pub use refusal::Refusal;
