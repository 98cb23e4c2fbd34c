//! The calls of the port for Rust programs.
//!
//! This is the one place that declares the exports. The functions here take slices and give
//! the answer as a value of their own, or a [`Refusal`]: document 01's number and place, and
//! a sentence that says what they mean. The calls with lent buffers, as the library has
//! them, are in `lent`.
//!
//! The feature `linked` links crates/exports/out/libexports.a of the repository, which
//! `rt lib` in crates/exports makes; without it only [`Refusal`] and [`Mode`] are here.
#![cfg_attr(feature = "linked", doc = "")]
#![cfg_attr(feature = "linked", doc = include_str!("../README.md"))]
#![deny(missing_docs)]

#[cfg(feature = "linked")]
pub mod lent;
mod mode;
#[cfg(feature = "linked")]
mod owned;
mod refusal;
#[cfg(feature = "linked")]
mod table;

pub use mode::Mode;
#[cfg(feature = "linked")]
pub use owned::{
    contains, equal, equals_datatype, filter, flattened_fields, index_of, is_nested, merge,
    merge_train, normalize, project, project_strict, try_from_fields, try_new,
};
pub use refusal::{Counts, Refusal};
#[cfg(feature = "linked")]
pub use table::Table;

/// The example of the repository's README compiles.
#[cfg(all(doctest, feature = "linked"))]
#[doc = include_str!("../../../README.md")]
struct Readme;
