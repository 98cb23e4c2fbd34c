// Ours, not published: stands for the lib.rs of arrow-schema 60.1.0, which was not given.
//
// It declares the modules and re-exports what they make public, so that
// `use arrow_schema::*` in the published examples finds it. It adds nothing of its
// own. Whatever else the published lib.rs may define is not here.

//! Arrow logical types: arrow-schema 60.1.0, kept unchanged as the oracle.

mod datatype;
pub use datatype::*;

mod datatype_display;

// A stub of ours; see its first line.
mod datatype_parse;

mod error;
pub use error::*;

pub mod extension;

// As published, but it needs the crate bitflags, which was not given.
#[cfg(feature = "ffi")]
pub mod ffi;

mod field;
pub use field::*;

mod fields;
pub use fields::*;

mod metadata;
pub use metadata::*;

mod schema;
pub use schema::*;
