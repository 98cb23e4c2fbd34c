// A STUB OF OURS, not published: stands for the datatype_parse.rs that was not given.
//
// The published datatype.rs calls `parse_data_type` from `FromStr` and `TryFrom<&str>`
// of `DataType`. Nothing of ours reads a type from its text, so every text gets
// the same refusal.

use crate::{ArrowError, DataType};

pub(crate) fn parse_data_type(_text: &str) -> Result<DataType, ArrowError> {
    Err(ArrowError::NotYetImplemented(
        "reading a data type from text is not part of what was given".to_string(),
    ))
}
