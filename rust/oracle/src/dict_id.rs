//! A field's dictionary number, `dict_id` (document 02, Item 13), through the crate's own doors.
//!
//! The crate keeps a dictionary number beside every type, 0 for none. Its doors to it are
//! deprecated, and the one that shows it does so on a Dictionary alone.

use arrow_schema::{DataType, Field};

/// A field of any type with this dictionary number. It is ordered only where it is a
/// Dictionary.
pub fn field(
    name: &str,
    data_type: DataType,
    nullable: bool,
    dict_id: i64,
    ordered: bool,
) -> Field {
    let ordered = ordered && matches!(data_type, DataType::Dictionary(..));
    #[expect(deprecated)]
    Field::new_dict(name, data_type, nullable, dict_id, ordered)
}

/// The dictionary number of a field of any type; 0 where it has none.
pub fn of(field: &Field) -> i64 {
    shown(field).unwrap_or_else(|| {
        // Only a copy can be given another type. It is no deep one: children are shared, and
        // a Dictionary, whose types would be copied too, has been shown as it is.
        let mut copy = field.clone();
        let (key, value) = (Box::new(DataType::Int8), Box::new(DataType::Int8));
        copy.set_data_type(DataType::Dictionary(key, value));
        shown(&copy).expect("a Dictionary shows its dictionary number")
    })
}

fn shown(field: &Field) -> Option<i64> {
    #[expect(deprecated)]
    field.dict_id()
}

/// The field with another dictionary number.
pub fn with(field: &Field, dict_id: i64) -> Field {
    let ordered = field.dict_is_ordered() == Some(true);
    let (name, data_type) = (field.name(), field.data_type().clone());
    self::field(name, data_type, field.is_nullable(), dict_id, ordered)
        .with_metadata(field.metadata().clone())
}
