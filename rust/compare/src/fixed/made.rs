//! Short words for the schemas of the fixed list.

use arrow_schema::{DataType, Field, Fields, Schema, UnionFields, UnionMode};
use oracle::{dict_id, write};
use std::sync::Arc;

/// `name:type`, not nullable.
pub(super) fn col(name: &str, data_type: DataType) -> Field {
    Field::new(name, data_type, false)
}

/// The field with this dictionary number.
pub(super) fn numbered(field: Field, dict_id: i64) -> Field {
    dict_id::with(&field, dict_id)
}

/// The sheet of this schema.
pub(super) fn written(schema: &Schema) -> Vec<u8> {
    write::sheet(schema).expect("a sheet of the fixed list is short")
}

/// The sheet of these columns.
pub(super) fn sheet(columns: Vec<Field>) -> Vec<u8> {
    written(&Schema::new(columns))
}

/// The sheet of no column, with one pair of metadata.
pub(super) fn described() -> Vec<u8> {
    written(&Schema::empty().with_metadata([("k", "1")]))
}

/// The sheet of the one column `v` of this type, not nullable.
pub(super) fn v(data_type: DataType) -> Vec<u8> {
    sheet(vec![col("v", data_type)])
}

/// A Struct of these children.
pub(super) fn structure(children: Vec<Field>) -> DataType {
    DataType::Struct(Fields::from(children))
}

/// The sheet of one Struct, `v`, before and behind that of an empty one: beside a Struct its
/// children fold.
pub(super) fn beside_empty(sheet: &[u8]) -> [Vec<u8>; 2] {
    let empty = v(structure(vec![]));
    [[sheet, &empty].concat(), [&empty[..], sheet].concat()]
}

/// A List of this child.
pub(super) fn list(child: Field) -> DataType {
    DataType::List(Arc::new(child))
}

/// A Dictionary.
pub(super) fn dictionary(key: DataType, value: DataType) -> DataType {
    DataType::Dictionary(Box::new(key), Box::new(value))
}

/// A RunEndEncoded of these values.
pub(super) fn runs(values: Field) -> DataType {
    DataType::RunEndEncoded(Arc::new(col("r", DataType::Int16)), Arc::new(values))
}

/// A dense union of these ids and children.
pub(super) fn union(children: Vec<(i8, Field)>) -> DataType {
    let (ids, fields): (Vec<i8>, Vec<Field>) = children.into_iter().unzip();
    let children = UnionFields::try_new(ids, fields).expect("ids that differ");
    DataType::Union(children, UnionMode::Dense)
}

/// A sheet with a field at a place.
pub(super) type Place = fn(Field) -> Vec<u8>;

/// A column itself.
pub(super) const COLUMN: Place = |field| sheet(vec![field]);

/// Inside a column, where the merge reaches.
pub(super) const REACHED: [Place; 5] = [
    |field| v(structure(vec![field])),
    |field| v(list(field)),
    |field| v(DataType::LargeList(Arc::new(field))),
    |field| v(list(col("s", structure(vec![field])))),
    |field| v(structure(vec![col("l", list(field))])),
];
