//! What is timed.

use crate::case::Case;
use crate::inputs::{self, Order};
use crate::timing::on_new;
use arrow_schema::{DataType, Field, Schema, SchemaBuilder, UnionFields};
use oracle::operations;
use sheets::lent;
use std::hint::black_box;
use std::rc::Rc;

/// The columns that the growth of merging is timed at.
pub(crate) const GROWTH: [usize; 4] = [1000, 2000, 4000, 8000];

/// Every operation on a flat sheet of 1000 columns.
pub(crate) fn flat() -> Vec<Case> {
    on(inputs::flat(1000).into(), 1000, 1000)
}

/// Every operation on a sheet of 100 structs of 10 fields.
pub(crate) fn nested() -> Vec<Case> {
    on(inputs::nested(100, 10).into(), 100, 1000)
}

/// Every operation on a sheet as deep as one can be, with 500 fields at its bottom.
pub(crate) fn deep() -> Vec<Case> {
    on(inputs::deep(31, 500).into(), 1, 500)
}

/// Every operation on this sheet, which has so many columns and leaves.
fn on(sheet: Rc<[u8]>, columns: usize, leaves: usize) -> Vec<Case> {
    let reading = Case {
        alone: None,
        ..index_of("reading (`index_of` the first column)", &sheet, 0)
    };
    let mut cases = vec![reading];
    cases.extend(of_columns(&sheet, columns));
    cases.extend(of_two(&sheet));
    cases.extend(of_projections(&sheet, columns));
    cases.extend(of_shape(&sheet, leaves));
    cases.push(Case::of_train("`merge` with itself", sheet.repeat(2)));
    cases
}

fn index_of(title: &str, sheet: &Rc<[u8]>, column: usize) -> Case {
    let [name, same, again] = [(); 3].map(|()| inputs::name(column));
    Case::of_sheet(
        title,
        sheet,
        move |sheet, work, answer| lent::index_of(sheet, name.as_bytes(), work, answer),
        move |sheet| operations::index_of(sheet, same.as_bytes()),
        move |schema| drop(black_box(schema.index_of(&again))),
    )
}

fn of_columns(sheet: &Rc<[u8]>, columns: usize) -> [Case; 3] {
    [
        Case::of_sheet(
            "`is_nested`",
            sheet,
            lent::is_nested,
            operations::is_nested,
            |schema| {
                let verdicts = schema.fields().iter();
                let verdicts = verdicts.map(|column| column.data_type().is_nested());
                drop(black_box(verdicts.collect::<Vec<bool>>()));
            },
        ),
        index_of("`index_of` the last column", sheet, columns - 1),
        Case::of_sheet(
            "`flattened_fields`",
            sheet,
            lent::flattened_fields,
            operations::flattened_fields,
            |schema| drop(black_box(schema.flattened_fields())),
        ),
    ]
}

fn equal(title: &str, sheets: [&Rc<[u8]>; 2]) -> Case {
    let columns = |schema: &Schema| DataType::Struct(schema.fields.clone());
    Case::of_two(
        title,
        sheets,
        lent::equal,
        operations::equal,
        move |one, other| columns(one) == columns(other),
    )
}

fn of_two(sheet: &Rc<[u8]>) -> [Case; 3] {
    let columns = |schema: &Schema| DataType::Struct(schema.fields.clone());
    let sheets = [sheet; 2];
    [
        equal("`equal`, to itself", sheets),
        Case::of_two(
            "`equals_datatype`, to itself",
            sheets,
            lent::equals_datatype,
            operations::equals_datatype,
            move |one, other| columns(one).equals_datatype(&columns(other)),
        ),
        Case::of_two(
            "`contains`, itself",
            sheets,
            lent::contains,
            operations::contains,
            Schema::contains,
        ),
    ]
}

fn of_projections(sheet: &Rc<[u8]>, columns: usize) -> [Case; 2] {
    let indices: Vec<usize> = (0..columns).rev().collect();
    let list: Vec<u8> = indices
        .iter()
        .flat_map(|&index| (index as u16).to_le_bytes())
        .collect();
    let (lists, indices) = (
        [(); 4].map(|()| list.clone()),
        [(); 2].map(|()| indices.clone()),
    );
    let [first, second, third, fourth] = lists;
    let [some, same] = indices;
    [
        Case::of_sheet(
            "`project`, all columns reversed",
            sheet,
            move |sheet, work, answer| lent::project(sheet, &first, work, answer),
            move |sheet| operations::project(sheet, &second),
            move |schema| drop(black_box(schema.project(&some))),
        ),
        Case::of_sheet(
            "`project_strict`, all columns reversed",
            sheet,
            move |sheet, work, answer| lent::project_strict(sheet, &third, work, answer),
            move |sheet| operations::project_strict(sheet, &fourth),
            move |schema| drop(black_box(SchemaBuilder::from(schema).project(&same))),
        ),
    ]
}

fn of_shape(sheet: &Rc<[u8]>, leaves: usize) -> [Case; 2] {
    let mask: Vec<u8> = (0..leaves).map(|leaf| (leaf % 2) as u8).collect();
    let [one, other, third] = [(); 3].map(|()| mask.clone());
    [
        Case::of_sheet(
            "`filter`, every other leaf",
            sheet,
            move |sheet, work, answer| lent::filter(sheet, &one, work, answer),
            move |sheet| operations::filter(sheet, &other),
            move |schema| {
                let keeps = |leaf: usize, _: &_| Ok(third[leaf] != 0);
                drop(black_box(schema.fields.try_filter_leaves(keeps)));
            },
        ),
        Case::of_sheet(
            "`normalize`, no limit",
            sheet,
            |sheet, work, answer| lent::normalize(sheet, b".", 0, work, answer),
            |sheet| operations::normalize(sheet, b".", 0),
            |schema| drop(black_box(schema.normalize(".", Some(0)))),
        ),
    ]
}

/// Two flat sheets of 1000 columns that differ in their dictionary numbers alone.
pub(crate) fn numbered() -> [Case; 2] {
    let sheets = [1, 1001].map(|first| Rc::from(inputs::numbered(1000, first)));
    let [one, other] = &sheets;
    [
        equal("`equal`", [one, other]),
        Case::of_train("`merge`", sheets.concat()),
    ]
}

/// The two union numberings, of as many fields as there can be.
pub(crate) fn numberings() -> [Case; 2] {
    let fields = || -> Vec<Field> {
        let field = |_| Field::new("", DataType::Null, false);
        (0..128).map(field).collect()
    };
    let ids: [u8; 128] = std::array::from_fn(|position| 127 - position as u8);
    [
        Case {
            title: "`try_new`, 128 ids".to_owned(),
            bytes: 0,
            port: Some(Box::new(move |_, answer| lent::try_new(&ids, 128, answer))),
            whole: Box::new(move || operations::try_new(&ids, 128)),
            alone: Some(on_new(fields, move |fields| {
                UnionFields::try_new(ids.map(u8::cast_signed), fields)
            })),
            expected: None,
        },
        Case {
            title: "`try_from_fields`, 128 fields".to_owned(),
            bytes: 0,
            port: Some(Box::new(|_, answer| lent::try_from_fields(128, answer))),
            whole: Box::new(|| operations::try_from_fields(128)),
            alone: Some(on_new(fields, UnionFields::try_from_fields::<Vec<Field>>)),
            expected: None,
        },
    ]
}

/// Merges of logs as the desk has them.
pub(crate) fn merges() -> Vec<Case> {
    let dictionaries = |ordered| inputs::parked_dictionaries(1000, ordered);
    let as_the_rust = [
        (
            "2 x 1000 columns, the same order",
            inputs::twice(1000, Order::Same),
        ),
        (
            "2 x 1000 columns, shuffled",
            inputs::twice(1000, Order::Shuffled),
        ),
        ("256 x 100 columns", inputs::train(256, 100, 0)),
        (
            "256 x 100 columns and a new one each",
            inputs::train(256, 100, 1),
        ),
        ("1000 Nulls, then their types", inputs::parked(1000)),
        ("1000 Nulls, then dictionaries", dictionaries(false)),
    ]
    .map(|(title, train)| Case::of_train(title, train));
    let parked_first = [
        Case::of_parked(
            "1000 Nulls, then their types, parked log first",
            inputs::parked(1000),
            inputs::parked(1000),
        ),
        Case::of_parked(
            "1000 Nulls, then ordered dictionaries, parked log first",
            dictionaries(true),
            dictionaries(false),
        ),
    ];
    as_the_rust.into_iter().chain(parked_first).collect()
}

/// The merge of two sheets of so many columns.
pub(crate) fn growth(columns: usize, order: Order) -> Case {
    Case::of_train(order.word(), inputs::twice_short(columns, order))
}

#[cfg(test)]
mod tests {
    use super::*;

    #[test]
    fn both_sides_agree_on_every_case() {
        let mut cases = flat();
        cases.extend(nested());
        cases.extend(deep());
        cases.extend(numbered());
        cases.extend(numberings());
        cases.extend(merges());
        cases.extend(Order::BOTH.map(|order| growth(GROWTH[0], order)));
        assert_eq!(cases.len(), 3 * 12 + 2 + 2 + 8 + 2);
        for case in cases {
            assert!(case.agrees(), "{}, {} bytes", case.title, case.bytes);
        }
    }
}
