//! Operations on the tree of fields: flattening, the leaf filter, normalising.

use std::collections::HashMap;

use arrow_schema::{DataType, Field, Fields, Schema};

use super::{Outcome, written};
use crate::number::{MASK_LENGTH, SEPARATOR_NOT_UTF8};
use crate::read;
use crate::refusal::Refusal;

/// `Schema::flattened_fields`: a u16 count, then the offset of each field's map in the sheet.
///
/// Which fields are listed, and in which order, the crate alone decides: it hands out
/// references, and each field of a sheet read anew has an address of its own.
pub fn flattened_fields(sheet: &[u8]) -> Outcome {
    let read::Sheet { schema, places, .. } = read::sheet(sheet)?;
    let in_layout_order = all_fields(schema.fields());
    assert_eq!(in_layout_order.len(), places.len());
    let places: HashMap<*const Field, usize> = in_layout_order
        .into_iter()
        .map(std::ptr::from_ref)
        .zip(places)
        .collect();
    let listed = schema.flattened_fields();
    let mut answer = u16_bytes(listed.len()).to_vec();
    for field in listed {
        answer.extend(u16_bytes(places[&std::ptr::from_ref(field)]));
    }
    Ok(answer)
}

fn u16_bytes(number: usize) -> [u8; 2] {
    let number = u16::try_from(number).expect("a sheet has at most 65,535 bytes");
    number.to_le_bytes()
}

/// Every field in layout order, those below keys and run ends included.
fn all_fields(columns: &Fields) -> Vec<&Field> {
    let mut all = Vec::new();
    columns.iter().for_each(|column| collect(column, &mut all));
    all
}

fn collect<'a>(field: &'a Field, all: &mut Vec<&'a Field>) {
    all.push(field);
    collect_below(field.data_type(), all);
}

fn collect_below<'a>(data_type: &'a DataType, all: &mut Vec<&'a Field>) {
    use DataType as T;
    match data_type {
        T::List(child)
        | T::ListView(child)
        | T::FixedSizeList(child, _)
        | T::LargeList(child)
        | T::LargeListView(child)
        | T::Map(child, _) => collect(child, all),
        T::Struct(children) => children.iter().for_each(|child| collect(child, all)),
        T::Union(children, _) => children.iter().for_each(|(_, child)| collect(child, all)),
        T::Dictionary(key, value) => {
            collect_below(key, all);
            collect_below(value, all);
        }
        T::RunEndEncoded(run_ends, values) => {
            collect(run_ends, all);
            collect(values, all);
        }
        _ => {}
    }
}

/// `Fields::try_filter_leaves`: mask byte i keeps leaf i unless 0. Schema metadata is kept.
pub fn filter(sheet: &[u8], mask: &[u8]) -> Outcome {
    let schema = read::sheet(sheet)?.schema;
    if mask.len() != leaves(&schema) {
        return Err(Refusal::new(MASK_LENGTH, 0));
    }
    let kept = schema
        .fields
        .try_filter_leaves(|leaf, _| Ok(mask[leaf] != 0))
        .expect("the mask never fails");
    written(&Schema::new_with_metadata(kept, schema.metadata))
}

/// How many leaves the leaf filter asks about in this sheet.
pub fn leaf_count(sheet: &[u8]) -> Result<usize, Refusal> {
    Ok(leaves(&read::sheet(sheet)?.schema))
}

fn leaves(schema: &Schema) -> usize {
    let mut count = 0;
    let counted = schema.fields.try_filter_leaves(|_, _| {
        count += 1;
        Ok(true)
    });
    counted.expect("counting never fails");
    count
}

/// `Schema::normalize`; a level of 0 means no limit.
///
/// The names are built whole before their length is looked at, so a separator of many
/// megabytes on a deep sheet takes as much memory as it is long, times the names.
pub fn normalize(sheet: &[u8], separator: &[u8], level: u16) -> Outcome {
    let schema = read::sheet(sheet)?.schema;
    let separator =
        std::str::from_utf8(separator).map_err(|_| Refusal::new(SEPARATOR_NOT_UTF8, 0))?;
    let normalized = schema.normalize(separator, Some(usize::from(level)));
    written(&normalized.expect("normalising never fails"))
}
