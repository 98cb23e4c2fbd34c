//! Operations on the columns as a list: look-up, verdicts, both projections.

use arrow_schema::{ArrowError, Schema, SchemaBuilder};

use super::{Outcome, shortest_failing, written};
use crate::number::{INDEX_OUT_OF_BOUNDS, INDEX_REPEATED, NO_SUCH_COLUMN, ODD_LIST};
use crate::read;
use crate::refusal::Refusal;

/// `DataType::is_nested` of each column: one byte each, 1 for yes.
pub fn is_nested(sheet: &[u8]) -> Outcome {
    let schema = read::sheet(sheet)?.schema;
    let verdicts = schema.fields().iter();
    Ok(verdicts
        .map(|column| u8::from(column.data_type().is_nested()))
        .collect())
}

/// `Schema::index_of`: a u16, or 13. A name that is no UTF-8 names nothing.
pub fn index_of(sheet: &[u8], name: &[u8]) -> Outcome {
    let schema = read::sheet(sheet)?.schema;
    let found = std::str::from_utf8(name)
        .ok()
        .and_then(|name| schema.index_of(name).ok());
    let index = found.ok_or(Refusal::new(NO_SUCH_COLUMN, 0))?;
    let index = u16::try_from(index).expect("a sheet has at most 65,535 columns");
    Ok(index.to_le_bytes().to_vec())
}

/// `Schema::project`: repeats are allowed.
pub fn project(sheet: &[u8], list: &[u8]) -> Outcome {
    projected(sheet, list, Schema::project)
}

/// `SchemaBuilder::project`: the strict one.
pub fn project_strict(sheet: &[u8], list: &[u8]) -> Outcome {
    projected(sheet, list, |schema, indices| {
        SchemaBuilder::from(schema).project(indices)
    })
}

fn projected(
    sheet: &[u8],
    list: &[u8],
    project: impl Fn(&Schema, &[usize]) -> Result<Schema, ArrowError>,
) -> Outcome {
    let schema = read::sheet(sheet)?.schema;
    let indices = indices(list)?;
    match project(&schema, &indices) {
        Ok(projected) => written(&projected),
        Err(error) => {
            let fails = |entries: usize| project(&schema, &indices[..entries]).is_err();
            let entries = shortest_failing(indices.len(), fails);
            Err(Refusal::new(projection_number(&error), entries - 1))
        }
    }
}

/// An index list's numbers: 17 before any of them.
fn indices(list: &[u8]) -> Result<Vec<usize>, Refusal> {
    let (entries, left) = list.as_chunks::<2>();
    if !left.is_empty() {
        return Err(Refusal::new(ODD_LIST, 0));
    }
    Ok(entries
        .iter()
        .map(|&entry| usize::from(u16::from_le_bytes(entry)))
        .collect())
}

/// 10 or 11, by the crate's text. Only numbers of ours stand in it.
fn projection_number(error: &ArrowError) -> u8 {
    let text = error.to_string();
    if text.contains("out of bounds") {
        INDEX_OUT_OF_BOUNDS
    } else if text.contains("is repeated") {
        INDEX_REPEATED
    } else {
        panic!("an unknown refusal of a projection: {text}")
    }
}
