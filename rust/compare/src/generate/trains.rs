//! Trains: related sheets end to end, many small ones, and ones whose merge is too long or
//! nearly so.

use super::{damage, source, vary};
use arrow_schema::{DataType, Field, Schema, UnionFields, UnionMode};
use oracle::dict_id;
use oracle::limits::{SHEET_BYTES, TRAIN_SHEETS};
use oracle::operations::{self, Mode};
use oracle::random::{self, Random};

/// A train, damaged or not.
pub(super) fn train(random: &mut Random) -> Vec<u8> {
    match random.below(400) {
        0 => many(random),
        1 => long(random),
        2 => Vec::new(),
        3 => filling(random),
        4..21 => unions(random),
        _ => related(random),
    }
}

/// Up to four sheets, each related to the one before most of the time, damaged or not.
pub(super) fn related(random: &mut Random) -> Vec<u8> {
    let mut schema = source::schema(random);
    let mut bytes = source::perhaps_with_0(random, &schema);
    for _ in 0..random.below(4) {
        schema = match random.below(6) {
            0 => random::schema(random),
            1 | 2 => vary::related(random, &schema),
            _ => vary::mergeable(random, &schema),
        };
        bytes.extend(source::perhaps_with_0(random, &schema));
    }
    match random.once_in(2) {
        true => damage::perhaps(random, bytes),
        false => bytes,
    }
}

/// Up to 300 sheets, as many as a train may have, a few more or less, as often as not.
fn many(random: &mut Random) -> Vec<u8> {
    let sheets = match random.once_in(2) {
        true => TRAIN_SHEETS - 2 + random.below(5),
        false => random.below(301),
    };
    let schemas = [(); 4].map(|()| random::schema(random));
    let one = source::written(&schemas[0]);
    let mut bytes = Vec::new();
    for _ in 0..sheets {
        match random.below(200) {
            0 => bytes.extend(source::written(&random.pick(&schemas))),
            1..100 => bytes.extend(&one),
            _ => bytes.push(0),
        }
    }
    bytes
}

/// Two sheets near the limit.
pub(super) fn long(random: &mut Random) -> Vec<u8> {
    let sheets = [(); 2].map(|()| source::written(&source::large(random)));
    sheets.concat()
}

/// Two sheets whose merge has 65,535 bytes, a few less or a few more.
pub(super) fn filling(random: &mut Random) -> Vec<u8> {
    let most = SHEET_BYTES - 4 + random.below(9);
    let long = "n".repeat(20_000 + random.below(20_000));
    // two that clash fill nothing
    loop {
        let one = random::schema(random);
        let other = vary::mergeable(random, &one);
        let first = source::written(&with_column(&one, long.clone()));
        let train = |bytes| {
            let second = source::written(&with_column(&other, "m".repeat(bytes)));
            [&first[..], &second].concat()
        };
        // the mode that accepts more, and gives the same where both accept
        if let Ok(shortest) = operations::merge(&train(1), Mode::ParkedFirst) {
            return train(1 + most.saturating_sub(shortest.len()));
        }
    }
}

/// The schema with one more column, of this name.
fn with_column(schema: &Schema, name: String) -> Schema {
    let mut columns = schema.fields.to_vec();
    columns.push(Field::new(name, DataType::Int8, false).into());
    Schema::new_with_metadata(columns, schema.metadata.clone())
}

/// Sheets with a union each: few children, few ids, so that children and ids meet.
pub(super) fn unions(random: &mut Random) -> Vec<u8> {
    let sheets = 2 + random.below(2);
    (0..sheets)
        .flat_map(|_| source::written(&union(random)))
        .collect()
}

fn union(random: &mut Random) -> Schema {
    let mut ids = Vec::new();
    let mut children = Vec::new();
    for id in 0..4 {
        if random.once_in(2) {
            let data_type = random.pick(&[DataType::Int8, DataType::Int8, DataType::Null]);
            let (name, nullable) = (random.pick(&["x", "y"]), random.once_in(8));
            let dict_id = random::dict_id(random);
            ids.push(id);
            children.push(dict_id::field(name, data_type, nullable, dict_id, false));
        }
    }
    let children = UnionFields::try_new(ids, children).expect("ids that differ");
    let mode = random.pick(&[UnionMode::Sparse, UnionMode::Dense]);
    Schema::new(vec![Field::new(
        "v",
        DataType::Union(children, mode),
        false,
    )])
}

#[cfg(test)]
mod tests {
    use super::*;
    use oracle::read;

    #[test]
    fn trains_of_many_sheets_have_from_few_to_more_than_they_may() {
        let mut random = Random::new(6);
        let (mut few, mut past) = (0, 0);
        for _ in 0..200 {
            match read::train(&many(&mut random)) {
                Ok(sheets) => few += usize::from(sheets.len() < 250),
                Err(refusal) => {
                    assert_eq!(refusal.number, 33);
                    past += 1;
                }
            }
        }
        assert!(few > 40 && past > 40, "{few} {past}");
    }
}
