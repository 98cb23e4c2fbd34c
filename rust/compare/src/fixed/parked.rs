//! Parked logs: the examples of document 02's Item 6, and what stays as it was beside them.
//! They are asked in both modes.

use super::Inputs;
use super::made::{
    COLUMN, Place, REACHED, beside_empty, col, dictionary, list, runs, sheet, structure, union, v,
};
use super::readings::alone;
use crate::request::{Operation, Takes};
use arrow_schema::{DataType, Field};
use std::sync::Arc;

/// The examples, where the operation is a merge.
pub(super) fn requests(operation: Operation) -> Vec<Inputs> {
    match operation.takes() {
        Takes::TrainAndMode => alone(operation, trains()),
        _ => Vec::new(),
    }
}

/// Inside a column, where it does not.
const BEYOND: [Place; 9] = [
    |field| v(DataType::ListView(Arc::new(field))),
    |field| v(DataType::LargeListView(Arc::new(field))),
    |field| v(DataType::FixedSizeList(Arc::new(field), 2)),
    |field| v(DataType::Map(Arc::new(field), false)),
    |field| v(dictionary(DataType::Int8, list(field))),
    |field| v(dictionary(list(field), DataType::Utf8)),
    |field| v(runs(field)),
    |field| v(union(vec![(0, field)])),
    |field| v(list(col("u", union(vec![(0, field)])))),
];

fn parked() -> Field {
    col("c", DataType::Null)
}

fn dict(ordered: bool) -> Field {
    col("c", dictionary(DataType::Int8, DataType::Utf8)).with_dict_is_ordered(ordered)
}

fn trains() -> Vec<Vec<u8>> {
    let (null, ordered, unordered) = (parked(), dict(true), dict(false));
    let mut trains = columns();
    trains.extend(folding());
    for place in REACHED {
        trains.push(along(place, &[&null, &ordered]));
        trains.push(along(place, &[&ordered, &null]));
        trains.push(along(place, &[&null, &null]));
        trains.push(along(place, &[&ordered, &null, &unordered]));
    }
    for place in BEYOND {
        trains.push(along(place, &[&null, &ordered]));
        trains.push(along(place, &[&ordered, &null]));
        trains.push(along(place, &[&ordered, &unordered]));
    }
    trains
}

/// A train that has these fields at a place, one after the other.
fn along(place: Place, fields: &[&Field]) -> Vec<u8> {
    fields
        .iter()
        .flat_map(|&field| place(field.clone()))
        .collect()
}

/// P5 both ways round, and what comes near it.
fn columns() -> Vec<Vec<u8>> {
    let (null, ordered, unordered) = (&parked(), &dict(true), &dict(false));
    let text = &col("c", DataType::Utf8);
    let of = |field: &Field, value: &str| field.clone().with_metadata([("k", value)]);
    let (one, same, other) = (&of(null, "1"), &of(ordered, "1"), &of(ordered, "2"));
    let trains: [&[&Field]; 16] = [
        &[null, ordered],
        &[ordered, null],
        &[null, unordered],
        &[unordered, null],
        &[null, null],
        &[null, null, ordered],
        &[ordered, null, ordered],
        &[ordered, null, unordered],
        &[unordered, null, ordered],
        &[null, ordered, unordered],
        &[ordered, unordered],
        &[ordered, text],
        &[text, ordered],
        &[null, ordered, text],
        &[one, other],
        &[one, same],
    ];
    trains.map(|fields| along(COLUMN, fields)).to_vec()
}

/// A Null that folds with an ordered dictionary inside one sheet, and inside one struct, which
/// folds beside another struct alone.
fn folding() -> Vec<Vec<u8>> {
    let pairs = [[parked(), dict(true)], [dict(true), parked()]];
    let mut trains = Vec::new();
    for pair in pairs {
        let children = v(structure(pair.to_vec()));
        trains.push(sheet(pair.to_vec()));
        trains.extend(beside_empty(&children));
        trains.push([&v(DataType::Null)[..], &children].concat());
        trains.push(children);
    }
    trains
}

#[cfg(test)]
mod tests {
    use super::*;
    use oracle::operations::{self, Mode};

    fn numbers(trains: &[Vec<u8>], mode: Mode) -> Vec<(u8, usize)> {
        let merged = trains.iter().map(|train| operations::merge(train, mode));
        merged
            .map(|merged| merged.map_or_else(|refusal| (refusal.number, refusal.place), |_| (0, 0)))
            .collect()
    }

    #[test]
    fn the_columns_give_what_item_6_says() {
        let parked = numbers(&columns(), Mode::ParkedFirst);
        let mut expected = vec![(0, 0); 16];
        expected[7..10].fill((20, 2));
        expected[10..13].fill((20, 1));
        expected[13] = (20, 2);
        expected[14] = (21, 1);
        assert_eq!(parked, expected);
        let rust = numbers(&columns(), Mode::AsTheRust);
        let accepted = (0..16).filter(|&train| rust[train] == (0, 0));
        assert!(accepted.eq([2, 3, 4]), "{rust:?}");
    }

    #[test]
    fn beyond_the_reach_the_modes_are_one_and_within_it_they_are_two() {
        let all = trains();
        let [rust, parked] = [Mode::AsTheRust, Mode::ParkedFirst].map(|mode| numbers(&all, mode));
        let (within, beyond) = (16 + 10..16 + 10 + 20, 16 + 10 + 20..);
        assert_eq!(rust[beyond.clone()], parked[beyond]);
        for at in within.step_by(4) {
            assert_eq!(rust[at..at + 4], [(20, 1), (20, 1), (0, 0), (20, 1)]);
            assert_eq!(parked[at..at + 4], [(0, 0), (0, 0), (0, 0), (20, 2)]);
        }
    }
}
