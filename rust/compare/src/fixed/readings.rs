//! The readings' examples of parameters, merging, containment and equality, and the trials
//! P9 to P12.

use super::made::{col, described, dictionary, list, runs, sheet, structure, union, v, written};
use super::{Inputs, hex};
use crate::request::Operation;
use arrow_schema::{DataType, Field, Metadata, Schema};
use std::sync::Arc;

/// The examples of this operation.
pub(super) fn requests(operation: Operation) -> Vec<Inputs> {
    match operation {
        Operation::IsNested | Operation::FlattenedFields => alone(operation, nested()),
        Operation::IndexOf => names(),
        Operation::Project | Operation::ProjectStrict => lists(),
        Operation::Filter => masks(),
        Operation::Normalize => normalised(),
        Operation::TryNew => numbered(),
        Operation::TryFromFields => [0, 3, 128, 129, 65_535]
            .map(|count| (Vec::new(), Vec::new(), count))
            .to_vec(),
        Operation::Merge | Operation::MergeParkedFirst => alone(operation, trains()),
        Operation::Equal | Operation::EqualsDatatype | Operation::Contains => pairs(),
    }
}

/// Requests that take these bytes, and no more but the usual number.
pub(super) fn alone(operation: Operation, all: Vec<Vec<u8>>) -> Vec<Inputs> {
    let number = operation.usual_number();
    all.into_iter()
        .map(|one| (one, Vec::new(), number))
        .collect()
}

/// Module 2: dictionaries take the verdict of the value, run ends that of the values.
fn nested() -> Vec<Vec<u8>> {
    let inner = || structure(vec![]);
    let types = [
        inner(),
        dictionary(DataType::Int8, DataType::Utf8),
        dictionary(inner(), DataType::Utf8),
        dictionary(DataType::Int8, inner()),
        dictionary(DataType::Int8, dictionary(DataType::Int8, inner())),
        runs(col("", DataType::Int8)),
        runs(col("", runs(col("", inner())))),
    ];
    vec![sheet(types.map(|data_type| col("", data_type)).to_vec())]
}

/// Reading 15.
fn names() -> Vec<Inputs> {
    let columns = ["a", "", "b", "", "b"].map(|name| col(name, DataType::Int8));
    let columns = sheet(columns.to_vec());
    let asked: [&[u8]; 4] = [b"b", b"", b"c", b"\xff"];
    let mut requests = asked
        .map(|name| (columns.clone(), name.to_vec(), 0))
        .to_vec();
    requests.push((hex("00"), Vec::new(), 0));
    requests.push((hex("ff"), hex("ff"), 0));
    requests
}

/// Reading 14, P10, index 0 of no columns, and answers of 65,535 and 65,536 bytes.
fn lists() -> Vec<Inputs> {
    let three = ["a", "b", "c"].map(|name| col(name, DataType::Int8));
    let three = sheet(three.to_vec());
    let of_three = [
        "03000300",
        "0300030000",
        "05",
        "0200010002000900",
        "0200010009000200",
        "0200010002000001",
        "02000000",
    ];
    let mut requests = of_three.map(|list| (three.clone(), hex(list), 0)).to_vec();
    requests.push((v(DataType::Int8), vec![0; 4], 0));
    requests.push((hex("00"), vec![0; 2], 0));
    requests.push((hex("00"), Vec::new(), 0));
    for (key, name) in [("kk", 32_758), ("k", 32_759)] {
        let column = col(&"n".repeat(name), DataType::Int8);
        let schema = Schema::new(vec![column]).with_metadata([(key, "")]);
        requests.push((written(&schema), vec![0; 4], 0));
    }
    requests
}

/// Reading 19 and P11.
fn masks() -> Vec<Inputs> {
    let columns = vec![
        col("a", DataType::Int8),
        col("e", structure(vec![])),
        col("u", union(vec![])),
    ];
    let first = written(&Schema::new(columns).with_metadata([("k", "1")]));
    let inner = structure(vec![col("a", DataType::Int8), col("b", DataType::Int8)]);
    let once = v(dictionary(DataType::Int8, inner.clone()));
    let twice = v(dictionary(
        DataType::Int8,
        dictionary(DataType::Int8, inner),
    ));
    let masks: [&[u8]; 6] = [&[], &[0], &[7], &[1, 1], &[0, 1], &[1, 0]];
    let mut requests = Vec::new();
    for sheet in [first, once, twice] {
        requests.extend(masks.map(|mask| (sheet.clone(), mask.to_vec(), 0)));
    }
    requests
}

/// Reading 17, P9, and answers of 65,535 and 65,536 bytes.
fn normalised() -> Vec<Inputs> {
    let inner = col("x", dictionary(DataType::Int8, DataType::Utf8))
        .with_dict_is_ordered(true)
        .with_metadata([("k", "1")]);
    let top = Schema::new(vec![inner.clone()]).with_metadata([("s", "1")]);
    let empty = col("e", structure(vec![]));
    let p9 = structure(vec![col("a", DataType::Int32), empty]);
    let nullable = Field::new("s", structure(vec![col("a", DataType::Int8)]), true);
    let nameless = v(structure(vec![col("", DataType::Int8)]));
    let sheets = [
        written(&top),
        v(list(inner.clone())),
        v(structure(vec![inner])),
        v(structure(vec![])),
        v(p9),
        sheet(vec![nullable]),
        sheet(vec![col("", structure(vec![col("", DataType::Int8)]))]),
        hex("00"),
        hex("ff"),
    ];
    let mut requests = Vec::new();
    for sheet in sheets {
        let separators: [&[u8]; 3] = [b".", b"", b"\xc3"];
        for separator in separators {
            requests.extend([0, 1].map(|level| (sheet.clone(), separator.to_vec(), level)));
        }
    }
    let long = [65_526, 65_527, 65_528, 65_534, 65_535, 65_536];
    requests.extend(long.map(|bytes| (nameless.clone(), vec![b'-'; bytes], 0)));
    requests
}

/// Reading 18.
fn numbered() -> Vec<Inputs> {
    let lists: [(&[u8], u16); 9] = [
        (&[5, 5], 1),
        (&[5, 5], 2),
        (&[5, 5], 3),
        (&[5, 6], 3),
        (&[5, 200, 5], 3),
        (&[9, 5], 2),
        (&[], 0),
        (&[], 1),
        (&[200], 0),
    ];
    lists
        .map(|(ids, count)| (ids.to_vec(), Vec::new(), count))
        .to_vec()
}

/// Readings 22 to 29, and the 'Run:' line's struct once and twice.
fn trains() -> Vec<Vec<u8>> {
    let mut trains = folding();
    trains.extend(nulls_inside());
    trains.extend(clashes());
    trains.extend(unions());
    trains.extend(past_every_count());
    trains
}

/// Readings 22 and 23: structs, and sheets, that hold a name twice.
fn folding() -> Vec<Vec<u8>> {
    let twice = |second| vec![col("a", DataType::Int8), col("a", second)];
    let [folds, clashes] =
        [DataType::Int8, DataType::Int16].map(|second| v(structure(twice(second))));
    let (empty, null) = (v(structure(vec![])), v(DataType::Null));
    let mut trains = Vec::new();
    for one in [&folds, &clashes] {
        trains.push(one.clone());
        for other in [one, &empty, &null] {
            trains.push([&one[..], other].concat());
            trains.push([&other[..], one].concat());
        }
    }
    trains.push(sheet(twice(DataType::Int16)));
    trains.push(sheet(vec![
        col("a", DataType::Null),
        col("a", DataType::Int16),
    ]));
    trains
}

/// Reading 24: where Null takes a type, and where it does not.
fn nulls_inside() -> Vec<Vec<u8>> {
    let around = |inner: DataType| {
        let child = Arc::new(col("c", inner.clone()));
        [
            structure(vec![col("c", inner.clone())]),
            DataType::List(child.clone()),
            DataType::LargeList(child.clone()),
            DataType::ListView(child.clone()),
            DataType::LargeListView(child.clone()),
            DataType::FixedSizeList(child.clone(), 2),
            DataType::Map(child, false),
            dictionary(DataType::Int8, inner.clone()),
            union(vec![(0, col("c", inner.clone()))]),
            runs(col("c", inner)),
        ]
        .map(v)
    };
    let (nulls, typed) = (around(DataType::Null), around(DataType::Int8));
    let pairs = nulls.iter().zip(&typed);
    pairs
        .flat_map(|(null, typed)| [[&null[..], typed].concat(), [&typed[..], null].concat()])
        .collect()
}

/// Readings 25, 26 and 28: order flags, and which clash comes first.
fn clashes() -> Vec<Vec<u8>> {
    let of = |schema: &str, field: &str, ordered: bool, value: DataType| {
        let column = col("v", dictionary(DataType::Int8, value))
            .with_dict_is_ordered(ordered)
            .with_metadata([("k", field)]);
        written(&Schema::new(vec![column]).with_metadata([("s", schema)]))
    };
    let first = of("1", "1", false, DataType::Utf8);
    let seconds = [
        of("2", "2", true, DataType::Int8),
        of("1", "2", true, DataType::Int8),
        of("1", "2", false, DataType::Int8),
        of("1", "1", false, DataType::Int8),
        of("1", "1", false, DataType::Utf8),
    ];
    let mut trains = seconds
        .map(|second| [&first[..], &second].concat())
        .to_vec();
    let plain = dictionary(DataType::Int8, DataType::Utf8);
    let [ordered, unordered] = [true, false].map(|flag| {
        let column = col("v", plain.clone()).with_dict_is_ordered(flag);
        sheet(vec![column])
    });
    let [inside, other] = [true, false].map(|flag| {
        let child = col("c", plain.clone()).with_dict_is_ordered(flag);
        v(DataType::ListView(Arc::new(child)))
    });
    let null = v(DataType::Null);
    let pairs = [(&null, &ordered), (&null, &unordered), (&inside, &other)];
    for (one, other) in pairs {
        trains.push([&one[..], other].concat());
        trains.push([&other[..], one].concat());
    }
    trains
}

/// Readings 25 and 27: unions.
fn unions() -> Vec<Vec<u8>> {
    let x = |nullable| Field::new("x", DataType::Int8, nullable);
    let one = v(union(vec![(0, x(false))]));
    let others = [
        v(DataType::Null),
        v(union(vec![(0, x(true))])),
        v(union(vec![(0, x(true)), (1, x(false))])),
        v(union(vec![(0, x(false)), (1, x(false))])),
        v(union(vec![])),
    ];
    let mut trains = Vec::new();
    for other in &others {
        trains.push([&one[..], other].concat());
        trains.push([&other[..], &one].concat());
    }
    trains.push([&others[4][..], &others[3]].concat());
    trains
}

/// Reading 29: what grows past every count still clashes.
fn past_every_count() -> Vec<Vec<u8>> {
    let of = |pairs: Metadata| written(&Schema::empty().with_metadata(pairs));
    let keys = |from: usize| {
        let keys = (from..from + 7_000).map(|key| (format!("{key:05}"), ""));
        of(keys.collect())
    };
    let grown: Vec<u8> = (0..10).flat_map(|n| keys(7_000 * n)).collect();
    let clash = of(Metadata::from([("00003", "1")]));
    let named = |name: usize, data_type| col(&format!("{name:050}"), data_type);
    let columns = |from: usize| {
        let columns = (from..from + 700).map(|name| named(name, DataType::Int8));
        sheet(columns.collect())
    };
    let wide = [columns(0), columns(700)].concat();
    let other = sheet(vec![named(3, DataType::Int16)]);
    vec![
        [&grown[..], &clash].concat(),
        grown,
        [&wide[..], &other].concat(),
        wide,
    ]
}

/// Readings 30 and 31, and P12: each sheet with each.
fn pairs() -> Vec<Inputs> {
    let x = |nullable| Field::new("x", DataType::Int8, nullable);
    let mut sheets = vec![hex("00"), described()];
    for child in [x(true), x(false)] {
        let held = Arc::new(child.clone());
        sheets.extend([
            v(runs(child.clone())),
            v(DataType::FixedSizeList(held.clone(), 2)),
            v(DataType::FixedSizeList(held.clone(), 3)),
            v(DataType::Map(held.clone(), true)),
            v(DataType::Map(held.clone(), false)),
            v(dictionary(list(child.clone()), list(child.clone()))),
            v(union(vec![(3, child.clone())])),
            sheet(vec![child.clone()]),
            sheet(vec![child.with_name("y")]),
        ]);
    }
    let (x, y) = (col("x", DataType::Int8), col("y", DataType::Utf8));
    sheets.push(v(union(vec![(0, x.clone()), (1, y.clone())])));
    sheets.push(v(union(vec![(1, y), (0, x)])));
    sheets.push(v(union(vec![])));
    let mut pairs = Vec::new();
    for one in &sheets {
        pairs.extend(sheets.iter().map(|other| (one.clone(), other.clone(), 0)));
    }
    pairs
}

#[cfg(test)]
mod tests {
    use super::*;
    use crate::request::Request;

    /// The numbers that the examples of an operation give.
    fn numbers(operation: Operation) -> Vec<u8> {
        let mut numbers: Vec<u8> = requests(operation)
            .into_iter()
            .map(|(first, second, number)| {
                let request = Request {
                    second,
                    number,
                    ..Request::new(operation, first)
                };
                request
                    .outcome()
                    .map_or_else(|refusal| refusal.number, |_| 0)
            })
            .collect();
        numbers.sort_unstable();
        numbers.dedup();
        numbers
    }

    #[test]
    fn the_examples_give_the_numbers_that_the_readings_name() {
        let expected: [(Operation, &[u8]); 9] = [
            (Operation::IndexOf, &[0, 2, 13]),
            (Operation::Project, &[0, 10, 17, 30]),
            (Operation::ProjectStrict, &[0, 10, 11, 17]),
            (Operation::Filter, &[0, 12]),
            (Operation::Normalize, &[0, 2, 18, 30]),
            (Operation::TryNew, &[0, 6, 7, 14, 15]),
            (Operation::TryFromFields, &[0, 16]),
            (Operation::Merge, &[0, 20, 21, 22, 23, 24, 25, 30]),
            (
                Operation::MergeParkedFirst,
                &[0, 20, 21, 22, 23, 24, 25, 30],
            ),
        ];
        for (operation, expected) in expected {
            assert_eq!(numbers(operation), expected, "{operation:?}");
        }
    }

    #[test]
    fn answers_of_65_535_bytes_are_given_and_of_one_more_are_30() {
        for operation in [Operation::Project, Operation::Normalize] {
            let longest = requests(operation)
                .into_iter()
                .filter_map(|(first, second, number)| {
                    let request = Request {
                        second,
                        number,
                        ..Request::new(operation, first)
                    };
                    Some(request.outcome().ok()?.len())
                })
                .max();
            assert_eq!(longest, Some(65_535), "{operation:?}");
        }
    }

    #[test]
    fn each_pair_of_verdicts_comes_up_both_ways() {
        for operation in [
            Operation::Equal,
            Operation::EqualsDatatype,
            Operation::Contains,
        ] {
            let mut verdicts = [0; 2];
            for (first, second, _) in requests(operation) {
                let request = Request {
                    second,
                    ..Request::new(operation, first)
                };
                let answer = request.outcome().expect("sheets that read");
                verdicts[usize::from(answer[0])] += 1;
            }
            assert!(verdicts.iter().all(|&count| count >= 22), "{verdicts:?}");
        }
    }
}
