//! The two modes of merging beside each other: document 02's Item 6 on fixed examples, and on
//! many random trains the laws that tie its mode to the Rust.

mod common;

use arrow_schema::{DataType, Field, Metadata, Schema, UnionMode};
use common::{col, dictionary, hex, list, refused, sheet, structure, train, union, v};
use oracle::operations::{self, Mode, Outcome};
use oracle::random::{self, Random};
use oracle::{Refusal, calls, dict_id, read, write};
use std::collections::HashMap;
use std::sync::Arc;

fn as_the_rust(sheets: &[Vec<u8>]) -> Outcome {
    operations::merge(&train(sheets), Mode::AsTheRust)
}

fn parked_first(sheets: &[Vec<u8>]) -> Outcome {
    operations::merge(&train(sheets), Mode::ParkedFirst)
}

/// `c:Null`.
fn parked() -> Field {
    col("c", DataType::Null)
}

/// `c:Dictionary(Int8, Utf8)`, ordered or not.
fn dict(ordered: bool) -> Field {
    col("c", dictionary(DataType::Int8, DataType::Utf8)).with_dict_is_ordered(ordered)
}

fn nullable(field: Field) -> Field {
    field.with_nullable(true)
}

fn large_list(child: Field) -> DataType {
    DataType::LargeList(Arc::new(child))
}

/// A sheet with a field at a place.
type Place = fn(Field) -> Vec<u8>;

/// The places that the merge reaches.
const REACHED: [Place; 6] = [
    |field| sheet(vec![field]),
    |field| v(structure(vec![field])),
    |field| v(list(field)),
    |field| v(large_list(field)),
    |field| v(list(col("s", structure(vec![field])))),
    |field| v(structure(vec![col("l", large_list(field))])),
];

/// Places that it does not reach.
const BEYOND: [Place; 9] = [
    |field| v(DataType::ListView(Arc::new(field))),
    |field| v(DataType::LargeListView(Arc::new(field))),
    |field| v(DataType::FixedSizeList(Arc::new(field), 2)),
    |field| v(DataType::Map(Arc::new(field), false)),
    |field| v(dictionary(DataType::Int8, structure(vec![field]))),
    |field| v(dictionary(list(field), DataType::Utf8)),
    |field| v(runs(col("r", DataType::Int16), field)),
    |field| v(runs(field, col("v", DataType::Int16))),
    |field| v(union(UnionMode::Dense, vec![(0, field)])),
];

fn runs(run_ends: Field, values: Field) -> DataType {
    DataType::RunEndEncoded(Arc::new(run_ends), Arc::new(values))
}

#[test]
fn p5_in_both_modes() {
    let both = hex("02 0100 04 0100 76 00  02 0100 06 0100 76 22 02 18");
    let merged = |mode: u8| {
        let (mut work, mut answer) = (vec![170; 72], vec![170; 11]);
        let exit = calls::merge(&both, &mut work, &mut answer, mode);
        assert!(work.iter().all(|&byte| byte == 0));
        (exit.number, exit.place, answer[..exit.length].to_vec())
    };
    assert_eq!(merged(0), (20, 1, vec![]));
    for mode in 1..=u8::MAX {
        let table = hex("02 0100 07 0100 76 22 02 18");
        assert_eq!(merged(mode), (0, 0, table), "{mode}");
    }
}

#[test]
fn a_null_takes_the_flag_with_the_type_wherever_the_merge_reaches() {
    for place in REACHED {
        let [null, ordered] = [parked(), dict(true)].map(place);
        let table = place(nullable(dict(true)));
        assert_eq!(
            as_the_rust(&[null.clone(), ordered.clone()]),
            refused(20, 1)
        );
        assert_eq!(
            as_the_rust(&[ordered.clone(), null.clone()]),
            refused(20, 1)
        );
        for sheets in [
            vec![null.clone(), ordered.clone()],
            vec![ordered.clone(), null.clone()],
            vec![null.clone(), null.clone(), ordered.clone()],
            vec![ordered.clone(), null.clone(), ordered.clone()],
            vec![null.clone(), ordered.clone(), null.clone(), ordered],
        ] {
            assert_eq!(parked_first(&sheets), Ok(table.clone()));
        }
        // without a flag to take it is as ever
        let sheets = [null, place(dict(false))];
        assert_eq!(parked_first(&sheets), Ok(place(nullable(dict(false)))));
        assert_eq!(as_the_rust(&sheets), parked_first(&sheets));
    }
}

#[test]
fn null_twice_is_a_nullable_null_without_a_flag() {
    for place in REACHED {
        let sheets = [place(parked()), place(parked())];
        assert_eq!(parked_first(&sheets), Ok(place(nullable(parked()))));
        assert_eq!(parked_first(&sheets[..1]), Ok(sheets[0].clone()));
    }
}

#[test]
fn two_types_that_are_not_null_still_need_one_flag() {
    for place in REACHED {
        let [null, ordered, unordered] = [parked(), dict(true), dict(false)].map(place);
        let text = place(col("c", DataType::Utf8));
        // 20 before 22
        assert_eq!(
            parked_first(&[ordered.clone(), text.clone()]),
            refused(20, 1)
        );
        assert_eq!(
            parked_first(&[text.clone(), ordered.clone()]),
            refused(20, 1)
        );
        for [one, other] in [[&ordered, &unordered], [&unordered, &ordered]] {
            let [null, one, other] = [&null, one, other].map(Clone::clone);
            assert_eq!(parked_first(&[one.clone(), other.clone()]), refused(20, 1));
            let between = [one.clone(), null.clone(), other.clone()];
            assert_eq!(parked_first(&between), refused(20, 2));
            assert_eq!(parked_first(&[null, one, other]), refused(20, 2));
        }
        assert_eq!(parked_first(&[null, ordered, text]), refused(20, 2));
    }
}

#[test]
fn metadata_still_clashes_beside_a_null() {
    let of = |field: Field, value: &str| field.with_metadata([("k", value)]);
    for place in REACHED {
        let [null, ordered] = [of(parked(), "1"), of(dict(true), "2")].map(place);
        assert_eq!(
            parked_first(&[null.clone(), ordered.clone()]),
            refused(21, 1)
        );
        assert_eq!(
            parked_first(&[ordered.clone(), null.clone()]),
            refused(21, 1)
        );
        assert_eq!(as_the_rust(&[null, ordered]), refused(20, 1));
        // and what does not clash is kept
        let sheets = [place(parked()), place(of(dict(true), "2"))];
        let table = place(nullable(of(dict(true), "2")));
        assert_eq!(parked_first(&sheets), Ok(table));
    }
    // the metadata of the schema comes first
    let [one, other] =
        [("1", of(parked(), "1")), ("2", of(dict(true), "2"))].map(|(value, field)| {
            let schema = Schema::new(vec![field]).with_metadata([("s", value)]);
            write::sheet(&schema).unwrap()
        });
    assert_eq!(parked_first(&[one, other]), refused(25, 1));
}

#[test]
fn beyond_the_merges_reach_nothing_changes() {
    for place in BEYOND {
        let fields = [parked(), dict(true), dict(false), nullable(dict(true))];
        for one in &fields {
            for other in &fields {
                let sheets = [one, other].map(|field| place(field.clone()));
                assert_eq!(parked_first(&sheets), as_the_rust(&sheets));
            }
        }
        // a Null there takes nothing, flags there are not compared, and the first one stays
        let [null, ordered, unordered] = [parked(), dict(true), dict(false)].map(place);
        assert!(parked_first(&[null, ordered.clone()]).is_err());
        let table = parked_first(&[ordered.clone(), unordered]);
        assert_eq!(table, Ok(ordered));
    }
}

#[test]
fn what_folds_inside_one_sheet_follows_the_mode_too() {
    let pair = || vec![parked(), dict(true)];
    let folded = nullable(dict(true));
    let columns = [sheet(pair())];
    assert_eq!(as_the_rust(&columns), refused(20, 0));
    assert_eq!(parked_first(&columns), Ok(sheet(vec![folded.clone()])));
    // a struct alone, or beside Null, is not poured
    let [children, empty] = [structure(pair()), structure(vec![])].map(v);
    let alone = [children.clone()];
    assert_eq!(parked_first(&alone), Ok(children.clone()));
    let kept = sheet(vec![nullable(col("v", structure(pair())))]);
    assert_eq!(
        parked_first(&[v(DataType::Null), children.clone()]),
        Ok(kept)
    );
    let table = v(structure(vec![folded]));
    for sheets in [[children.clone(), empty.clone()], [empty, children]] {
        assert_eq!(as_the_rust(&sheets), refused(20, 1));
        assert_eq!(parked_first(&sheets), Ok(table.clone()));
    }
}

/// Random trains: logs of one machine, whose fields are Null at times, and trains that have
/// less to do with each other.
fn trains(seed: u64, count: usize) -> impl Iterator<Item = Vec<Vec<u8>>> {
    let mut random = Random::new(seed);
    (0..count).map(move |turn| {
        let sheets = 1 + random.below(4);
        let machine = schema(&mut random);
        let log = |random: &mut Random| match turn % 4 {
            0 => random::schema(random),
            _ => logged(random, &machine),
        };
        let schemas: Vec<Schema> = (0..sheets).map(|_| log(&mut random)).collect();
        let written = schemas.iter().map(|schema| write::sheet(schema).unwrap());
        written.collect()
    })
}

fn schema(random: &mut Random) -> Schema {
    let columns = 1 + random.below(3);
    let columns: Vec<Field> = (0..columns).map(|_| field(random, 4)).collect();
    Schema::new(columns)
}

/// A field of one of three names: most often a dictionary, or a type that the merge goes into.
fn field(random: &mut Random, levels: usize) -> Field {
    let child = |random: &mut Random| field(random, levels - 1);
    let data_type = match random.below(if levels > 1 { 12 } else { 5 }) {
        0..4 => dictionary(DataType::Int8, DataType::Utf8),
        4 => DataType::Utf8,
        5..8 => {
            let children = random.below(4);
            structure((0..children).map(|_| child(random)).collect())
        }
        8 | 9 => list(child(random)),
        10 => large_list(child(random)),
        _ => random::data_type(random, levels),
    };
    let (name, nullable) = (random.pick(&["a", "b", "c"]), random.once_in(4));
    let (dict_id, ordered) = (random::dict_id(random), random.once_in(2));
    let field = dict_id::field(name, data_type, nullable, dict_id, ordered);
    described(random, field)
}

fn described(random: &mut Random, field: Field) -> Field {
    match random.once_in(16) {
        true => field.with_metadata([(random.pick(&["k", "l"]), random.pick(&["1", "2"]))]),
        false => field,
    }
}

fn logged(random: &mut Random, machine: &Schema) -> Schema {
    let columns: Vec<Field> = machine
        .fields
        .iter()
        .map(|column| recorded(random, column))
        .collect();
    let metadata = match random.once_in(16) {
        true => Metadata::from([("s", random.pick(&["1", "2"]))]),
        false => Metadata::new(),
    };
    Schema::new_with_metadata(columns, metadata)
}

/// The field as one log has it: Null at times, with another order flag, type or dictionary
/// number now and then.
fn recorded(random: &mut Random, field: &Field) -> Field {
    let field = &match random.once_in(4) {
        true => dict_id::with(field, random::dict_id(random)),
        false => field.clone(),
    };
    let of = |random: &mut Random, data_type| {
        let field = field.clone().with_data_type(data_type);
        described(random, field)
    };
    match random.below(32) {
        0..9 => {
            let (nullable, dict_id) = (random.once_in(4), dict_id::of(field));
            dict_id::field(field.name(), DataType::Null, nullable, dict_id, false)
        }
        9 => {
            let ordered = field.dict_is_ordered() != Some(true);
            field.clone().with_dict_is_ordered(ordered)
        }
        10 => self::field(random, 1).with_name(field.name()),
        _ => match field.data_type() {
            DataType::Struct(children) => {
                let children = children.iter().map(|child| recorded(random, child));
                let children = structure(children.collect());
                of(random, children)
            }
            DataType::List(child) => {
                let child = recorded(random, child);
                of(random, list(child))
            }
            DataType::LargeList(child) => {
                let child = recorded(random, child);
                of(random, large_list(child))
            }
            other => of(random, other.clone()),
        },
    }
}

const TRAINS: usize = 40_000;

#[test]
fn where_the_rust_accepts_the_mode_gives_its_bytes_and_else_20_alone_tells_them_apart() {
    let [mut accepted, mut loosened, mut later, mut same] = [0; 4];
    for sheets in trains(1, TRAINS) {
        let (rust, parked) = (as_the_rust(&sheets), parked_first(&sheets));
        match (rust, parked) {
            (Ok(rust), parked) => {
                assert_eq!(parked, Ok(rust));
                accepted += 1;
            }
            (Err(rust), Err(parked)) if rust == parked => same += 1,
            (Err(rust), Ok(_)) => {
                assert_eq!(rust.number, 20);
                loosened += 1;
            }
            (Err(rust), Err(parked)) => {
                assert_eq!(rust.number, 20);
                assert!(parked.place >= rust.place, "{rust:?} {parked:?}");
                later += 1;
            }
        }
    }
    let counts = [accepted, loosened, later, same];
    assert!(
        counts.iter().all(|&count| count > TRAINS / 50),
        "{counts:?}"
    );
}

/// The sheet with the order flag of every field cleared, at every depth.
fn unordered(sheet: &[u8]) -> Vec<u8> {
    let mut bytes = sheet.to_vec();
    for place in read::sheet(sheet).unwrap().places {
        bytes[place] &= !2;
    }
    bytes
}

#[test]
fn without_order_flags_the_modes_are_one() {
    let [mut changed, mut accepted] = [0; 2];
    for sheets in trains(2, TRAINS) {
        let cleared: Vec<Vec<u8>> = sheets.iter().map(|sheet| unordered(sheet)).collect();
        let merged = parked_first(&cleared);
        assert_eq!(merged, as_the_rust(&cleared));
        changed += usize::from(cleared != sheets);
        accepted += usize::from(merged.is_ok());
    }
    assert!(changed > TRAINS / 3, "{changed}");
    assert!(
        (TRAINS / 10..TRAINS * 9 / 10).contains(&accepted),
        "{accepted}"
    );
}

/// A step down to where the merge meets other fields: a child of a struct by its name, the
/// child of a list whatever its name is.
#[derive(Clone, Debug, PartialEq, Eq, Hash)]
enum Step {
    Named(String),
    Listed,
    LargeListed,
}

/// Every field that the merge can meet, each with the way down to it, in the order of the
/// train. The merge meets the fields of one way in this order, those that fold inside one
/// sheet or one struct among them.
fn met(sheets: &[read::Sheet]) -> Vec<(Vec<Step>, &Field)> {
    let mut met = Vec::new();
    for sheet in sheets {
        for column in sheet.schema.fields() {
            meet(&mut met, vec![named(column)], column);
        }
    }
    met
}

fn meet<'a>(met: &mut Vec<(Vec<Step>, &'a Field)>, way: Vec<Step>, field: &'a Field) {
    match field.data_type() {
        DataType::Struct(children) => {
            for child in children {
                meet(met, below(&way, named(child)), child);
            }
        }
        DataType::List(child) => meet(met, below(&way, Step::Listed), child),
        DataType::LargeList(child) => meet(met, below(&way, Step::LargeListed), child),
        _ => {}
    }
    met.push((way, field));
}

fn named(field: &Field) -> Step {
    Step::Named(field.name().clone())
}

fn below(way: &[Step], step: Step) -> Vec<Step> {
    [way, &[step]].concat()
}

/// For each way down: the order flag of the first field there whose type is not Null.
type Flags = HashMap<Vec<Step>, bool>;

fn flags(sheets: &[read::Sheet]) -> Flags {
    let mut flags = Flags::new();
    for (way, field) in met(sheets) {
        if !field.data_type().is_null() {
            let ordered = field.dict_is_ordered() == Some(true);
            flags.entry(way).or_insert(ordered);
        }
    }
    flags
}

/// For each way down: the dictionary number of the first field there, Null or not.
fn first_dict_ids(sheets: &[read::Sheet]) -> HashMap<Vec<Step>, i64> {
    let mut first = HashMap::new();
    for (way, field) in met(sheets) {
        first.entry(way).or_insert_with(|| dict_id::of(field));
    }
    first
}

#[test]
fn in_both_modes_the_dictionary_number_of_the_first_field_stays() {
    let [mut taken, mut different] = [0; 2];
    for sheets in trains(4, TRAINS) {
        let logs = read::train(&train(&sheets)).unwrap();
        let first = first_dict_ids(&logs);
        for mode in [Mode::AsTheRust, Mode::ParkedFirst] {
            let Ok(table) = operations::merge(&train(&sheets), mode) else {
                continue;
            };
            let table = read::train(&table).unwrap();
            for (way, dict_id) in first_dict_ids(&table) {
                assert_eq!(first[&way], dict_id, "{way:?}");
                taken += usize::from(dict_id != 0);
            }
        }
        let others = met(&logs).into_iter();
        let mut others = others.filter(|(way, field)| first[way] != dict_id::of(field));
        different += usize::from(others.next().is_some());
    }
    assert!(
        taken > TRAINS / 2 && different > TRAINS / 10,
        "{taken} {different}"
    );
}

/// The field with those flags at every Null. The Rust lets a Null have one that was a
/// dictionary before.
fn with_flags(flags: &Flags, way: Vec<Step>, field: &Field) -> Field {
    let data_type = match field.data_type() {
        DataType::Null => {
            let ordered = flags.get(&way).copied().unwrap_or(false);
            let dictionary = dictionary(DataType::Int8, DataType::Int8);
            let field = field.clone().with_data_type(dictionary);
            return field
                .with_dict_is_ordered(ordered)
                .with_data_type(DataType::Null);
        }
        DataType::Struct(children) => {
            let children = children
                .iter()
                .map(|child| with_flags(flags, below(&way, named(child)), child));
            structure(children.collect())
        }
        DataType::List(child) => list(with_flags(flags, below(&way, Step::Listed), child)),
        DataType::LargeList(child) => {
            large_list(with_flags(flags, below(&way, Step::LargeListed), child))
        }
        other => other.clone(),
    };
    field.clone().with_data_type(data_type)
}

/// What the Rust itself gives where each Null has the flag of the first other type that comes
/// there. The flags of Nulls that are left are not written.
fn by_the_rust_with_flags(train: &[u8]) -> Outcome {
    let sheets = read::train(train)?;
    let flags = flags(&sheets);
    let mut taken = 0;
    let schemas = sheets.into_iter().map(|sheet| {
        taken += 1;
        let columns = sheet.schema.fields().iter();
        let columns = columns.map(|column| with_flags(&flags, vec![named(column)], column));
        Schema::new_with_metadata(columns.collect::<Vec<Field>>(), sheet.schema.metadata)
    });
    match Schema::try_merge(schemas) {
        Ok(merged) => Ok(write::sheet(&merged).expect("short sheets")),
        Err(error) => {
            let number = operations::clash_number(&error);
            Err(Refusal::new(number, taken - 1))
        }
    }
}

#[test]
fn the_rust_itself_gives_the_modes_answer_where_each_null_has_the_flag_that_comes_to_it() {
    let [mut taken, mut clashes] = [0; 2];
    for sheets in trains(3, 3 * TRAINS) {
        let expected = by_the_rust_with_flags(&train(&sheets));
        let merged = parked_first(&sheets);
        assert_eq!(merged, expected);
        match merged {
            Ok(_) => taken += usize::from(as_the_rust(&sheets).is_err()),
            Err(refusal) => clashes += usize::from(refusal.number == 20),
        }
    }
    // trains that only this mode accepts, and trains that it refuses for their flags
    assert!(
        taken > TRAINS / 20 && clashes > TRAINS / 20,
        "{taken} {clashes}"
    );
}
