//! Reading what was written gives the schema again, and writing what was read the bytes.

mod common;

use arrow_schema::{DataType, Field, Schema};
use common::named;
use oracle::random::{Random, deep, schema};
use oracle::{dict_id, read, write};

/// The debug form shows what plain equality leaves out: the order flags, and the dictionary
/// numbers, on every type.
fn same(one: &Schema, other: &Schema) -> bool {
    one == other && format!("{one:?}") == format!("{other:?}")
}

fn check(schema: &Schema) {
    let bytes = write::sheet(schema).unwrap();
    assert_eq!(bytes.len() as u64, write::length(schema));
    let read = read::sheet(&bytes).unwrap().schema;
    assert!(same(schema, &read), "{schema:?}\n{read:?}");
    assert_eq!(write::sheet(&read), Ok(bytes));
}

#[test]
fn random_schemas_come_back() {
    let mut random = Random::new(1);
    (0..20_000).for_each(|_| check(&schema(&mut random)));
}

#[test]
fn every_type_comes_up_with_a_dictionary_number_and_without() {
    let mut random = Random::new(1);
    let mut codes = [[0; 41]; 2];
    for _ in 0..10_000 {
        let column = oracle::random::field(&mut random, 3);
        let numbered = usize::from(dict_id::of(&column) != 0);
        let plain = dict_id::with(&column, 0).with_name("");
        let schema = Schema::new(vec![plain.with_metadata([("", ""); 0])]);
        let bytes = write::sheet(&schema).unwrap();
        codes[numbered][usize::from(bytes[4])] += 1;
    }
    let mut counts = codes.iter().flatten();
    assert!(counts.all(|&count| count > 0), "{codes:?}");
}

#[test]
fn deep_schemas_come_back_to_level_32_and_are_5_past_it() {
    let mut random = Random::new(2);
    for levels in 1..=40 {
        for _ in 0..50 {
            let schema = deep(&mut random, levels);
            if levels <= 32 {
                check(&schema);
            } else {
                let refusal = read::sheet(&write::sheet(&schema).unwrap()).unwrap_err();
                assert_eq!(refusal.number, 5, "{schema:?}");
            }
        }
    }
}

#[test]
fn whatever_is_accepted_is_the_one_sheet_of_its_schema() {
    let mut random = Random::new(3);
    let mut accepted = 0;
    for _ in 0..60_000 {
        let mut bytes = write::sheet(&schema(&mut random)).unwrap();
        let place = random.below(bytes.len());
        bytes[place] ^= 1 << random.below(8);
        if let Ok(read) = read::sheet(&bytes) {
            accepted += 1;
            assert_eq!(write::sheet(&read.schema), Ok(bytes));
        }
    }
    assert!(accepted > 1000, "only {accepted} damaged sheets read");
}

#[test]
fn a_sheet_has_65_535_bytes_at_most() {
    let of = |bytes: usize| Schema::new(vec![Field::new("n".repeat(bytes), DataType::Int8, false)]);
    assert_eq!(write::sheet(&of(65_528)), Ok(named(65_528)));
    assert_eq!(write::sheet(&of(65_529)), Err(write::TooLong));
    assert_eq!(write::layout(&of(65_535)), Ok(named(65_535)));
    assert_eq!(write::layout(&of(65_536)), Err(write::TooLong));
    assert_eq!(write::length(&of(1_000_000)), 1_000_007);
}

#[test]
fn no_zone_and_the_empty_zone_are_two_types() {
    let of = |zone: Option<&str>| {
        let unit = arrow_schema::TimeUnit::Second;
        common::v(DataType::Timestamp(unit, zone.map(Into::into)))
    };
    assert_eq!(of(None), common::hex("02 0100 04 0100 76 0d 00 00"));
    assert_eq!(
        of(Some("")),
        common::hex("02 0100 04 0100 76 0d 00 01 0000")
    );
}
