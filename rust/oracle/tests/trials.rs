//! Document 01's bench trials: P1 to P12, and its 'Run:' line.

mod common;

use arrow_schema::{DataType, Field, Schema, UnionMode};
use common::{
    at_level, col, dictionary, hex, list, merge, named, refused, sheet, structure, train, union, v,
    v_nullable,
};
use oracle::operations::{
    contains, filter, is_nested, leaf_count, normalize, project, project_strict, try_from_fields,
    try_new,
};

#[test]
fn p1_an_empty_train_is_the_byte_00() {
    assert_eq!(merge(&[]), Ok(hex("00")));
}

#[test]
fn p2_null_alone_is_unchanged() {
    assert_eq!(merge(&v(DataType::Null)), Ok(v(DataType::Null)));
}

#[test]
fn p3_null_takes_the_type_and_becomes_nullable() {
    let both = hex("02 01 00 04 01 00 76 00 02 01 00 04 01 00 76 04");
    assert_eq!(both, train(&[v(DataType::Null), v(DataType::Int32)]));
    assert_eq!(merge(&both), Ok(hex("02 01 00 05 01 00 76 04")));
}

#[test]
fn p4_null_twice_is_nullable_null() {
    let twice = train(&[v(DataType::Null), v(DataType::Null)]);
    assert_eq!(merge(&twice), Ok(v_nullable(DataType::Null)));
}

#[test]
fn p5_null_then_an_ordered_dictionary_is_20_at_1() {
    let ordered = col("v", dictionary(DataType::Int8, DataType::Utf8)).with_dict_is_ordered(true);
    let both = train(&[v(DataType::Null), sheet(vec![ordered])]);
    assert_eq!(merge(&both), refused(20, 1));
}

#[test]
fn p6_a_union_of_two_equal_children_twice_is_23_at_1() {
    let children = vec![(0, col("x", DataType::Int8)), (1, col("x", DataType::Int8))];
    let one = v(union(UnionMode::Sparse, children));
    assert_eq!(merge(&train(&[one.clone(), one])), refused(23, 1));
}

#[test]
fn p7_the_first_mode_stays_and_children_join() {
    let x = (0, col("x", DataType::Int8));
    let y = (1, col("y", DataType::Int8));
    let sparse = v(union(UnionMode::Sparse, vec![x.clone()]));
    let dense = v(union(UnionMode::Dense, vec![y.clone()]));
    let both = v(union(UnionMode::Sparse, vec![x, y]));
    assert_eq!(merge(&train(&[sparse, dense])), Ok(both));
}

#[test]
fn p8_a_lists_child_keeps_the_first_name() {
    let item = v(list(col("item", DataType::Int8)));
    let element = v(list(col("element", DataType::Int8)));
    assert_eq!(merge(&train(&[item.clone(), element])), Ok(item));
}

#[test]
fn p9_normalising_with_and_without_a_level() {
    let empty = structure(vec![]);
    let s = structure(vec![col("a", DataType::Int32), col("e", empty.clone())]);
    let nested = sheet(vec![col("s", s)]);
    let a = col("s.a", DataType::Int32);
    assert_eq!(normalize(&nested, b".", 0), Ok(sheet(vec![a.clone()])));
    let both = sheet(vec![a, col("s.e", empty)]);
    assert_eq!(normalize(&nested, b".", 1), Ok(both));
}

#[test]
fn p10_a_repeated_index() {
    let one = v(DataType::Int8);
    let twice = sheet(vec![col("v", DataType::Int8), col("v", DataType::Int8)]);
    assert_eq!(project(&one, &[0, 0, 0, 0]), Ok(twice));
    assert_eq!(project_strict(&one, &[0, 0, 0, 0]), refused(11, 1));
}

#[test]
fn p11_a_dictionary_of_a_dictionary_of_a_struct_is_one_leaf() {
    let inner = structure(vec![col("a", DataType::Int8), col("b", DataType::Int8)]);
    let twice = v(dictionary(
        DataType::Int8,
        dictionary(DataType::Int8, inner.clone()),
    ));
    assert_eq!(leaf_count(&twice), Ok(1));
    assert_eq!(filter(&twice, &[1]), Ok(twice.clone()));
    assert_eq!(filter(&twice, &[0]), Ok(hex("00")));
    assert_eq!(filter(&twice, &[1, 1]), refused(12, 0));
    assert_eq!(leaf_count(&v(dictionary(DataType::Int8, inner))), Ok(2));
}

#[test]
fn p12_an_empty_union_contains_more_than_it_holds() {
    let empty = v(union(UnionMode::Dense, vec![]));
    let child = (3, col("x", DataType::Int8));
    let one = v(union(UnionMode::Dense, vec![child.clone()]));
    assert_eq!(contains(&empty, &one), Ok(vec![1]));
    assert_eq!(contains(&one, &empty), Ok(vec![0]));
    let sparse = v(union(UnionMode::Sparse, vec![child]));
    assert_eq!(contains(&empty, &sparse), Ok(vec![0]));
}

#[test]
fn run_level_32_and_33() {
    let (bytes, _) = at_level(32, "00 02");
    assert_eq!(is_nested(&bytes), Ok(vec![1]));
    assert_eq!(merge(&bytes), Ok(bytes.clone()));
    let (bytes, place) = at_level(33, "00 02");
    assert_eq!(is_nested(&bytes), refused(5, place));
    assert_eq!(merge(&bytes), refused(5, place));
}

#[test]
fn run_256_and_257_sheets() {
    let one = v(DataType::Int8);
    assert_eq!(merge(&train(&vec![one.clone(); 256])), Ok(one.clone()));
    let train = train(&vec![one.clone(); 257]);
    assert_eq!(merge(&train), refused(33, 256 * one.len()));
}

#[test]
fn run_65_535_and_65_536_bytes() {
    assert_eq!(merge(&named(65_528)), Ok(named(65_528)));
    assert_eq!(merge(&named(65_529)), refused(9, 65_535));
    // answers of 65,535 and 65,536 bytes: a second column of another name
    let first = named(30_000);
    for (name, expected) in [(35_524, 65_535), (35_525, 65_536)] {
        let column = Field::new("m".repeat(name), DataType::Int8, false);
        let merged = merge(&train(&[first.clone(), sheet(vec![column])]));
        match expected {
            65_535 => assert_eq!(merged.unwrap().len(), expected),
            _ => assert_eq!(merged, refused(30, 0)),
        }
    }
}

#[test]
fn run_id_127_and_128() {
    let with_id = |id: &str| hex(&format!("02 0100 00 21 00 0100 {id} 0002"));
    assert_eq!(is_nested(&with_id("7f")), Ok(vec![1]));
    assert_eq!(is_nested(&with_id("80")), refused(6, 8));
    assert_eq!(try_new(&[127], 1), Ok(vec![127]));
    assert_eq!(try_new(&[128], 1), refused(6, 0));
    assert_eq!(try_from_fields(128), Ok((0..128).collect()));
    assert_eq!(try_from_fields(129), refused(16, 0));
}

#[test]
fn run_index_0_of_no_columns() {
    assert_eq!(project(&hex("00"), &[0, 0]), refused(10, 0));
    assert_eq!(project_strict(&hex("00"), &[0, 0]), refused(10, 0));
    assert_eq!(project(&hex("00"), &[]), Ok(hex("00")));
}

#[test]
fn run_a_struct_that_holds_a_name_twice() {
    let twice = structure(vec![col("a", DataType::Int8), col("a", DataType::Int16)]);
    let one = v(twice);
    assert_eq!(merge(&one), Ok(one.clone()));
    assert_eq!(merge(&train(&[one.clone(), one])), refused(22, 1));
}

#[test]
fn the_small_programs_line_for_p3() {
    let merged = merge(&hex("0201000401007600 0201000401007604")).unwrap();
    let printed: String = merged.iter().map(|byte| format!("{byte:02x}")).collect();
    assert_eq!(printed, "0201000501007604");
}

#[test]
fn tempting_and_wrong() {
    // struct children are merged by name, not by position
    let [a, b] = ["a", "b"].map(|name| col(name, DataType::Int8));
    let wide = Field::new("b", DataType::Int16, false);
    let ab = v(structure(vec![a.clone(), b.clone()]));
    let ba = v(structure(vec![b, a]));
    assert_eq!(merge(&train(&[ab.clone(), ba])), Ok(ab.clone()));
    let other = v(structure(vec![wide]));
    assert_eq!(merge(&train(&[ab, other])), refused(22, 1));
    // a struct's nullability is not handed down
    let inner = structure(vec![col("a", DataType::Int8)]);
    let nullable = sheet(vec![Field::new("s", inner, true)]);
    assert_eq!(
        normalize(&nullable, b".", 0),
        Ok(sheet(vec![col("s.a", DataType::Int8)]))
    );
    // order flags do not count in plain equality
    let flat = col("v", dictionary(DataType::Int8, DataType::Utf8));
    let ordered = flat.clone().with_dict_is_ordered(true);
    let sheets = [flat, ordered].map(|column| sheet(vec![column]));
    assert_eq!(
        oracle::operations::equal(&sheets[0], &sheets[1]),
        Ok(vec![1])
    );
    let schema = Schema::empty();
    assert_eq!(oracle::write::sheet(&schema), Ok(hex("00")));
}
