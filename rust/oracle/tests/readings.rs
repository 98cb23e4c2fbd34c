//! The readings' examples for parameters, answers, merging, containment and equality.

mod common;

use arrow_schema::{DataType, Field, Metadata, Schema, UnionMode};
use common::{
    col, dictionary, hex, list, merge, refused, sheet, structure, train, union, v, v_nullable,
};
use oracle::operations::{
    Outcome, contains, equal, equals_datatype, filter, flattened_fields, index_of, is_nested,
    leaf_count, normalize, project, project_strict, try_from_fields, try_new,
};
use oracle::write;
use std::sync::Arc;

const YES: [u8; 1] = [1];
const NO: [u8; 1] = [0];

fn yes() -> Outcome {
    Ok(YES.to_vec())
}

fn no() -> Outcome {
    Ok(NO.to_vec())
}

fn merged(sheets: &[Vec<u8>]) -> Outcome {
    merge(&train(sheets))
}

#[test]
fn reading_14_lists() {
    let three = sheet(
        ["a", "b", "c"]
            .map(|name| col(name, DataType::Int8))
            .to_vec(),
    );
    assert_eq!(project_strict(&three, &hex("0300 0300")), refused(10, 0));
    assert_eq!(project_strict(&three, &hex("0300 0300 00")), refused(17, 0));
    assert_eq!(project(&three, &hex("05")), refused(17, 0));
    assert_eq!(
        project_strict(&three, &hex("0200 0100 0200 0900")),
        refused(11, 2)
    );
    assert_eq!(
        project_strict(&three, &hex("0200 0100 0900 0200")),
        refused(10, 2)
    );
    assert_eq!(project(&three, &hex("0200 0100 0200 0001")), refused(10, 3));
    let back = sheet(["c", "a"].map(|name| col(name, DataType::Int8)).to_vec());
    assert_eq!(project_strict(&three, &hex("0200 0000")), Ok(back.clone()));
    assert_eq!(project(&three, &hex("0200 0000")), Ok(back));
}

#[test]
fn reading_15_names() {
    let names = ["a", "", "b", "", "b"];
    let columns = sheet(names.map(|name| col(name, DataType::Int8)).to_vec());
    assert_eq!(index_of(&columns, b"b"), Ok(vec![2, 0]));
    assert_eq!(index_of(&columns, b""), Ok(vec![1, 0]));
    assert_eq!(index_of(&columns, b"c"), refused(13, 0));
    assert_eq!(index_of(&columns, b"\xff"), refused(13, 0));
    assert_eq!(index_of(&hex("00"), b""), refused(13, 0));
    // the sheet is read before the name is looked at
    assert_eq!(index_of(&hex("ff"), b"\xff"), refused(2, 0));
}

#[test]
fn reading_16_no_columns() {
    assert_eq!(is_nested(&hex("00")), Ok(vec![]));
    assert_eq!(flattened_fields(&hex("00")), Ok(vec![0, 0]));
}

#[test]
fn is_nested_looks_through_dictionaries_and_run_ends() {
    let inner = structure(vec![]);
    let run = |values: DataType| {
        let ends = Arc::new(col("run_ends", DataType::Int32));
        DataType::RunEndEncoded(ends, Arc::new(col("values", values)))
    };
    let types = [
        (DataType::Int8, 0),
        (inner.clone(), 1),
        (dictionary(DataType::Int8, DataType::Utf8), 0),
        (dictionary(inner.clone(), DataType::Utf8), 0),
        (dictionary(DataType::Int8, inner.clone()), 1),
        (
            dictionary(DataType::Int8, dictionary(DataType::Int8, inner.clone())),
            1,
        ),
        (run(DataType::Int8), 0),
        (run(run(inner)), 1),
    ];
    let columns = types
        .iter()
        .map(|(data_type, _)| col("", data_type.clone()));
    let verdicts = types.iter().map(|(_, verdict)| *verdict).collect();
    assert_eq!(is_nested(&sheet(columns.collect())), Ok(verdicts));
}

#[test]
fn reading_17_normalising() {
    let inner = col("x", dictionary(DataType::Int8, DataType::Utf8))
        .with_dict_is_ordered(true)
        .with_metadata([("k", "1")]);
    // a column that is not expanded loses metadata and order flag
    let plain = col("x", dictionary(DataType::Int8, DataType::Utf8));
    let schema = Schema::new(vec![inner.clone()]).with_metadata([("schema", "1")]);
    let bytes = write::sheet(&schema).unwrap();
    assert_eq!(normalize(&bytes, b".", 0), Ok(sheet(vec![plain.clone()])));
    // what lies inside its type stays
    let kept = v(list(inner.clone()));
    assert_eq!(normalize(&kept, b".", 0), Ok(kept));
    // an expanded child loses them too
    let nested = sheet(vec![col("s", structure(vec![inner]))]);
    let alone = sheet(vec![plain.clone().with_name("s.x")]);
    assert_eq!(normalize(&nested, b".", 0), Ok(alone));
    // a name that comes out empty has its bit clear; no columns have their bit clear
    let nameless = sheet(vec![col("", structure(vec![col("", DataType::Int8)]))]);
    assert_eq!(normalize(&nameless, b"", 0), Ok(hex("02 0100 00 02")));
    assert_eq!(normalize(&v(structure(vec![])), b".", 0), Ok(hex("00")));
    // too long a name
    assert_eq!(normalize(&nameless, &vec![b'-'; 65_536], 0), refused(30, 0));
    assert_eq!(normalize(&nameless, b"\xc3", 0), refused(18, 0));
    assert_eq!(normalize(&hex("ff"), b"\xc3", 0), refused(2, 0));
    // no struct, so the separator is not used: its text is judged all the same
    assert_eq!(normalize(&hex("00"), b"\xc3", 0), refused(18, 0));
}

#[test]
fn reading_18_numbering() {
    assert_eq!(try_new(&[5, 5], 1), refused(15, 0));
    assert_eq!(try_new(&[5, 5], 2), refused(7, 1));
    assert_eq!(try_new(&[5, 5], 3), refused(7, 1));
    assert_eq!(try_new(&[5, 6], 3), refused(14, 0));
    assert_eq!(try_new(&[5, 200, 5], 3), refused(6, 1));
    assert_eq!(try_new(&[9, 5], 2), Ok(vec![9, 5]));
    assert_eq!(try_new(&[], 0), Ok(vec![]));
    assert_eq!(try_new(&[], 1), refused(14, 0));
    assert_eq!(try_new(&[200], 0), refused(15, 0));
    assert_eq!(try_from_fields(0), Ok(vec![]));
    assert_eq!(try_from_fields(3), Ok(vec![0, 1, 2]));
    assert_eq!(try_from_fields(65_535), refused(16, 0));
}

#[test]
fn reading_19_a_full_mask_is_not_the_identity() {
    let empty = union(UnionMode::Dense, vec![]);
    let columns = vec![
        col("a", DataType::Int8),
        col("e", structure(vec![])),
        col("u", empty),
    ];
    let schema = Schema::new(columns.clone()).with_metadata([("k", "1")]);
    let bytes = write::sheet(&schema).unwrap();
    assert_eq!(leaf_count(&bytes), Ok(1));
    let kept = Schema::new(columns[..1].to_vec()).with_metadata([("k", "1")]);
    assert_eq!(filter(&bytes, &[7]), Ok(write::sheet(&kept).unwrap()));
    let none = Schema::empty().with_metadata([("k", "1")]);
    assert_eq!(filter(&bytes, &[0]), Ok(write::sheet(&none).unwrap()));
    assert_eq!(filter(&bytes, &[]), refused(12, 0));
}

#[test]
fn reading_20_flattening() {
    // v: RunEndEncoded(run ends Int16, values List(Int8)); Dictionary(List(Int8), Struct{Int8});
    // Union{7: Int8}
    let bytes = hex(
        "02 0300 04 0100 76 28 0003 00 1b 0002 00 22 1b 0002 20 0100 0002 00 21 00 0100 07 0002",
    );
    // listed: 3 (v), 10 (values), 12 (its child), 14 (the dictionary), 22 (the struct's child
    // of its value), 24 (the union), 30 (its child)
    let listed = [7, 3, 10, 12, 14, 22, 24, 30];
    let answer: Vec<u8> = listed
        .iter()
        .flat_map(|place: &u16| place.to_le_bytes())
        .collect();
    assert_eq!(flattened_fields(&bytes), Ok(answer));
}

#[test]
fn reading_22_equal_bytes_are_no_shortcut() {
    let twice = |second| structure(vec![col("a", DataType::Int8), col("a", second)]);
    let folding = v(twice(DataType::Int8));
    let once = v(structure(vec![col("a", DataType::Int8)]));
    assert_eq!(
        merged(&[folding.clone(), folding.clone()]),
        Ok(once.clone())
    );
    // against any Struct, even an empty one
    let empty = v(structure(vec![]));
    assert_eq!(merged(&[folding.clone(), empty.clone()]), Ok(once.clone()));
    assert_eq!(merged(&[empty.clone(), folding.clone()]), Ok(once));
    let clashing = v(twice(DataType::Int16));
    assert_eq!(merged(&[clashing.clone(), empty.clone()]), refused(22, 1));
    assert_eq!(merged(&[empty, clashing.clone()]), refused(22, 1));
    // kept unfolded against Null in both orders
    let kept = v_nullable(twice(DataType::Int16));
    let null = v(DataType::Null);
    assert_eq!(merged(&[null.clone(), clashing.clone()]), Ok(kept.clone()));
    assert_eq!(merged(&[clashing, null]), Ok(kept));
}

#[test]
fn reading_23_the_columns_of_one_sheet_fold() {
    let of = |first| sheet(vec![col("a", first), col("a", DataType::Int16)]);
    assert_eq!(merge(&of(DataType::Int8)), refused(22, 0));
    let folded = sheet(vec![Field::new("a", DataType::Int16, true)]);
    assert_eq!(merge(&of(DataType::Null)), Ok(folded));
}

#[test]
fn reading_24_where_null_takes_a_type() {
    let around = |inner: DataType| {
        let child = Arc::new(col("c", inner.clone()));
        let reached = vec![
            structure(vec![col("c", inner.clone())]),
            DataType::List(child.clone()),
            DataType::LargeList(child.clone()),
        ];
        let compared = vec![
            DataType::ListView(child.clone()),
            DataType::LargeListView(child.clone()),
            DataType::FixedSizeList(child.clone(), 2),
            DataType::Map(child.clone(), false),
            dictionary(DataType::Int8, inner.clone()),
            DataType::RunEndEncoded(Arc::new(col("r", DataType::Int16)), child),
        ];
        (reached, compared)
    };
    let (reached, compared) = around(DataType::Null);
    let (typed, other) = around(DataType::Int8);
    for (null, typed) in reached.into_iter().zip(typed) {
        assert!(merged(&[v(null), v(typed)]).is_ok());
    }
    for (null, typed) in compared.into_iter().zip(other) {
        assert_eq!(merged(&[v(null), v(typed)]), refused(22, 1));
    }
}

#[test]
fn readings_25_to_28_clashes_and_their_order() {
    let ordered = |flag| {
        let column = col("v", dictionary(DataType::Int8, DataType::Utf8));
        sheet(vec![column.with_dict_is_ordered(flag)])
    };
    let null = v(DataType::Null);
    assert_eq!(merged(&[null.clone(), ordered(true)]), refused(20, 1));
    assert_eq!(merged(&[ordered(true), null.clone()]), refused(20, 1));
    let children = vec![(0, col("x", DataType::Int8))];
    let of = |children| union(UnionMode::Dense, children);
    let a_union = v(of(children.clone()));
    let kept = v_nullable(of(children));
    assert_eq!(merged(&[a_union, null]), Ok(kept));
    // 26: inside, order flags do not count, and the first sheet's bytes survive
    let inside = |flag| {
        let child = col("c", dictionary(DataType::Int8, DataType::Utf8));
        v(DataType::ListView(Arc::new(
            child.with_dict_is_ordered(flag),
        )))
    };
    assert_eq!(merged(&[inside(true), inside(false)]), Ok(inside(true)));
    assert_eq!(merged(&[inside(false), inside(true)]), Ok(inside(false)));
    // 27: children that differ in nullability alone are two; 23 is met before 24
    let x = |nullable| Field::new("x", DataType::Int8, nullable);
    let one = v(of(vec![(0, x(false))]));
    assert_eq!(
        merged(&[one.clone(), v(of(vec![(0, x(true))]))]),
        refused(24, 1)
    );
    let both = v(of(vec![(0, x(true)), (1, x(false))]));
    assert_eq!(merged(&[one, both]), refused(23, 1));
    let equal_pair = v(of(vec![(0, x(false)), (1, x(false))]));
    assert_eq!(merged(&[v(of(vec![])), equal_pair]), refused(23, 1));
}

#[test]
fn reading_28_metadata_and_flags_before_types() {
    let of = |schema: &str, field: &str, flag: bool, value: DataType| {
        let column = col("v", dictionary(DataType::Int8, value))
            .with_dict_is_ordered(flag)
            .with_metadata([("k", field)]);
        let schema = Schema::new(vec![column]).with_metadata([("s", schema)]);
        write::sheet(&schema).unwrap()
    };
    let first = of("1", "1", false, DataType::Utf8);
    let cases = [
        (of("2", "2", true, DataType::Int8), refused(25, 1)),
        (of("1", "2", true, DataType::Int8), refused(20, 1)),
        (of("1", "2", false, DataType::Int8), refused(21, 1)),
        (of("1", "1", false, DataType::Int8), refused(22, 1)),
        (of("1", "1", false, DataType::Utf8), Ok(first.clone())),
    ];
    for (second, expected) in cases {
        assert_eq!(merged(&[first.clone(), second]), expected);
    }
}

#[test]
fn reading_29_what_grows_past_every_count_still_clashes() {
    // ten sheets with 7,000 keys each: 70,000 keys on the way
    let of = |pairs: Metadata| write::sheet(&Schema::empty().with_metadata(pairs)).unwrap();
    let keys = |from: usize| {
        of((from..from + 7_000)
            .map(|n| (format!("{n:05}"), ""))
            .collect())
    };
    let mut sheets: Vec<_> = (0..10).map(|n| keys(7_000 * n)).collect();
    assert_eq!(merged(&sheets), refused(30, 0));
    sheets.push(of(Metadata::from([("00003", "1")])));
    assert_eq!(merged(&sheets), refused(25, 10));
    // columns that are too long for one sheet
    let names = |from: usize| {
        let columns = (from..from + 700).map(|n| col(&format!("{n:050}"), DataType::Int8));
        sheet(columns.collect())
    };
    assert_eq!(merged(&[names(0), names(700)]), refused(30, 0));
    let clash = sheet(vec![col(&format!("{:050}", 3), DataType::Int16)]);
    assert_eq!(merged(&[names(0), names(700), clash]), refused(22, 2));
}

#[test]
fn reading_30_containment() {
    let x = |nullable| Field::new("x", DataType::Int8, nullable);
    let (wide, narrow) = (Arc::new(x(true)), Arc::new(x(false)));
    let ends = Arc::new(col("r", DataType::Int16));
    let run = |values: &Arc<Field>| v(DataType::RunEndEncoded(ends.clone(), values.clone()));
    assert_eq!(contains(&run(&wide), &run(&narrow)), no());
    assert_eq!(contains(&run(&wide), &run(&wide)), yes());
    let sized = |child: &Arc<Field>, size| v(DataType::FixedSizeList(child.clone(), size));
    assert_eq!(contains(&sized(&wide, 2), &sized(&narrow, 2)), yes());
    assert_eq!(contains(&sized(&narrow, 2), &sized(&wide, 2)), no());
    assert_eq!(contains(&sized(&wide, 2), &sized(&narrow, 3)), no());
    let map = |child: &Arc<Field>, sorted| v(DataType::Map(child.clone(), sorted));
    assert_eq!(contains(&map(&wide, true), &map(&narrow, true)), yes());
    assert_eq!(contains(&map(&wide, true), &map(&narrow, false)), no());
    let inside = |child: &Arc<Field>| {
        let held = DataType::List(child.clone());
        v(dictionary(held.clone(), held))
    };
    assert_eq!(contains(&inside(&wide), &inside(&narrow)), yes());
    assert_eq!(contains(&inside(&narrow), &inside(&wide)), no());
    // plain equality does not imply containment
    let flags = [true, false].map(|flag| {
        let column = col("v", dictionary(DataType::Int8, DataType::Utf8));
        sheet(vec![column.with_dict_is_ordered(flag)])
    });
    assert_eq!(equal(&flags[0], &flags[1]), yes());
    assert_eq!(contains(&flags[0], &flags[1]), no());
    // schema metadata counts in containment
    let described = Schema::empty().with_metadata([("k", "1")]);
    let described = write::sheet(&described).unwrap();
    assert_eq!(contains(&described, &hex("00")), yes());
    assert_eq!(contains(&hex("00"), &described), no());
}

#[test]
fn reading_31_equalities() {
    let (x, y) = (col("x", DataType::Int8), col("y", DataType::Utf8));
    let of = |children| v(union(UnionMode::Dense, children));
    let one = of(vec![(0, x.clone()), (1, y.clone())]);
    let turned = of(vec![(1, y), (0, x)]);
    assert_eq!(equals_datatype(&one, &turned), yes());
    assert_eq!(equal(&one, &turned), no());
    let described = Schema::empty().with_metadata([("k", "1")]);
    let described = write::sheet(&described).unwrap();
    assert_eq!(equal(&described, &hex("00")), yes());
    assert_eq!(equals_datatype(&described, &hex("00")), yes());
    let names = ["a", "b"].map(|name| sheet(vec![col(name, DataType::Int8)]));
    assert_eq!(equal(&names[0], &names[1]), no());
    assert_eq!(equals_datatype(&names[0], &names[1]), yes());
    assert_eq!(
        equals_datatype(&names[0], &v_nullable(DataType::Int8)),
        no()
    );
}
