//! The dictionary number, `dict_id` (document 02, Item 13): the Rust's rules on a few bytes
//! each, and on many random sheets that it changes nothing else.

mod common;

use arrow_schema::{DataType, Field};
use common::{hex, merge, refused, train, with_dict_ids, without_dict_ids};
use oracle::operations::{
    self, Mode, Outcome, contains, equal, equals_datatype, filter, flattened_fields, index_of,
    is_nested, leaf_count, normalize, project, project_strict,
};
use oracle::random::{self, Random};
use oracle::{dict_id, read, write};

const MODES: [Mode; 2] = [Mode::AsTheRust, Mode::ParkedFirst];

/// The dictionary numbers 1, 2, 3 and -1 as they stand in a sheet.
const ONE: &str = "0100000000000000";
const TWO: &str = "0200000000000000";
const THREE: &str = "0300000000000000";
const MINUS: &str = "ffffffffffffffff";

/// The sheet of a column `v` with this map, and behind its name these bytes.
fn v(map: &str, rest: &str) -> Vec<u8> {
    hex(&format!("02 0100 {map} 0100 76 {rest}"))
}

/// The field's own dictionary number as the debug form shows it.
fn debugged(field: &Field) -> i64 {
    let shown = field.clone().with_data_type(DataType::Boolean);
    let shown = format!("{shown:?}");
    shown.split_once("dict_id: ").map_or(0, |(_, dict_id)| {
        let end = dict_id.find([',', ' ']).unwrap();
        dict_id[..end].parse().unwrap()
    })
}

#[test]
fn it_is_seen_on_every_type_and_changed_alone() {
    let mut random = Random::new(1);
    let mut seen = 0;
    for _ in 0..20_000 {
        let field = random::field(&mut random, 3);
        let own = dict_id::of(&field);
        assert_eq!(own, debugged(&field));
        seen += usize::from(own != 0);
        for other in [0, 1, -1, i64::MIN, i64::MAX] {
            let changed = dict_id::with(&field, other);
            assert_eq!(dict_id::of(&changed), other);
            // the debug form shows all there is
            let back = dict_id::with(&changed, own);
            assert_eq!(format!("{back:?}"), format!("{field:?}"));
        }
    }
    assert!((2000..8000).contains(&seen), "{seen} of 20,000");
}

#[test]
fn it_is_read_and_written_as_the_bytes_have_it() {
    let stored = [
        ("0100000000000000", 1),
        ("ffffffffffffffff", -1),
        ("0000000000000080", i64::MIN),
        ("ffffffffffffff7f", i64::MAX),
        ("0001000000000000", 256),
        ("0000000001000000", 1 << 32),
        ("0807060504030201", 0x0102_0304_0506_0708),
    ];
    for (bytes, dict_id) in stored {
        for data_type in [
            "00",
            "02",
            "22 02 18",
            "1b 00 02",
            "20 0000",
            "28 0003 0002",
        ] {
            let sheet = v("14", &format!("{bytes} {data_type}"));
            let schema = read::sheet(&sheet).unwrap().schema;
            assert_eq!(debugged(schema.field(0)), dict_id);
            assert_eq!(write::sheet(&schema), Ok(sheet.clone()));
            assert_eq!(write::length(&schema), sheet.len() as u64);
        }
    }
}

/// In both modes a train of these two is merged into this.
fn merges(one: &[u8], other: &[u8], table: &[u8]) {
    for mode in MODES {
        let merged = operations::merge(&[one, other].concat(), mode);
        assert_eq!(merged, Ok(table.to_vec()), "{mode:?}");
    }
}

#[test]
fn merging_keeps_the_first_columns() {
    for data_type in ["02", "22 02 18", "0d 00 01 0000", "21 00 0000", "20 0000"] {
        let of = |dict_id: &str| v("14", &format!("{dict_id} {data_type}"));
        let none = v("04", data_type);
        for [first, second] in [[ONE, TWO], [TWO, MINUS], [ONE, ONE]] {
            merges(&of(first), &of(second), &of(first));
        }
        merges(&of(ONE), &none, &of(ONE));
        merges(&none, &of(ONE), &none);
        let three = train(&[none.clone(), of(ONE), of(TWO)]);
        assert_eq!(merge(&three), Ok(none));
    }
}

#[test]
fn a_null_that_takes_a_type_keeps_its_own_and_takes_those_inside() {
    let [null, none] = [v("14", &format!("{ONE} 00")), v("04", "00")];
    let other = v("14", &format!("{TWO} 04"));
    merges(&null, &other, &v("15", &format!("{ONE} 04")));
    merges(&none, &other, &v("05", "04"));
    merges(&null, &v("04", "04"), &v("15", &format!("{ONE} 04")));
    // the later Null changes nothing of it
    merges(&other, &null, &v("15", &format!("{TWO} 04")));
    merges(&v("04", "04"), &null, &v("05", "04"));
    merges(&null, &none, &v("15", &format!("{ONE} 00")));
    // inside the type, where the merge reaches and where it does not
    for inside in [
        "1b 10 {} 02",
        "20 0100 10 {} 02",
        "1c 10 {} 02",
        "22 02 1b 10 {} 02",
    ] {
        let inside = inside.replace("{}", THREE);
        let typed = v("14", &format!("{TWO} {inside}"));
        merges(&null, &typed, &v("15", &format!("{ONE} {inside}")));
        merges(&none, &typed, &v("05", &inside));
        merges(&typed, &null, &v("15", &format!("{TWO} {inside}")));
    }
}

#[test]
fn the_children_that_the_merge_reaches_keep_the_firsts_too() {
    let places = [
        // Struct, List and LargeList, List of Struct
        "20 0100 {map} 0100 63 {}",
        "1b {map} 0100 63 {}",
        "1e {map} 0100 63 {}",
        "1b 00 20 0100 {map} 0100 63 {}",
    ];
    for place in places {
        let of = |map: &str, rest: &str| v("04", &place.replace("{map}", map).replace("{}", rest));
        let [one, two, none] = [
            of("14", &format!("{ONE} 02")),
            of("14", &format!("{TWO} 02")),
            of("04", "02"),
        ];
        merges(&one, &two, &one);
        merges(&two, &one, &two);
        merges(&one, &none, &one);
        merges(&none, &one, &none);
        let null = of("14", &format!("{THREE} 00"));
        merges(&null, &one, &of("15", &format!("{THREE} 02")));
        merges(&one, &null, &of("15", &format!("{ONE} 02")));
    }
}

#[test]
fn the_columns_of_one_sheet_fold_into_the_first() {
    let of = |first: &str, second: &str| {
        let column = |dict_id: &str, code: &str| format!("14 0100 76 {dict_id} {code}");
        let pair = [column(first, "00"), column(second, "02")].concat();
        hex(&format!("02 0200 {pair}"))
    };
    assert_eq!(merge(&of(ONE, TWO)), Ok(v("15", &format!("{ONE} 02"))));
    assert_eq!(merge(&of(TWO, ONE)), Ok(v("15", &format!("{TWO} 02"))));
}

/// Types that differ in a dictionary number alone, for which `{}` stands, and that no merge
/// goes into: ListView, LargeListView, FixedSizeList, Map, Dictionary by its key and by its
/// value, RunEndEncoded by its run ends and by its values.
const COMPARED: [&str; 8] = [
    "1c {} 02",
    "1f {} 02",
    "1d 02000000 {} 02",
    "27 00 {} 02",
    "22 1b {} 02 18",
    "22 02 20 0100 {} 02",
    "28 {} 03 00 02",
    "28 0003 {} 02",
];

/// The sheet of a column of this type with a dictionary number in the place of `{}`, or none.
fn holding(data_type: &str, dict_id: Option<&str>) -> Vec<u8> {
    let map = dict_id.map_or("00".to_owned(), |dict_id| format!("10 {dict_id}"));
    v("04", &data_type.replace("{}", &map))
}

#[test]
fn all_other_types_are_equal_whatever_they_carry_and_the_first_stays() {
    for data_type in COMPARED {
        let [none, one, two] = [None, Some(ONE), Some(TWO)].map(|it| holding(data_type, it));
        merges(&one, &two, &one);
        merges(&two, &one, &two);
        merges(&one, &none, &one);
        merges(&none, &one, &none);
        // other types are others all the same
        let other = holding(&data_type.replace(" 02", " 06"), Some(ONE));
        assert_eq!(merge(&train(&[one, other])), refused(22, 1));
    }
}

#[test]
fn union_children_are_matched_without_it() {
    let of = |children: &[(&str, &str)]| {
        let count = children.len();
        let children = children
            .iter()
            .map(|(id, dict_id)| format!("{id} 14 0100 78 {dict_id} 02"));
        let children: String = children.collect();
        v("04", &format!("21 00 0{count}00 {children}"))
    };
    let one = of(&[("00", ONE)]);
    merges(&one, &of(&[("00", TWO)]), &one);
    assert_eq!(
        merge(&train(&[one.clone(), of(&[("01", TWO)])])),
        refused(23, 1)
    );
    // P6: two children that are equal but for it
    let twice = of(&[("00", ONE), ("01", TWO)]);
    assert_eq!(merge(&twice), Ok(twice.clone()));
    assert_eq!(merge(&train(&[twice.clone(), twice])), refused(23, 1));
    // under one id it is one child, never 24
    let none = v("04", "21 00 0100 00 04 0100 78 02");
    merges(&none, &one, &none);
    merges(&one, &none, &one);
}

#[test]
fn verdicts_are_given_without_it() {
    let mut pairs = vec![
        [v("14", &format!("{ONE} 02")), v("14", &format!("{TWO} 02"))],
        [v("14", &format!("{ONE} 00")), v("04", "00")],
        [
            v("04", &format!("21 01 0100 05 10 {ONE} 02")),
            v("04", "21 01 0100 05 00 02"),
        ],
        [
            v("04", &format!("1b 10 {ONE} 02")),
            v("04", &format!("1b 10 {TWO} 02")),
        ],
    ];
    for data_type in COMPARED {
        pairs.push([None, Some(ONE)].map(|it| holding(data_type, it)));
        pairs.push([Some(TWO), Some(ONE)].map(|it| holding(data_type, it)));
    }
    for [one, other] in pairs {
        for (first, second) in [(&one, &other), (&other, &one)] {
            assert_eq!(equal(first, second), Ok(vec![1]));
            assert_eq!(equals_datatype(first, second), Ok(vec![1]));
            assert_eq!(contains(first, second), Ok(vec![1]));
        }
    }
}

#[test]
fn projecting_and_filtering_keep_it_on_rebuilt_fields_too() {
    let one = v("14", &format!("{ONE} 02"));
    let twice = hex(&format!("02 0200 14 0100 76 {ONE} 02 14 0100 76 {ONE} 02"));
    assert_eq!(project(&one, &[0, 0, 0, 0]), Ok(twice));
    assert_eq!(project_strict(&one, &[0, 0]), Ok(one.clone()));
    assert_eq!(filter(&one, &[1]), Ok(one));
    // a child goes, so all around it is built anew: Struct, List, Union, Dictionary, and both
    // fields of RunEndEncoded
    let both = format!("0200 10 {TWO} 02 10 {THREE} 03");
    let left = format!("0100 10 {THREE} 03");
    for around in [
        "20 {}",
        "1b 10 {MINUS} 20 {}",
        "22 02 20 {}",
        "28 10 {ONE} 03 10 {MINUS} 20 {}",
    ] {
        let of = |children: &str| {
            let around = around.replace("{ONE}", ONE).replace("{MINUS}", MINUS);
            v("14", &format!("{ONE} {}", around.replace("{}", children)))
        };
        assert_eq!(filter(&of(&both), &[0, 1]), Ok(of(&left)));
        assert_eq!(filter(&of(&both), &[1, 1]), Ok(of(&both)));
        assert_eq!(filter(&of(&both), &[0, 0]), Ok(hex("00")));
    }
}

#[test]
fn normalising_drops_a_written_columns_own_and_keeps_those_inside() {
    let inside = format!("1b 10 {THREE} 02");
    let plain = v("15", &format!("{ONE} {inside}"));
    assert_eq!(normalize(&plain, b".", 0), Ok(v("05", &inside)));
    // the expanded struct's goes with it, and the child's own too
    let nested = v("14", &format!("{ONE} 20 0100 14 0100 61 {TWO} {inside}"));
    let flat = hex(&format!("02 0100 04 0300 762e61 {inside}"));
    assert_eq!(normalize(&nested, b".", 0), Ok(flat));
    // past the level it stands inside the type
    let deep = v(
        "14",
        &format!("{ONE} 20 0100 10 {TWO} 20 0100 10 {MINUS} 02"),
    );
    let once = hex(&format!("02 0100 04 0200 762e 20 0100 10 {MINUS} 02"));
    assert_eq!(normalize(&deep, b".", 1), Ok(once));
}

#[test]
fn looking_up_and_counting_pass_it_by() {
    let sheet = hex(&format!(
        "02 0300 10 {ONE} 02 14 0100 76 {TWO} 20 0200 10 {ONE} 02 00 18 14 0100 76 {ONE} 1b 00 02"
    ));
    let listed = [6, 3, 13, 28, 38, 40, 53_u16];
    let listed: Vec<u8> = listed.into_iter().flat_map(u16::to_le_bytes).collect();
    assert_eq!(flattened_fields(&sheet), Ok(listed));
    assert_eq!(index_of(&sheet, b"v"), Ok(vec![1, 0]));
    assert_eq!(index_of(&sheet, b""), Ok(vec![0, 0]));
    assert_eq!(is_nested(&sheet), Ok(vec![0, 1, 1]));
    assert_eq!(leaf_count(&sheet), Ok(4));
}

#[test]
fn parked_log_first_the_flag_comes_with_the_type_and_the_dictionary_number_stays() {
    let parked = |sheets: &[&[u8]]| operations::merge(&sheets.concat(), Mode::ParkedFirst);
    let null = v("14", &format!("{ONE} 00"));
    let ordered = v("16", &format!("{TWO} 22 02 18"));
    let table = v("17", &format!("{ONE} 22 02 18"));
    assert_eq!(parked(&[&null, &ordered]), Ok(table.clone()));
    assert_eq!(merge(&[&null[..], &ordered].concat()), refused(20, 1));
    assert_eq!(parked(&[&null, &null, &ordered]), Ok(table));
    let table = v("17", &format!("{TWO} 22 02 18"));
    assert_eq!(parked(&[&ordered, &null]), Ok(table));
    let none = v("04", "00");
    assert_eq!(parked(&[&none, &ordered]), Ok(v("07", "22 02 18")));
    let unnumbered = v("06", "22 02 18");
    let table = v("17", &format!("{ONE} 22 02 18"));
    assert_eq!(parked(&[&null, &unnumbered]), Ok(table));
    assert_eq!(parked(&[&unnumbered, &null]), Ok(v("07", "22 02 18")));
}

/// What docs/DIFFERENCES.md says of the search that no call asks for.
#[test]
fn the_crates_own_search_finds_dictionaries_alone() {
    let columns = [
        format!("14 0100 61 {ONE} 22 02 18"),
        format!("14 0100 62 {ONE} 02"),
        format!("04 0100 63 1b 14 0100 64 {ONE} 22 02 18"),
        "04 0100 65 22 02 18".to_owned(),
    ];
    let sheet = hex(&format!("02 0400 {}", columns.concat()));
    let schema = read::sheet(&sheet).unwrap().schema;
    let found = |dict_id| -> Vec<&str> {
        #[expect(deprecated)]
        let fields = schema.fields_with_dict_id(dict_id).into_iter();
        fields.map(|field| field.name().as_str()).collect()
    };
    assert_eq!(found(1), ["a", "d"]);
    assert_eq!(found(0), ["e"]);
    assert!(found(2).is_empty());
}

/// Random sheets, in pairs that differ in dictionary numbers alone.
fn pairs(seed: u64, count: usize) -> impl Iterator<Item = [Vec<u8>; 2]> {
    let mut random = Random::new(seed);
    (0..count).map(move |_| {
        let one = write::sheet(&random::schema(&mut random)).unwrap();
        let other = with_dict_ids(&one, || random::dict_id(&mut random));
        [one, other]
    })
}

/// An operation on two sheets.
type OfTwo = fn(&[u8], &[u8]) -> Outcome;

#[test]
fn without_it_every_verdict_is_the_same() {
    let verdicts: [OfTwo; 3] = [equal, equals_datatype, contains];
    let mut differ = 0;
    for [one, other] in pairs(1, 5000) {
        let [plain, same] = [&one, &other].map(|sheet| without_dict_ids(sheet));
        assert_eq!(plain, same);
        for verdict in verdicts {
            assert_eq!(verdict(&one, &other), Ok(vec![1]));
            assert_eq!(verdict(&one, &same), Ok(vec![1]));
        }
        differ += usize::from(one != other);
    }
    assert!(differ > 1500, "only {differ} pairs differ");
}

#[test]
fn without_it_every_answer_is_the_same_without_it() {
    let mut carried = 0;
    for [one, other] in pairs(2, 5000) {
        let [plain, same] = [&one, &other].map(|sheet| without_dict_ids(sheet));
        for mode in MODES {
            let merged = operations::merge(&[&one[..], &other].concat(), mode);
            let expected = operations::merge(&[&plain[..], &same].concat(), mode);
            assert_eq!(merged.map(|table| without_dict_ids(&table)), expected);
        }
        let mask = vec![1; leaf_count(&one).unwrap()];
        let filtered = filter(&one, &mask).map(|sheet| without_dict_ids(&sheet));
        assert_eq!(filtered, filter(&plain, &mask));
        let normalized = normalize(&one, b".", 0).map(|sheet| without_dict_ids(&sheet));
        assert_eq!(normalized, normalize(&plain, b".", 0));
        assert_eq!(is_nested(&one), is_nested(&plain));
        assert_eq!(index_of(&one, b"a"), index_of(&plain, b"a"));
        carried += usize::from(one != plain);
    }
    assert!(carried > 1500, "only {carried} sheets carry one");
}
