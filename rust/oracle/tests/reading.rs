//! Reading by document 01's table: each number at each kind of item, from bytes in hex.

mod common;

use common::{at_level, hex, named};
use oracle::{Refusal, read};

/// Number and place of reading one sheet; 0, 0 for an accepted one.
fn single(bytes: &[u8]) -> (u8, usize) {
    outcome(read::sheet(bytes).err())
}

fn train(bytes: &[u8]) -> (u8, usize) {
    outcome(read::train(bytes).err())
}

fn two(first: &[u8], second: &[u8]) -> (u8, usize) {
    outcome(read::two(first, second).err())
}

fn outcome(refusal: Option<Refusal>) -> (u8, usize) {
    refusal.map_or((0, 0), |refusal| (refusal.number, refusal.place))
}

fn check(cases: &[(&str, u8, usize)]) {
    for &(bytes, number, place) in cases {
        assert_eq!(single(&hex(bytes)), (number, place), "{bytes}");
    }
}

#[test]
fn bytes_that_end_inside_an_item_are_1() {
    check(&[
        ("", 1, 0),
        ("01", 1, 1),
        ("01 01", 1, 1),
        ("01 0100", 1, 3),
        ("01 0100 00", 1, 3),
        ("01 0100 0200 6b", 1, 5),
        ("01 0100 0100 6b", 1, 6),
        ("01 0100 0100 6b 0200 31", 1, 8),
        ("02", 1, 1),
        ("02 01", 1, 1),
        ("02 0100", 1, 3),
        ("02 0100 00", 1, 4),
        ("02 0100 04 01", 1, 4),
        ("02 0100 04 0100", 1, 6),
        ("02 0100 04 0100 76", 1, 7),
        ("02 0100 08", 1, 4),
        ("02 0100 10", 1, 4),
        ("02 0100 10 01000000000000", 1, 4),
        ("02 0100 10 0100000000000000", 1, 12),
        ("02 0100 1c 0100 76", 1, 7),
        ("02 0100 1c 0100 76 0100 0000 0000", 1, 13),
        ("02 0200 0002", 1, 5),
        ("02 0100 00 0d", 1, 5),
        ("02 0100 00 0d 00", 1, 6),
        ("02 0100 00 0d 00 01", 1, 7),
        ("02 0100 00 0d 00 01 0100", 1, 9),
        ("02 0100 00 10", 1, 5),
        ("02 0100 00 13", 1, 5),
        ("02 0100 00 15 000000", 1, 5),
        ("02 0100 00 1b", 1, 5),
        ("02 0100 00 1d 00000000", 1, 9),
        ("02 0100 00 20", 1, 5),
        ("02 0100 00 21", 1, 5),
        ("02 0100 00 21 00", 1, 6),
        ("02 0100 00 21 00 0100", 1, 8),
        ("02 0100 00 21 00 0100 00", 1, 9),
        ("02 0100 00 22", 1, 5),
        ("02 0100 00 22 02", 1, 6),
        ("02 0100 00 23", 1, 5),
        ("02 0100 00 23 05", 1, 6),
        ("02 0100 00 27", 1, 5),
        ("02 0100 00 27 00", 1, 6),
        ("02 0100 00 28", 1, 5),
        ("02 0100 00 28 0003", 1, 7),
        // past the input's end and past byte 65,535: 1
        ("02 0100 04 ffff", 1, 6),
    ]);
}

#[test]
fn unknown_bits_codes_and_numbers_are_2() {
    check(&[
        ("04", 2, 0),
        ("80", 2, 0),
        ("02 0100 20", 2, 3),
        ("02 0100 40", 2, 3),
        ("02 0100 80", 2, 3),
        ("02 0100 30 0100000000000000 02", 2, 3),
        ("02 0100 00 29", 2, 4),
        ("02 0100 00 ff", 2, 4),
        ("02 0100 00 0d 04", 2, 5),
        ("02 0100 00 0d 00 02", 2, 6),
        ("02 0100 00 10 04", 2, 5),
        ("02 0100 00 11 04", 2, 5),
        ("02 0100 00 12 04", 2, 5),
        ("02 0100 00 13 03", 2, 5),
        ("02 0100 00 21 02", 2, 5),
        ("02 0100 00 27 02", 2, 5),
        ("02 0100 00 22 29", 2, 5),
        ("02 0100 00 22 02 29", 2, 6),
    ]);
}

#[test]
fn a_forbidden_0_is_2_and_the_others_are_fine() {
    check(&[
        ("01 0000", 2, 1),
        ("02 0000", 2, 1),
        ("02 0100 04 0000", 2, 4),
        ("02 0100 08 0000", 2, 4),
        ("03 0100 0000 0000 0000", 2, 7),
        // an empty key and value, an empty zone, an empty struct and an empty union
        ("01 0100 0000 0000", 0, 0),
        ("02 0100 00 0d 00 01 0000", 0, 0),
        ("02 0100 00 20 0000", 0, 0),
        ("02 0100 00 21 01 0000", 0, 0),
    ]);
}

#[test]
fn a_dictionary_number_stands_between_metadata_and_type_whatever_the_type_is() {
    check(&[
        ("02 0100 10 0100000000000000 00", 0, 0),
        ("02 0100 10 ffffffffffffffff 02", 0, 0),
        ("02 0100 10 ffffffffffffff7f 0d 00 00", 0, 0),
        ("02 0100 10 0000000000000080 20 0000", 0, 0),
        ("02 0100 10 0001000000000000 21 00 0000", 0, 0),
        ("02 0100 10 0000000001000000 22 02 18", 0, 0),
        ("02 0100 10 0100000000000000 28 0003 0002", 0, 0),
        (
            "02 0100 1f 0100 76 0100 0000 0000 0100000000000000 22 02 18",
            0,
            0,
        ),
        (
            "02 0100 00 28 10 0100000000000000 03 10 0200000000000000 02",
            0,
            0,
        ),
        // before the name or the metadata it is taken for these
        ("02 0100 14 ffffffffffffffff 0100 76 02", 1, 6),
        ("02 0100 18 ffffffffffffffff 0100 0000 0000 02", 1, 8),
        // and behind the type the type is taken for a part of it
        ("02 0100 10 02 ffffffffffffffff", 2, 12),
    ]);
}

#[test]
fn a_stored_0_is_2_at_its_first_byte() {
    check(&[
        ("02 0100 10 0000000000000000 02", 2, 4),
        ("02 0100 10 0000000000000000", 2, 4),
        (
            "02 0100 1c 0100 76 0100 0000 0000 0000000000000000 02",
            2,
            13,
        ),
        ("02 0100 00 1b 10 0000000000000000 02", 2, 6),
        // 1 comes before it, and so does what is wrong in the name and in the metadata
        ("02 0100 10 00000000000000", 1, 4),
        ("02 0100 14 0100 ff 0000000000000000 02", 3, 6),
        ("02 0100 18 0000 0000000000000000 02", 2, 4),
        // what is wrong in the type comes behind it
        ("02 0100 10 0000000000000000 29", 2, 4),
        ("02 0100 10 0100000000000000 29", 2, 12),
        ("02 0100 12 0000000000000000 02", 2, 4),
        ("02 0100 12 0100000000000000 02", 2, 12),
    ]);
    // one bit, wherever it is, is enough
    for bit in 0..64 {
        let dict_id = (1_u64 << bit).to_le_bytes();
        let bytes = [&hex("02 0100 10")[..], &dict_id, &[2]].concat();
        assert_eq!(single(&bytes), (0, 0), "{bit}");
    }
}

#[test]
fn the_level_is_judged_at_the_map_before_a_dictionary_number() {
    for last in ["10", "10 0000000000000000 02", "30", "ff"] {
        let (bytes, place) = at_level(33, last);
        assert_eq!(single(&bytes), (5, place), "{last}");
    }
    let (bytes, place) = at_level(32, "10 0000000000000000 02");
    assert_eq!(single(&bytes), (2, place + 1));
    let (bytes, place) = at_level(32, "10 0100000000000000 22 02 02");
    assert_eq!(single(&bytes), (5, place + 10));
    assert_eq!(single(&at_level(32, "10 0100000000000000 02").0), (0, 0));
}

/// A sheet whose one column, an Int8, has a name of so many bytes and this dictionary number:
/// 15 bytes and the name.
fn numbered(bytes: usize, dict_id: i64) -> Vec<u8> {
    let mut sheet = named(bytes);
    sheet[3] |= 16;
    sheet.pop();
    sheet.extend(dict_id.to_le_bytes());
    sheet.push(2);
    sheet
}

#[test]
fn a_dictionary_number_across_byte_65_535_is_9_at_its_first_byte() {
    assert_eq!(numbered(65_520, 1).len(), 65_535);
    assert_eq!(single(&numbered(65_520, 1)), (0, 0));
    // it ends with byte 65,535, and its type comes behind that
    assert_eq!(single(&numbered(65_521, 1)), (9, 65_535));
    assert_eq!(single(&numbered(65_521, 0)), (2, 65_527));
    for past in 1..=8 {
        let name = 65_521 + past;
        for dict_id in [1, 0] {
            let bytes = numbered(name, dict_id);
            assert_eq!(single(&bytes), (9, 6 + name));
            // 1 comes before 9
            let cut = &bytes[..6 + name + 7];
            assert_eq!(single(cut), (1, 6 + name));
        }
    }
    assert_eq!(single(&numbered(65_530, 1)), (9, 6));
    // in a train, and in a second sheet, places count on
    let first = numbered(65_520, 1);
    let later = [&first[..], &numbered(65_522, 1)].concat();
    assert_eq!(train(&later), (9, 65_535 + 65_528));
    assert_eq!(two(&first, &numbered(7, 0)), (2, 65_535 + 13));
}

#[test]
fn the_ordered_bit_is_for_the_fields_own_dictionary() {
    check(&[
        ("02 0100 02 22 02 18", 0, 0),
        ("02 0100 02 02", 2, 4),
        ("02 0100 02 29", 2, 4),
        ("02 0100 06 0100 76 02", 2, 7),
        // after name and metadata were read
        ("02 0100 0e 0100 ff 0100 0000 0000 02", 3, 6),
        ("02 0100 0e 0100 76 0100 0000 0000 02", 2, 13),
        // a dictionary below a list's child is not the column's own type
        ("02 0100 02 1b 00 22 02 18", 2, 4),
        ("02 0100 00 1b 02 22 02 18", 0, 0),
    ]);
}

#[test]
fn text_that_is_no_utf8_is_3_at_its_first_byte() {
    check(&[
        ("02 0100 04 0200 c328 02", 3, 6),
        ("02 0100 04 0300 61c328 02", 3, 6),
        ("02 0100 04 0300 eda080 02", 3, 6),
        ("02 0100 04 0200 c080 02", 3, 6),
        ("02 0100 04 0400 f4908080 02", 3, 6),
        ("02 0100 04 0400 f48fbfbf 02", 0, 0),
        ("01 0100 0100 ff 0000", 3, 5),
        ("01 0100 0000 0100 ff", 3, 7),
        ("02 0100 00 0d 00 01 0100 ff", 3, 9),
        ("02 0100 08 0100 0100 80 0000 02", 3, 8),
    ]);
}

#[test]
fn a_key_not_above_the_one_before_is_4_at_its_length() {
    check(&[
        ("01 0200 0100 6b 0000 0100 6b 0000", 4, 8),
        ("01 0200 0100 6b 0000 0000 0000", 4, 8),
        ("01 0200 0100 6b 0000 0200 6b31 0000", 0, 0),
        ("01 0200 0200 6b31 0000 0100 6b 0000", 4, 9),
        // at the body, after 1 and 3, and before the value
        ("01 0200 0100 6b 0000 0200 61", 1, 10),
        ("01 0200 0100 6b 0000 0200 61ff", 3, 10),
        ("01 0200 0100 6b 0000 0100 61", 4, 8),
        // the second key is above the first, the third is not above the second
        ("01 0300 0100 61 0000 0100 63 0000 0100 62 0000", 4, 13),
    ]);
}

#[test]
fn union_ids_are_6_then_7_and_belong_to_the_union() {
    check(&[
        ("02 0100 00 21 00 0100 7f 0002", 0, 0),
        ("02 0100 00 21 00 0100 80 0002", 6, 8),
        ("02 0100 00 21 00 0200 05 0002 05 0002", 7, 11),
        ("02 0100 00 21 00 0200 05 0002 85 0002", 6, 11),
        ("02 0100 00 21 00 0200 05 0002 06 0002", 0, 0),
        // a union inside a union has ids of its own
        ("02 0100 00 21 00 0100 05 00 21 00 0100 05 0002", 0, 0),
    ]);
}

#[test]
fn the_129th_id_of_a_union_is_6_or_7() {
    let mut bytes = hex("02 0100 00 21 00 8100");
    for id in 0..128 {
        bytes.extend([id, 0, 2]);
    }
    let place = bytes.len();
    assert_eq!(single(&[&bytes[..], &[0, 0, 2]].concat()), (7, place));
    assert_eq!(single(&[&bytes[..], &[128, 0, 2]].concat()), (6, place));
    assert_eq!(single(&bytes), (1, place));
}

#[test]
fn level_32_is_read_and_level_33_is_5() {
    assert_eq!(single(&at_level(32, "00 02").0), (0, 0));
    for last in ["00 02", "20", "0f"] {
        let (bytes, place) = at_level(33, last);
        assert_eq!(single(&bytes), (5, place), "{last}");
    }
    let (bytes, place) = at_level(33, "");
    assert_eq!(single(&bytes), (1, place));
}

#[test]
fn at_level_32_a_dictionary_is_5_at_its_key_and_an_empty_struct_is_fine() {
    let (bytes, place) = at_level(32, "00 22 02 02");
    assert_eq!(single(&bytes), (5, place + 2));
    let (bytes, place) = at_level(32, "00 22");
    assert_eq!(single(&bytes), (1, place + 2));
    let (bytes, place) = at_level(32, "00 22 ff");
    assert_eq!(single(&bytes), (5, place + 2));
    assert_eq!(single(&at_level(31, "00 22 02 18").0), (0, 0));
    // the value type of a dictionary at level 31 stands at level 32 and may hold nothing
    let (bytes, place) = at_level(31, "00 22 02 1b 00 02");
    assert_eq!(single(&bytes), (5, place + 4));
    assert_eq!(single(&at_level(32, "00 20 0000").0), (0, 0));
    assert_eq!(single(&at_level(32, "00 21 01 0000").0), (0, 0));
}

#[test]
fn at_level_32_a_unions_id_comes_before_the_childs_level() {
    let (bytes, place) = at_level(32, "00 21 00 0100 80 00 02");
    assert_eq!(single(&bytes), (6, place + 5));
    let (bytes, place) = at_level(32, "00 21 00 0100 7f 00 02");
    assert_eq!(single(&bytes), (5, place + 6));
    let (bytes, place) = at_level(32, "00 20 0100 00 02");
    assert_eq!(single(&bytes), (5, place + 4));
}

#[test]
fn a_sheet_of_65_535_bytes_is_read_and_one_more_is_9() {
    assert_eq!(named(65_528).len(), 65_535);
    assert_eq!(single(&named(65_528)), (0, 0));
    assert_eq!(single(&named(65_529)), (9, 65_535));
    assert_eq!(single(&named(65_530)), (9, 6));
    assert_eq!(single(&named(65_535)), (9, 6));
    // at one item 1 comes before 9, and 9 before 2
    let mut cut = named(65_529);
    cut.pop();
    assert_eq!(single(&cut), (1, 65_535));
    cut.push(0xff);
    assert_eq!(single(&cut), (9, 65_535));
}

#[test]
fn a_train_counts_each_sheets_bytes_from_its_start() {
    let both = [named(65_528), named(65_528)].concat();
    assert_eq!(train(&both), (0, 0));
    let later = [hex("00"), named(65_529)].concat();
    assert_eq!(train(&later), (9, 65_536));
    let later = [named(65_528), named(65_530)].concat();
    assert_eq!(train(&later), (9, 65_535 + 6));
}

#[test]
fn bytes_after_a_single_sheet_are_8() {
    check(&[("00 00", 8, 1), ("00 ff", 8, 1), ("02 0100 0002 00", 8, 5)]);
    let mut small = vec![0; 70_001];
    assert_eq!(single(&small), (8, 1));
    assert_eq!(train(&small), (33, 256));
    small.truncate(200);
    assert_eq!(train(&small), (0, 0));
}

#[test]
fn a_257th_sheet_is_33_whatever_its_byte() {
    assert_eq!(train(&[]), (0, 0));
    assert_eq!(train(&[0; 256]), (0, 0));
    assert_eq!(train(&[0; 257]), (33, 256));
    let mut bytes = vec![0; 256];
    bytes.push(0xff);
    assert_eq!(train(&bytes), (33, 256));
    bytes[255] = 0xff;
    assert_eq!(train(&bytes), (2, 255));
}

#[test]
fn of_two_sheets_the_first_is_read_whole_and_places_count_on() {
    let good = hex("02 0100 0002");
    assert_eq!(two(&good, &good), (0, 0));
    assert_eq!(two(&good, &[]), (1, 5));
    assert_eq!(two(&[], &good), (1, 0));
    assert_eq!(two(&[0, 0], &[0xff]), (8, 1));
    assert_eq!(two(&good, &[0xff]), (2, 5));
    assert_eq!(two(&good, &[0, 0]), (8, 6));
    assert_eq!(two(&named(65_528), &named(65_529)), (9, 2 * 65_535));
}

#[test]
fn the_places_are_those_of_all_maps_in_layout_order() {
    let bytes = hex("02 0300 04 0100 76 28 0003 001b 0002 00 22 1b 0002 02 00 21 00 0100 07 0002");
    let read = read::sheet(&bytes).unwrap();
    assert_eq!(read.places, [3, 8, 10, 12, 14, 17, 20, 26]);
    assert_eq!(read.dict_ids, 0);
}

#[test]
fn a_dictionary_number_moves_the_maps_behind_it_and_is_counted() {
    let bytes = hex(
        "02 0200 10 0100000000000000 20 0200 00 02 14 0100 76 0100000000000000 02 \
         00 28 10 0200000000000000 03 0002",
    );
    let read = read::sheet(&bytes).unwrap();
    assert_eq!(read.places, [3, 15, 17, 30, 32, 42]);
    assert_eq!(read.dict_ids, 3);
}
