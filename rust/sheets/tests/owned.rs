//! Each function with buffers of its own, on the papers' examples, accepted and refused.
#![cfg(feature = "linked")]

use sheets::{Counts, Refusal};

/// `v:Int32`, nullable.
const NULLABLE: [u8; 8] = [2, 1, 0, 5, 1, 0, b'v', 4];
/// `v:Int32`.
const PLAIN: [u8; 8] = [2, 1, 0, 4, 1, 0, b'v', 4];
/// `w:Int32`.
const RENAMED: [u8; 8] = [2, 1, 0, 4, 1, 0, b'w', 4];
/// `v:Int32` and a nameless `Struct{}`.
const TWO_COLUMNS: [u8; 12] = [2, 2, 0, 4, 1, 0, b'v', 4, 0, 32, 0, 0];
/// No columns.
const EMPTY: [u8; 1] = [0];

fn refused<T>(number: u8, place: usize) -> Result<T, Refusal> {
    Err(Refusal::new(number, place))
}

#[test]
fn is_nested() {
    assert_eq!(sheets::is_nested(&TWO_COLUMNS), Ok(vec![false, true]));
    assert_eq!(sheets::is_nested(&EMPTY), Ok(vec![]));
    assert_eq!(sheets::is_nested(&[]), refused(1, 0));
    assert_eq!(sheets::is_nested(&[0, 0]), refused(8, 1));
}

#[test]
fn equality() {
    assert_eq!(sheets::equal(&PLAIN, &PLAIN), Ok(true));
    assert_eq!(sheets::equal(&PLAIN, &RENAMED), Ok(false));
    assert_eq!(sheets::equal(&PLAIN, &PLAIN[..7]), refused(1, 15));
    assert_eq!(sheets::equals_datatype(&PLAIN, &RENAMED), Ok(true));
    assert_eq!(sheets::equals_datatype(&PLAIN, &NULLABLE), Ok(false));
    assert_eq!(sheets::equals_datatype(&[4], &PLAIN), refused(2, 0));
}

#[test]
fn containment() {
    assert_eq!(sheets::contains(&NULLABLE, &PLAIN), Ok(true));
    assert_eq!(sheets::contains(&PLAIN, &NULLABLE), Ok(false));
    assert_eq!(sheets::contains(&PLAIN, &PLAIN[..7]), refused(1, 15));
    // P12: an empty union contains a same-mode union of one child, not the reverse.
    let empty = [2, 1, 0, 4, 1, 0, b'v', 33, 0, 0, 0];
    let one = [2, 1, 0, 4, 1, 0, b'v', 33, 0, 1, 0, 0, 4, 1, 0, b'x', 2];
    assert_eq!(sheets::contains(&empty, &one), Ok(true));
    assert_eq!(sheets::contains(&one, &empty), Ok(false));
}

#[test]
fn numberings() {
    assert_eq!(sheets::try_new(&[9, 5], 2), Ok(vec![9, 5]));
    let refusal = sheets::try_new(&[9, 200], 2).unwrap_err();
    assert_eq!((refusal.number, refusal.place), (6, 1));
    assert_eq!(refusal.counts, Counts::Entries);
    assert_eq!(sheets::try_new(&[5, 5], 1), refused(15, 0));
    assert_eq!(sheets::try_new(&[5], 2), refused(14, 0));
    assert_eq!(sheets::try_from_fields(3), Ok(vec![0, 1, 2]));
    assert_eq!(sheets::try_from_fields(0), Ok(vec![]));
    let all: Vec<u8> = (0..128).collect();
    assert_eq!(sheets::try_from_fields(128), Ok(all));
    assert_eq!(sheets::try_from_fields(129), refused(16, 0));
}

#[test]
fn index_of() {
    assert_eq!(sheets::index_of(&TWO_COLUMNS, "v"), Ok(0));
    assert_eq!(sheets::index_of(&TWO_COLUMNS, ""), Ok(1));
    assert_eq!(sheets::index_of(&TWO_COLUMNS, "w"), refused(13, 0));
    assert_eq!(sheets::index_of(&TWO_COLUMNS, [0xff]), refused(13, 0));
    assert_eq!(sheets::index_of(&PLAIN[..7], "v"), refused(1, 7));
}

/// A sheet of so many Int8 columns without names.
fn nameless(columns: u16) -> Vec<u8> {
    let [low, high] = columns.to_le_bytes();
    let mut sheet = vec![2, low, high];
    sheet.extend([0, 2].repeat(columns.into()));
    sheet
}

#[test]
fn flattened_fields() {
    assert_eq!(sheets::flattened_fields(&TWO_COLUMNS), Ok(vec![3, 8]));
    assert_eq!(sheets::flattened_fields(&EMPTY), Ok(vec![]));
    assert_eq!(sheets::flattened_fields(&[2]), refused(1, 1));
    // As many fields as a sheet can have: the longest answer of all.
    let offsets: Vec<u16> = (0..32_766).map(|column| 3 + 2 * column).collect();
    assert_eq!(sheets::flattened_fields(&nameless(32_766)), Ok(offsets));
}

#[test]
fn projections() {
    let twice = vec![2, 2, 0, 4, 1, 0, b'v', 4, 4, 1, 0, b'v', 4];
    assert_eq!(sheets::project(&PLAIN, &[0, 0]), Ok(twice));
    assert_eq!(sheets::project_strict(&PLAIN, &[0, 0]), refused(11, 1));
    let refusal = sheets::project_strict(&TWO_COLUMNS, &[1, 0, 2]);
    assert_eq!(refusal, refused(10, 2));
    // An index above 255 arrives with both its bytes.
    assert_eq!(sheets::project(&PLAIN, &[256]), refused(10, 0));
    assert_eq!(
        sheets::project_strict(&nameless(300), &[299]),
        Ok(nameless(1))
    );
    assert_eq!(sheets::project(&EMPTY, &[0]), refused(10, 0));
    assert_eq!(sheets::project(&nameless(2), &[0; 32_767]), refused(30, 0));
}

#[test]
fn normalize() {
    // P9: s:Struct{a:Int32, e:Struct{}}
    let sheet = [
        2, 1, 0, 4, 1, 0, b's', 32, 2, 0, 4, 1, 0, b'a', 4, 4, 1, 0, b'e', 32, 0, 0,
    ];
    let all = vec![2, 1, 0, 4, 3, 0, b's', b'.', b'a', 4];
    let once = vec![
        2, 2, 0, 4, 3, 0, b's', b'.', b'a', 4, 4, 3, 0, b's', b'.', b'e', 32, 0, 0,
    ];
    assert_eq!(sheets::normalize(&sheet, ".", 0), Ok(all));
    assert_eq!(sheets::normalize(&sheet, b".", 1), Ok(once));
    assert_eq!(sheets::normalize(&sheet, [0xff], 0), refused(18, 0));
    let separator = "-".repeat(65_535);
    assert_eq!(sheets::normalize(&sheet, separator, 0), refused(30, 0));
}

#[test]
fn filter() {
    let two = [2, 2, 0, 4, 1, 0, b'v', 4, 4, 1, 0, b'w', 4];
    assert_eq!(sheets::filter(&two, &[true, false]), Ok(PLAIN.to_vec()));
    assert_eq!(sheets::filter(&two, &[false, true]), Ok(RENAMED.to_vec()));
    assert_eq!(sheets::filter(&two, &[false; 2]), Ok(EMPTY.to_vec()));
    assert_eq!(sheets::filter(&two, &[true; 3]), refused(12, 0));
    assert_eq!(sheets::filter(&two[..9], &[true; 2]), refused(1, 9));
}

mod dict_ids {
    use super::*;
    use sheets::{Mode, merge};

    /// `v:Int32` with the dictionary number 1, and with -1.
    const ONE: [u8; 16] = numbered(20, 1, 4);
    const MINUS: [u8; 16] = numbered(20, -1, 4);

    /// A column `v` of this map, whose bit 4 stands, with this dictionary number and type.
    const fn numbered(map: u8, dict_id: i64, code: u8) -> [u8; 16] {
        let [a, b, c, d, e, f, g, h] = dict_id.to_le_bytes();
        [2, 1, 0, map, 1, 0, b'v', a, b, c, d, e, f, g, h, code]
    }

    #[test]
    fn merging_keeps_the_firsts_or_none() {
        for mode in [Mode::AsTheRust, Mode::ParkedFirst] {
            assert_eq!(merge(&[&ONE, &MINUS], mode), Ok(ONE.to_vec()));
            assert_eq!(merge(&[&MINUS, &ONE], mode), Ok(MINUS.to_vec()));
            assert_eq!(merge(&[&ONE, &PLAIN], mode), Ok(ONE.to_vec()));
            assert_eq!(merge(&[&PLAIN, &ONE], mode), Ok(PLAIN.to_vec()));
            // a Null that takes a type keeps its own
            let parked = numbered(20, i64::MIN, 0);
            let table = numbered(21, i64::MIN, 4);
            assert_eq!(merge(&[&parked, &ONE], mode), Ok(table.to_vec()));
            let parked = [2, 1, 0, 4, 1, 0, b'v', 0];
            assert_eq!(merge(&[&parked, &ONE], mode), Ok(NULLABLE.to_vec()));
        }
    }

    #[test]
    fn parked_log_first_the_order_flag_comes_with_the_type_and_the_dictionary_number_does_not() {
        let parked = numbered(20, 1, 0);
        let ordered = [&numbered(22, 2, 34)[..], &[2, 24]].concat();
        let table = [&numbered(23, 1, 34)[..], &[2, 24]].concat();
        assert_eq!(merge(&[&parked, &ordered], Mode::ParkedFirst), Ok(table));
        assert_eq!(merge(&[&parked, &ordered], Mode::AsTheRust), refused(20, 1));
    }

    #[test]
    fn verdicts_and_look_ups_do_not_see_it() {
        for [one, other] in [[&ONE[..], &MINUS], [&ONE, &PLAIN], [&PLAIN, &ONE]] {
            assert_eq!(sheets::equal(one, other), Ok(true));
            assert_eq!(sheets::equals_datatype(one, other), Ok(true));
            assert_eq!(sheets::contains(one, other), Ok(true));
        }
        assert_eq!(sheets::contains(&ONE, &NULLABLE), Ok(false));
        assert_eq!(sheets::is_nested(&ONE), Ok(vec![false]));
        assert_eq!(sheets::index_of(&ONE, "v"), Ok(0));
        let twice = sheets::project(&ONE, &[0, 0]).unwrap();
        assert_eq!(sheets::flattened_fields(&twice), Ok(vec![3, 16]));
    }

    #[test]
    fn projecting_and_filtering_keep_it_and_normalising_drops_a_columns_own() {
        let twice = [&[2, 2, 0], &ONE[3..], &ONE[3..]].concat();
        assert_eq!(sheets::project(&ONE, &[0, 0]), Ok(twice));
        assert_eq!(sheets::project_strict(&ONE, &[0]), Ok(ONE.to_vec()));
        assert_eq!(sheets::filter(&ONE, &[true]), Ok(ONE.to_vec()));
        assert_eq!(sheets::normalize(&ONE, ".", 0), Ok(PLAIN.to_vec()));
        // a struct that loses a child keeps its own
        let structure = |children: &[&[u8]]| {
            let count = [children.len() as u8, 0];
            [&numbered(20, 7, 32)[..], &count, &children.concat()].concat()
        };
        let both = structure(&[&ONE[3..], &PLAIN[3..]]);
        let one = structure(&[&ONE[3..]]);
        assert_eq!(sheets::filter(&both, &[true, false]), Ok(one));
        // normalising does not take a list apart
        let list = [&numbered(20, 7, 27)[..], &ONE[3..]].concat();
        let plain = [&[2, 1, 0, 4, 1, 0, b'v', 27][..], &ONE[3..]].concat();
        assert_eq!(sheets::normalize(&list, ".", 0), Ok(plain));
    }

    #[test]
    fn a_stored_0_and_an_unknown_bit_are_2_and_a_cut_is_1() {
        let refusal = sheets::is_nested(&numbered(20, 0, 4)).unwrap_err();
        assert_eq!(refusal, Refusal::new(2, 7));
        assert!(refusal.to_string().contains("a 0 stands where none may"));
        for unknown in [32, 64, 128] {
            let sheet = numbered(20 + unknown, 1, 4);
            assert_eq!(sheets::is_nested(&sheet), refused(2, 3));
        }
        for bytes in 7..15 {
            assert_eq!(sheets::is_nested(&ONE[..bytes]), refused(1, 7));
        }
        // of two sheets, and in a train, the place counts on
        assert_eq!(sheets::equal(&ONE, &numbered(20, 0, 4)), refused(2, 23));
        let broken = numbered(20, 0, 4);
        assert_eq!(merge(&[&ONE, &broken], Mode::AsTheRust), refused(2, 23));
    }
}

mod merging {
    use super::*;
    use sheets::{Mode, merge, merge_train};

    const MODES: [Mode; 2] = [Mode::AsTheRust, Mode::ParkedFirst];

    /// `v:Null`.
    const PARKED: [u8; 8] = [2, 1, 0, 4, 1, 0, b'v', 0];
    /// `v:Dictionary(Int8, Utf8)`, ordered.
    const ORDERED: [u8; 10] = [2, 1, 0, 6, 1, 0, b'v', 34, 2, 24];
    /// `v:Int8`.
    const BYTE: [u8; 8] = [2, 1, 0, 4, 1, 0, b'v', 2];

    #[test]
    fn the_parked_log_comes_first() {
        // P1, P2, P3, P4
        for mode in MODES {
            assert_eq!(merge(&[], mode), Ok(EMPTY.to_vec()));
            assert_eq!(merge(&[&PARKED], mode), Ok(PARKED.to_vec()));
            assert_eq!(merge(&[&PARKED, &PLAIN], mode), Ok(NULLABLE.to_vec()));
            let parked_twice = vec![2, 1, 0, 5, 1, 0, b'v', 0];
            assert_eq!(merge(&[&PARKED, &PARKED], mode), Ok(parked_twice));
        }
    }

    #[test]
    fn p5_by_the_mode() {
        let refusal = merge(&[&PARKED, &ORDERED], Mode::AsTheRust).unwrap_err();
        assert_eq!((refusal.number, refusal.place), (20, 1));
        let told = "sheet 1: the ordered flags of a column differ";
        assert_eq!(refusal.to_string(), told);
        let table = vec![2, 1, 0, 7, 1, 0, b'v', 34, 2, 24];
        for sheets in [[&PARKED[..], &ORDERED], [&ORDERED, &PARKED]] {
            let refusal = refused(20, 1);
            assert_eq!(merge(&sheets, Mode::AsTheRust), refusal);
            assert_eq!(merge_train(&sheets.concat(), Mode::AsTheRust), refusal);
            let accepted = Ok(table.clone());
            assert_eq!(merge(&sheets, Mode::ParkedFirst), accepted);
            assert_eq!(merge_train(&sheets.concat(), Mode::ParkedFirst), accepted);
        }
        // Two types that are not Null: the flags are compared, and before the types.
        for mode in MODES {
            assert_eq!(merge(&[&ORDERED, &BYTE], mode), refused(20, 1));
        }
    }

    #[test]
    fn a_train_is_merged_as_its_sheets_are() {
        for mode in MODES {
            assert_eq!(merge_train(&[], mode), Ok(EMPTY.to_vec()));
            for sheets in [[&PARKED, &PLAIN], [&PLAIN, &BYTE], [&RENAMED, &PLAIN]] {
                let slices = sheets.map(|sheet| &sheet[..]);
                assert_eq!(merge(&slices, mode), merge_train(&slices.concat(), mode));
            }
            assert_eq!(merge_train(&[PLAIN, BYTE].concat(), mode), refused(22, 1));
        }
    }

    #[test]
    fn a_slice_is_one_whole_sheet() {
        let (begin, end) = PLAIN.split_at(3);
        for mode in MODES {
            let merge = |sheets: &[&[u8]]| merge(sheets, mode);
            assert_eq!(merge_train(&PLAIN, mode), Ok(PLAIN.to_vec()));
            assert_eq!(merge(&[begin, end]), refused(1, 3));
            assert_eq!(merge(&[&PARKED, &[PLAIN, PLAIN].concat()]), refused(8, 16));
            assert_eq!(merge(&[&PARKED, &[], &PLAIN]), refused(1, 8));
            // A broken sheet is told before a clash of the sheets before it.
            assert_eq!(merge(&[&PLAIN, &BYTE, &[4]]), refused(2, 16));
        }
    }

    #[test]
    fn there_are_at_most_256_sheets() {
        let sheets = vec![&PLAIN[..]; 257];
        for mode in MODES {
            assert_eq!(merge(&sheets[..256], mode), Ok(PLAIN.to_vec()));
            assert_eq!(merge(&sheets, mode), refused(33, 2048));
            assert_eq!(merge_train(&sheets.concat(), mode), refused(33, 2048));
            // Nothing of the 257th is read, not even whether it has a byte.
            let empty = [&sheets[..256], &[&[]]].concat();
            assert_eq!(merge(&empty, mode), refused(33, 2048));
        }
    }

    #[test]
    fn a_table_too_long_is_refused() {
        let long = |first: u8| {
            let mut sheet = vec![2, 1, 0, 4, 0x60, 0xea, first];
            sheet.resize(6 + 60_000, b'n');
            sheet.push(2);
            sheet
        };
        for mode in MODES {
            assert_eq!(merge(&[&long(b'a'), &long(b'b')], mode), refused(30, 0));
            assert_eq!(merge(&[&long(b'a'), &long(b'a')], mode), Ok(long(b'a')));
        }
    }
}
