//! A table that is kept: logs merged onto it, week by week and all at once, accepted and refused.
#![cfg(feature = "linked")]

use sheets::{Counts, Mode, Refusal, Table, merge};
use std::collections::BTreeSet;

const MODES: [Mode; 2] = [Mode::AsTheRust, Mode::ParkedFirst];

/// No columns.
const EMPTY: [u8; 1] = [0];
/// `v:Null`.
const PARKED: [u8; 8] = [2, 1, 0, 4, 1, 0, b'v', 0];
/// `v:Int32`.
const DRIVEN: [u8; 8] = [2, 1, 0, 4, 1, 0, b'v', 4];
/// `v:Int32`, nullable.
const NULLABLE: [u8; 8] = [2, 1, 0, 5, 1, 0, b'v', 4];
/// `v:Int8`.
const BYTE: [u8; 8] = [2, 1, 0, 4, 1, 0, b'v', 2];
/// `v:Int32, w:Utf8`.
const NEWER: [u8; 13] = [2, 2, 0, 4, 1, 0, b'v', 4, 4, 1, 0, b'w', 24];
/// `v:Dictionary(Int8, Utf8)`, ordered.
const ORDERED: [u8; 10] = [2, 1, 0, 6, 1, 0, b'v', 34, 2, 24];

fn open(saved: &[u8], mode: Mode) -> Table {
    Table::open(saved, mode).unwrap()
}

/// What these logs are refused with on this table, which must be the same afterwards.
fn refused(table: &Table, logs: &[&[u8]]) -> (u8, usize) {
    let mut tried = table.clone();
    let refusal = tried.merge(logs).unwrap_err();
    assert_eq!(&tried, table, "a refusal changes nothing");
    (refusal.number, refusal.place)
}

/// Schema metadata of one key `k` with this value, and no columns.
const fn described(value: u8) -> [u8; 9] {
    [1, 1, 0, 1, 0, b'k', 1, 0, value]
}

/// `s:Struct{a, a}` with these two types.
const fn repeated(first: u8, second: u8) -> [u8; 20] {
    [
        2, 1, 0, 4, 1, 0, b's', 32, 2, 0, 4, 1, 0, b'a', first, 4, 1, 0, b'a', second,
    ]
}

/// A sheet of so many bytes: one Int8 column, whose name begins with this byte and fills it.
fn long(bytes: usize, first: u8) -> Vec<u8> {
    let [low, high] = u16::try_from(bytes - 7).unwrap().to_le_bytes();
    let mut sheet = vec![2, 1, 0, 4, low, high, first];
    sheet.resize(bytes - 1, b'n');
    sheet.push(2);
    sheet
}

#[test]
fn a_table_begins_with_no_logs() {
    for mode in MODES {
        let mut table = Table::new(mode);
        assert_eq!((table.sheet(), table.mode()), (&EMPTY[..], mode));
        assert_eq!(table, open(&EMPTY, mode));
        assert_eq!(table.merge(&[]), Ok(()));
        assert_eq!(table, Table::new(mode));
        assert_eq!(table.merge(&[&PARKED]), Ok(()));
        assert_eq!(table, open(&PARKED, mode));
    }
}

#[test]
fn no_logs_leave_the_table_as_it_is() {
    for mode in MODES {
        let mut table = open(&NEWER, mode);
        assert_eq!(table.merge(&[]), Ok(()));
        assert_eq!((table.sheet(), table.mode()), (&NEWER[..], mode));
    }
}

#[test]
fn p5_by_the_tables_mode() {
    let refusal = open(&PARKED, Mode::AsTheRust)
        .merge(&[&ORDERED])
        .unwrap_err();
    let told = "sheet 0: the ordered flags of a column differ";
    assert_eq!(refusal.to_string(), told);
    let mut table = open(&PARKED, Mode::ParkedFirst);
    assert_eq!(table.merge(&[&ORDERED]), Ok(()));
    assert_eq!(table.sheet(), [2, 1, 0, 7, 1, 0, b'v', 34, 2, 24]);
    assert_eq!(table.mode(), Mode::ParkedFirst);
}

#[test]
fn a_clash_names_one_of_the_logs_given_now() {
    for mode in MODES {
        let table = open(&NULLABLE, mode);
        assert_eq!(refused(&table, &[&BYTE]), (22, 0));
        assert_eq!(refused(&table, &[&DRIVEN, &NEWER, &BYTE]), (22, 2));
        assert_eq!(refused(&table, &[&PARKED, &ORDERED]), (20, 1));
        // The logs clash with each other, and not with the table.
        assert_eq!(refused(&Table::new(mode), &[&DRIVEN, &BYTE]), (22, 1));
    }
}

#[test]
fn schema_metadata_that_differs_is_25() {
    for mode in MODES {
        let mut table = open(&NULLABLE, mode);
        assert_eq!(table.merge(&[&described(b'1')]), Ok(()));
        assert_eq!(refused(&table, &[&described(b'2')]), (25, 0));
        let logs: [&[u8]; 3] = [&described(b'1'), &DRIVEN, &described(b'2')];
        assert_eq!(refused(&table, &logs), (25, 2));
    }
}

#[test]
fn a_broken_log_is_told_by_its_byte_from_the_first_logs_start() {
    let unknown = [2, 1, 0, 4, 1, 0, b'v', 41];
    for mode in MODES {
        for table in [Table::new(mode), open(&NEWER, mode)] {
            assert_eq!(refused(&table, &[&DRIVEN[..7]]), (1, 7));
            assert_eq!(refused(&table, &[&[]]), (1, 0));
            assert_eq!(refused(&table, &[&[DRIVEN, DRIVEN].concat()]), (8, 8));
            assert_eq!(refused(&table, &[&unknown]), (2, 7));
            assert_eq!(refused(&table, &[&DRIVEN, &DRIVEN[..7]]), (1, 15));
            assert_eq!(refused(&table, &[&DRIVEN, &[]]), (1, 8));
            assert_eq!(refused(&table, &[&DRIVEN, &[0, 0]]), (8, 9));
            assert_eq!(refused(&table, &[&NEWER, &DRIVEN, &unknown]), (2, 28));
            // No log is completed by the next, and a broken one is told before a clash.
            assert_eq!(refused(&table, &[&DRIVEN[..3], &DRIVEN[3..]]), (1, 3));
            assert_eq!(refused(&table, &[&DRIVEN, &BYTE, &[4]]), (2, 16));
        }
    }
}

#[test]
fn there_are_at_most_255_logs_at_a_time() {
    assert_eq!(Table::MOST_LOGS, 255);
    let logs = vec![&DRIVEN[..]; 256];
    for mode in MODES {
        let mut table = open(&PARKED, mode);
        assert_eq!(refused(&table, &logs), (33, 2040));
        assert_eq!(table.merge(&logs[..255]), Ok(()));
        assert_eq!(table.sheet(), NULLABLE);
        // More of them go into a further call.
        assert_eq!(table.merge(&logs[..255]), Ok(()));
        assert_eq!(table.sheet(), NULLABLE);
        assert_eq!(refused(&Table::new(mode), &logs), (33, 2040));
        // Nothing of the 256th is read; a fault before it is told first.
        let broken = [&logs[..255], &[&[4]]].concat();
        assert_eq!(refused(&table, &broken), (33, 2040));
        let broken = [&[&[4][..]], &logs[..255]].concat();
        assert_eq!(refused(&table, &broken), (2, 0));
    }
}

#[test]
fn a_sheet_that_was_no_merges_answer_is_folded_or_refused_at_open() {
    let two = |first, second| [2, 2, 0, 4, 1, 0, b'a', first, 4, 1, 0, b'a', second];
    for mode in MODES {
        // a:Int8, a:Int16
        let refusal = Table::open(&two(2, 3), mode).unwrap_err();
        let told = "sheet 0: the types of a column cannot be merged";
        assert_eq!((refusal.number, refusal.place), (22, 0));
        assert_eq!(refusal.to_string(), told);
        // a:Int8, a:Int8
        let table = open(&two(2, 2), mode);
        assert_eq!(table.sheet(), [2, 1, 0, 4, 1, 0, b'a', 2]);
        assert_eq!(Table::open(&[], mode), Err(Refusal::new(1, 0)));
        assert_eq!(Table::open(&[0, 0], mode), Err(Refusal::new(8, 1)));
        let cut = Table::open(&NEWER[..9], mode);
        assert_eq!(cut, Err(Refusal::new(1, 9)));
    }
}

#[test]
fn a_struct_is_not_folded_before_another_meets_it() {
    for mode in MODES {
        for saved in [repeated(2, 2), repeated(2, 3)] {
            let mut table = open(&saved, mode);
            assert_eq!(table.sheet(), saved);
            assert_eq!(table.merge(&[&DRIVEN]), Ok(()));
            let mut begun = Table::new(mode);
            assert_eq!(begun.merge(&[&saved, &DRIVEN]), Ok(()));
            assert_eq!(table, begun);
        }
        let mut table = open(&repeated(2, 2), mode);
        assert_eq!(table.merge(&[&repeated(2, 2)]), Ok(()));
        let folded = [2, 1, 0, 4, 1, 0, b's', 32, 1, 0, 4, 1, 0, b'a', 2];
        assert_eq!(table.sheet(), folded);
        // The clash is in the table's own struct, and the log that brings it about is named.
        let table = open(&repeated(2, 3), mode);
        assert_eq!(refused(&table, &[&DRIVEN, &repeated(2, 3)]), (22, 1));
    }
}

#[test]
fn a_table_too_long_is_refused_and_stays() {
    for mode in MODES {
        let table = open(&long(60_000, b'a'), mode);
        assert_eq!(refused(&table, &[&DRIVEN, &long(60_000, b'b')]), (30, 0));
        // As long as a table can be, it is still opened and merged onto.
        let mut table = open(&long(65_535, b'a'), mode);
        assert_eq!(table.merge(&[&long(65_535, b'a')]), Ok(()));
        assert_eq!(table.sheet(), long(65_535, b'a'));
        assert_eq!(refused(&table, &[&DRIVEN]), (30, 0));
        assert_eq!(refused(&table, &[&EMPTY, &[4]]), (2, 1));
    }
}

/// Logs that meet in every way: Null, ordered and not, with a dictionary number, with metadata of
/// its schema, with structs that grow, fold and clash, and broken ones.
fn handful() -> Vec<Vec<u8>> {
    let numbered = [2, 1, 0, 20, 1, 0, b'v', 7, 0, 0, 0, 0, 0, 0, 0, 34, 2, 24];
    let grows = [2, 1, 0, 5, 1, 0, b's', 32, 1, 0, 4, 1, 0, b'b', 0];
    vec![
        EMPTY.to_vec(),
        PARKED.to_vec(),
        NEWER.to_vec(),
        BYTE.to_vec(),
        ORDERED.to_vec(),
        numbered.to_vec(),
        described(b'1').to_vec(),
        described(b'2').to_vec(),
        repeated(2, 2).to_vec(),
        repeated(2, 3).to_vec(),
        grows.to_vec(),
        DRIVEN[..7].to_vec(),
        [DRIVEN, DRIVEN].concat(),
    ]
}

/// The logs before the cut are merged, saved and opened, and the rest is merged onto them: that
/// gives what merging all of them at once gives. The number that it is (0: accepted), or none where
/// the first ones are refused, since there is no table to go on from then.
fn same_week_by_week(logs: &[&[u8]], cut: usize, mode: Mode) -> Option<u8> {
    let (first, rest) = logs.split_at(cut);
    let saved = merge(first, mode).ok()?;
    let mut table = open(&saved, mode);
    assert_eq!(table.sheet(), saved, "an answer merged alone is itself");
    let by_week = table.merge(rest).map(|()| table.sheet().to_vec());
    // A place speaks of the rest, so it counts on from what the first ones are.
    let counted_on = by_week.map_err(|refusal| {
        let before = match refusal.counts {
            Counts::Sheets => first.len(),
            Counts::Bytes => first.concat().len(),
            Counts::Nothing | Counts::Entries => 0,
        };
        let place = refusal.place + before;
        Refusal { place, ..refusal }
    });
    assert_eq!(counted_on, merge(logs, mode), "{logs:?} cut at {cut}");
    Some(counted_on.map_or_else(|refusal| refusal.number, |_| 0))
}

/// Each train with each log behind it.
fn longer<'a>(trains: &[Vec<&'a [u8]>], logs: &'a [Vec<u8>]) -> Vec<Vec<&'a [u8]>> {
    let with_each = |train: &Vec<&'a [u8]>| {
        let train = train.clone();
        logs.iter().map(move |log| [&train[..], &[log]].concat())
    };
    trains.iter().flat_map(with_each).collect()
}

#[test]
fn week_by_week_is_all_at_once() {
    let handful = handful();
    let none = vec![vec![]];
    let one = longer(&none, &handful);
    let two = longer(&one, &handful);
    let three = longer(&two, &handful);
    let mut met = BTreeSet::new();
    for train in [none, one, two, three].concat() {
        for cut in 0..=train.len() {
            let numbers = MODES.map(|mode| same_week_by_week(&train, cut, mode));
            met.extend(numbers.into_iter().flatten());
        }
    }
    // Nothing that the handful can give was left out.
    assert_eq!(met, BTreeSet::from([0, 1, 8, 20, 22, 25]));
}
