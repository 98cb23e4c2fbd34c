//! The buffers of a call: 32, 30 and 31 in their order, and every byte left at exit.

mod common;

use arrow_schema::DataType;
use common::{hex, named, train, v};
use oracle::call::{Exit, on_sheets, without_sheets};
use oracle::{Refusal, calls};

/// Buffers at entry: no byte of them is 0.
fn lent(length: usize) -> Vec<u8> {
    vec![0xaa; length]
}

fn exit(number: u8, place: usize, length: usize) -> Exit {
    Exit {
        number,
        place,
        length,
    }
}

#[test]
fn an_accepted_call_writes_the_answer_alone_and_clears_the_work_buffer() {
    let both = train(&[v(DataType::Null), v(DataType::Int32)]);
    let (mut work, mut answer) = (lent(4 * 16 + 3), lent(10));
    assert_eq!(
        calls::merge(&both, &mut work, &mut answer, 0),
        exit(0, 0, 8)
    );
    assert_eq!(answer, hex("0201000501007604 aaaa"));
    assert_eq!(work, vec![0; 67]);
}

#[test]
fn work_room_is_judged_before_reading_and_left_untouched() {
    let (mut work, mut answer) = (lent(3), lent(4));
    assert_eq!(
        calls::is_nested(&[0xff], &mut work, &mut answer),
        exit(32, 0, 0)
    );
    assert_eq!((work, answer), (lent(3), lent(4)));
    let (mut work, mut answer) = (lent(4), lent(4));
    assert_eq!(
        calls::is_nested(&[0xff], &mut work, &mut answer),
        exit(2, 0, 0)
    );
    assert_eq!((work, answer), (vec![0; 4], lent(4)));
}

#[test]
fn both_sheets_count_for_32_and_names_lists_masks_and_separators_do_not() {
    let sheet = hex("00");
    let long = [b'n'; 40];
    let mut answer = lent(4);
    let mut work = lent(7);
    assert_eq!(
        calls::equal(&sheet, &sheet, &mut work, &mut answer),
        exit(32, 0, 0)
    );
    let mut work = lent(8);
    assert_eq!(
        calls::equal(&sheet, &sheet, &mut work, &mut answer),
        exit(0, 0, 1)
    );
    let mut work = lent(4);
    assert_eq!(
        calls::index_of(&sheet, &long, &mut work, &mut answer),
        exit(13, 0, 0)
    );
    assert_eq!(
        calls::filter(&sheet, &long, &mut work, &mut answer),
        exit(12, 0, 0)
    );
    assert_eq!(
        calls::project(&sheet, &long, &mut work, &mut answer),
        exit(10, 0, 0)
    );
    let separated = calls::normalize(&sheet, &long, 0, &mut work, &mut answer);
    assert_eq!(separated, exit(0, 0, 1));
}

#[test]
fn empty_inputs_need_no_work_room() {
    let mut answer = lent(2);
    assert_eq!(calls::merge(&[], &mut [], &mut answer, 0), exit(0, 0, 1));
    assert_eq!(answer, hex("00 aa"));
    assert_eq!(calls::is_nested(&[], &mut [], &mut answer), exit(1, 0, 0));
    assert_eq!(calls::equal(&[], &[], &mut [], &mut answer), exit(1, 0, 0));
}

#[test]
fn an_answer_of_exactly_the_buffers_length_fits_and_one_less_is_31() {
    let sheet = v(DataType::Int8);
    let mut work = lent(4 * sheet.len());
    let mut answer = lent(2);
    assert_eq!(
        calls::index_of(&sheet, b"v", &mut work, &mut answer),
        exit(0, 0, 2)
    );
    assert_eq!(answer, [0, 0]);
    let (mut work, mut answer) = (lent(4 * sheet.len()), lent(1));
    assert_eq!(
        calls::index_of(&sheet, b"v", &mut work, &mut answer),
        exit(31, 0, 0)
    );
    assert_eq!((work, answer), (vec![0; 4 * sheet.len()], lent(1)));
    // no column, no byte: an empty buffer is enough
    assert_eq!(
        calls::is_nested(&hex("00"), &mut lent(4), &mut []),
        exit(0, 0, 0)
    );
}

#[test]
fn an_answer_above_65_535_bytes_is_30_before_31() {
    let outcome = || Ok(vec![7; 65_536]);
    assert_eq!(without_sheets(outcome(), &mut lent(70_000)), exit(30, 0, 0));
    assert_eq!(without_sheets(outcome(), &mut []), exit(30, 0, 0));
    assert_eq!(
        without_sheets(Ok(vec![7; 65_535]), &mut lent(65_535)),
        exit(0, 0, 65_535)
    );
    let both = train(&[named(40_000), named(40_001)]);
    let (mut work, mut answer) = (lent(4 * both.len()), lent(0));
    assert_eq!(
        calls::merge(&both, &mut work, &mut answer, 0),
        exit(30, 0, 0)
    );
    assert!(work.iter().all(|&byte| byte == 0));
}

#[test]
fn four_times_a_sum_that_overflows_is_compared_all_the_same() {
    let total = 2 * u128::from(u64::MAX);
    let outcome = Err(Refusal::new(1, 5));
    assert_eq!(
        on_sheets(total, outcome, &mut lent(9), &mut []),
        exit(32, 0, 0)
    );
}

#[test]
fn the_numbering_calls_take_no_work_buffer() {
    let mut answer = lent(3);
    assert_eq!(calls::try_new(&[4, 2], 2, &mut answer), exit(0, 0, 2));
    assert_eq!(answer, hex("04 02 aa"));
    assert_eq!(calls::try_new(&[4, 2, 4], 9, &mut answer), exit(7, 2, 0));
    assert_eq!(calls::try_from_fields(4, &mut answer), exit(31, 0, 0));
    assert_eq!(answer, hex("04 02 aa"));
}
