//! Refusals in words: what the bench reads.

use std::collections::HashSet;
use std::error::Error;

use sheets::{Counts, Refusal};

/// Document 01's table: each number and what its place counts, for a call on sheets.
const TABLE: [(u8, Counts); 29] = [
    (1, Counts::Bytes),
    (9, Counts::Bytes),
    (5, Counts::Bytes),
    (2, Counts::Bytes),
    (3, Counts::Bytes),
    (4, Counts::Bytes),
    (6, Counts::Bytes),
    (7, Counts::Bytes),
    (8, Counts::Bytes),
    (33, Counts::Bytes),
    (17, Counts::Nothing),
    (10, Counts::Entries),
    (11, Counts::Entries),
    (12, Counts::Nothing),
    (18, Counts::Nothing),
    (13, Counts::Nothing),
    (14, Counts::Nothing),
    (15, Counts::Nothing),
    (16, Counts::Nothing),
    (25, Counts::Sheets),
    (20, Counts::Sheets),
    (21, Counts::Sheets),
    (22, Counts::Sheets),
    (23, Counts::Sheets),
    (24, Counts::Sheets),
    (30, Counts::Nothing),
    (31, Counts::Nothing),
    (32, Counts::Nothing),
    (35, Counts::Nothing),
];

#[test]
fn the_numbers_are_those_of_the_table() {
    let mut numbers: Vec<u8> = TABLE.iter().map(|&(number, _)| number).collect();
    numbers.sort_unstable();
    assert_eq!(numbers, Refusal::NUMBERS);
    for (number, counts) in TABLE {
        let refusal = Refusal::new(number, 7);
        assert_eq!((refusal.number, refusal.place), (number, 7));
        assert_eq!(refusal.counts, counts, "{number}");
    }
}

#[test]
fn each_number_has_a_sentence_of_its_own() {
    let unknown = Refusal::new(19, 0).sentence();
    let sentences: HashSet<&str> = Refusal::NUMBERS
        .iter()
        .map(|&number| Refusal::new(number, 0).sentence())
        .collect();
    assert_eq!(sentences.len(), Refusal::NUMBERS.len());
    assert!(!sentences.contains(unknown));
    for sentence in sentences {
        assert!(sentence.len() > 10, "{sentence}");
        assert!(!sentence.contains("  "), "{sentence}");
    }
    for number in (0..=u8::MAX).filter(|number| !Refusal::NUMBERS.contains(number)) {
        assert_eq!(Refusal::new(number, 0).sentence(), unknown, "{number}");
    }
}

#[test]
fn the_place_is_said_where_there_is_one() {
    let said = |refusal: Refusal| refusal.to_string();
    assert_eq!(
        said(Refusal::new(20, 1)),
        "sheet 1: the ordered flags of a column differ"
    );
    assert_eq!(
        said(Refusal::new(3, 12)),
        "byte 12: a name or other text is not UTF-8"
    );
    assert_eq!(
        said(Refusal::new(10, 0)),
        "entry 0: the index is past the last column"
    );
    assert_eq!(said(Refusal::new(13, 0)), "no column has that name");
}

#[test]
fn a_numbering_counts_ids_where_a_sheet_counts_bytes() {
    for number in [6, 7] {
        assert_eq!(Refusal::new(number, 3).counts, Counts::Bytes);
        let refusal = Refusal::of_numbering(number, 3);
        assert_eq!((refusal.number, refusal.place), (number, 3));
        assert_eq!(refusal.counts, Counts::Entries);
        assert!(refusal.to_string().starts_with("entry 3: "));
    }
    for number in [14, 15, 16, 31] {
        assert_eq!(
            Refusal::of_numbering(number, 0),
            Refusal::new(number, 0),
            "{number}"
        );
    }
}

#[test]
fn a_refusal_is_an_error() {
    let error: Box<dyn Error> = Refusal::new(8, 5).into();
    assert_eq!(
        error.to_string(),
        "byte 5: bytes are left behind the end of the sheet"
    );
}
