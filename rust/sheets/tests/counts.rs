//! A struct that has more than 65,535 children on the way: clashes are still looked for, and the answer is then too long.
#![cfg(feature = "linked")]

use sheets::{Mode, merge_train};

/// How many new children each sheet has, and how many sheets.
const CHILDREN: usize = 8192;
const SHEETS: usize = 8;
const _: () = assert!(CHILDREN * SHEETS > 65_535);

/// The sheet of one column `s:Struct` with these Int8 children, whose names are three digits of six bits.
fn sheet(children: std::ops::Range<usize>, code: u8) -> Vec<u8> {
    let [low, high] = u16::try_from(children.len())
        .expect("a count")
        .to_le_bytes();
    let mut bytes = vec![2, 1, 0, 4, 1, 0, b's', 32, low, high];
    for child in children {
        let digits =
            [0, 6, 12].map(|bits| b'0' + u8::try_from(child >> bits & 63).expect("six bits"));
        bytes.extend([4, 3, 0]);
        bytes.extend(digits);
        bytes.push(code);
    }
    bytes
}

#[test]
fn more_than_65535_children_on_the_way() {
    let sheets = (0..SHEETS).map(|one| sheet(one * CHILDREN..(one + 1) * CHILDREN, 2));
    let mut train = sheets.collect::<Vec<_>>().concat();
    let refusal = merge_train(&train, Mode::AsTheRust).expect_err("an answer above 65,535 bytes");
    assert_eq!((refusal.number, refusal.place), (30, 0));

    // the first child again, as Int16
    train.extend(sheet(0..1, 3));
    let refusal = merge_train(&train, Mode::AsTheRust).expect_err("a clash behind them");
    assert_eq!((refusal.number, refusal.place), (22, SHEETS));
}
