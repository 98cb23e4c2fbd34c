//! The numbers of the modes.

use sheets::Mode;

/// What the C header says.
const HEADER: &str = include_str!("../../../include/sheets.h");

#[test]
fn the_header_has_the_same_numbers() {
    let modes = [
        ("SHEETS_AS_THE_RUST", Mode::AsTheRust),
        ("SHEETS_PARKED_FIRST", Mode::ParkedFirst),
    ];
    for (name, mode) in modes {
        let line = format!("\n#define {name} {}\n", u8::from(mode));
        assert!(HEADER.contains(&line), "{line}");
    }
}
