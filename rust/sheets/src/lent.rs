//! The calls as the library has them, with lent buffers.
//!
//! Nothing is allocated and nothing is left to the caller to test: whatever the bytes and
//! the buffers' lengths are, the call answers.
//!
//! A call on sheets wants a work buffer of at least 4 times the sheets' bytes; it is all 0
//! afterwards (untouched after 32). An accepted call writes its answer at the answer
//! buffer's start and touches nothing behind it; a refusal touches none of it.
//!
//! ```
//! let sheet = [2, 1, 0, 4, 1, 0, b'v', 4];
//! let (mut work, mut answer) = ([0; 32], [0; 2]);
//! let exit = sheets::lent::index_of(&sheet, b"v", &mut work, &mut answer);
//! assert_eq!((exit.number, exit.place, exit.length), (0, 0, 2));
//! assert_eq!(answer, [0, 0]);
//! ```

/// What a call gives beside its buffers.
#[derive(Clone, Copy, Debug, PartialEq, Eq)]
pub struct Exit {
    /// Document 01's number; 0 is accepted.
    pub number: u8,
    /// The place that the number names; 0 where it names none.
    pub place: usize,
    /// How many bytes of answer were written; 0 after a refusal.
    pub length: usize,
}

/// Gives each function below its body: `fn NAME(PARAMETERS) = EXPORT;`.
///
/// An export takes a slice as a pointer and a length, a number as it is, then the two places
/// that it sets, and behind them each choice (a `u8`); its result is the number. Each kind of
/// parameter has a rule of its own, which adds it to the parameters of the function, and then
/// to the types that the export takes and to what it is given, before the two places or
/// behind them.
macro_rules! calls {
    ($($(#[$doc:meta])* fn $name:ident($($parameters:tt)*) = $export:ident;)*) => {
        $(calls! { @take [$(#[$doc])* $name $export] [] [] [] [] [] $($parameters)*, })*
    };
    (@take $call:tt [$($own:tt)*] [$($types:tt)*] [$($given:tt)*] $behind:tt $last:tt $slice:ident: &[u8], $($rest:tt)*) => {
        calls! { @take $call
            [$($own)* $slice: &[u8],]
            [$($types)* _: *const u8, _: usize,]
            [$($given)* $slice.as_ptr(), $slice.len(),]
            $behind $last $($rest)* }
    };
    (@take $call:tt [$($own:tt)*] [$($types:tt)*] [$($given:tt)*] $behind:tt $last:tt $buffer:ident: &mut [u8], $($rest:tt)*) => {
        calls! { @take $call
            [$($own)* $buffer: &mut [u8],]
            [$($types)* _: *mut u8, _: usize,]
            [$($given)* $buffer.as_mut_ptr(), $buffer.len(),]
            $behind $last $($rest)* }
    };
    (@take $call:tt [$($own:tt)*] [$($types:tt)*] [$($given:tt)*] $behind:tt $last:tt $number:ident: u16, $($rest:tt)*) => {
        calls! { @take $call
            [$($own)* $number: u16,]
            [$($types)* _: u16,]
            [$($given)* $number,]
            $behind $last $($rest)* }
    };
    (@take $call:tt [$($own:tt)*] $types:tt $given:tt [$($behind:tt)*] [$($last:tt)*] $choice:ident: u8, $($rest:tt)*) => {
        calls! { @take $call
            [$($own)* $choice: u8,]
            $types $given
            [$($behind)* _: u8,]
            [$($last)* $choice,]
            $($rest)* }
    };
    (@take [$(#[$doc:meta])* $name:ident $export:ident] [$($own:tt)*] [$($types:tt)*] [$($given:tt)*] [$($behind:tt)*] [$($last:tt)*]) => {
        $(#[$doc])*
        pub fn $name($($own)*) -> Exit {
            unsafe extern "C" {
                fn $export($($types)* _: *mut usize, _: *mut usize, $($behind)*) -> u8;
            }
            // A value that no call gives, so that a place or length left unset is seen.
            let (mut place, mut length) = (usize::MAX, usize::MAX);
            // SAFETY: the export reads the slices, reads and writes the buffers, sets both
            // numbers, and keeps no pointer. Each pointer is that of a live slice of its
            // length or of a live number, and `&mut` overlaps nothing.
            let number = unsafe { $export($($given)* &mut place, &mut length, $($last)*) };
            Exit { number, place, length }
        }
    };
}

calls! {
    /// Whether the type of each column is nested: writes one byte for each, 1 for yes.
    fn is_nested(sheet: &[u8], work: &mut [u8], answer: &mut [u8]) = sheets_is_nested;

    /// Whether the columns of two sheets are equal: writes one byte. Order flags, dictionary
    /// numbers and schema metadata do not count.
    fn equal(sheet: &[u8], other: &[u8], work: &mut [u8], answer: &mut [u8]) = sheets_equal;

    /// Whether the columns of two sheets are equal but for names, metadata, order flags,
    /// dictionary numbers and the order of union children: writes one byte.
    fn equals_datatype(sheet: &[u8], other: &[u8], work: &mut [u8], answer: &mut [u8]) = sheets_equals_datatype;

    /// Whether the first sheet contains the other: writes one byte. Dictionary numbers do not
    /// count.
    fn contains(sheet: &[u8], other: &[u8], work: &mut [u8], answer: &mut [u8]) = sheets_contains;

    /// Numbers a union of so many fields by these ids: writes the ids. 6 and 7 give the list
    /// position as place.
    fn try_new(ids: &[u8], count: u16, answer: &mut [u8]) = sheets_try_new;

    /// Numbers a union of so many fields from 0: writes the ids, or gives 16 above 128.
    fn try_from_fields(count: u16, answer: &mut [u8]) = sheets_try_from_fields;

    /// Merges a train, sheets end to end, into one sheet. No bytes are a train of no sheets. A
    /// field has the dictionary number of the first sheet that has the field, or none.
    ///
    /// A mode of 0 is the Rust's; every other is parked log first, and none is refused.
    /// [`Mode`](crate::Mode) says what they do, and turns into the number.
    fn merge(train: &[u8], work: &mut [u8], answer: &mut [u8], mode: u8) = sheets_merge;

    /// Writes the index of the first column of that name as a u16, or gives 13.
    ///
    /// The name's bytes do not count for the work buffer.
    fn index_of(sheet: &[u8], name: &[u8], work: &mut [u8], answer: &mut [u8]) = sheets_index_of;

    /// Writes the count of all fields, nested ones included, as a u16, then the offset of each
    /// field's map in the sheet as a u16: parents first, run ends and dictionary keys left out.
    fn flattened_fields(sheet: &[u8], work: &mut [u8], answer: &mut [u8]) = sheets_flattened_fields;

    /// Writes the sheet of the columns that a list of u16 numbers names; repeats are allowed.
    fn project(sheet: &[u8], list: &[u8], work: &mut [u8], answer: &mut [u8]) = sheets_project;

    /// Writes the sheet of the columns that a list of u16 numbers names; a repeat is 11.
    fn project_strict(sheet: &[u8], list: &[u8], work: &mut [u8], answer: &mut [u8]) = sheets_project_strict;

    /// Writes the sheet with its structs taken apart, names joined by the separator, down to a
    /// level (0: no limit). The columns that it writes lose metadata, order flag and dictionary
    /// number; what lies inside their types stays.
    fn normalize(sheet: &[u8], separator: &[u8], max_level: u16, work: &mut [u8], answer: &mut [u8]) = sheets_normalize;

    /// Writes the sheet of the leaves that a mask keeps: byte i keeps leaf i unless it is 0.
    fn filter(sheet: &[u8], mask: &[u8], work: &mut [u8], answer: &mut [u8]) = sheets_filter;
}
