/// A refusal: document 01's number, and the place that it names.
#[derive(Clone, Copy, Debug, PartialEq, Eq)]
pub struct Refusal {
    /// The number; [`crate::number`] names them.
    pub number: u8,
    /// A byte of the input, a sheet, a list entry, or 0, as the table says for the number.
    pub place: usize,
}

impl Refusal {
    /// The refusal of this number at this place.
    pub const fn new(number: u8, place: usize) -> Self {
        Self { number, place }
    }
}
