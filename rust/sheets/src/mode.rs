//! The mode of a merge.

/// What a merge does with the order flag of a column that some logs have as Null.
///
/// A log that begins with the chair parked records Null for a channel that never spoke, and a
/// Null has no order flag. Where other logs have an ordered dictionary there, the two modes
/// differ; on everything else they give the same.
///
/// Take [`ParkedFirst`](Self::ParkedFirst) for the desk's tables, where a parked log must not
/// keep a good one out. Take [`AsTheRust`](Self::AsTheRust) where the answer has to be that of
/// `Schema::try_merge`. Do not mix the two in one table: what one month's merge accepted, the
/// next month's may refuse.
#[derive(Clone, Copy, Debug, Default, PartialEq, Eq, Hash)]
pub enum Mode {
    /// As `Schema::try_merge` of arrow-schema 60.1.0: Null beside an ordered dictionary is
    /// refused as 20.
    #[default]
    AsTheRust = 0,
    /// Parked log first: order flags are not compared where either type is Null, and a Null
    /// that takes a type takes its order flag too. This holds for columns, and inside them for
    /// the children of structs, lists and large lists. Between two types that are not Null,
    /// 20 stays.
    ParkedFirst = 1,
}

/// The number that the call with lent buffers takes for the mode.
///
/// ```
/// assert_eq!(u8::from(sheets::Mode::default()), 0);
/// assert_eq!(u8::from(sheets::Mode::ParkedFirst), 1);
/// ```
impl From<Mode> for u8 {
    fn from(mode: Mode) -> Self {
        mode as Self
    }
}
