//! Sheets: of random schemas, of deep ones, of ones around 65,535 bytes, damaged copies of
//! them, and pairs of sheets that have to do with each other.

use super::{damage, vary};
use arrow_schema::{DataType, Field, Schema, TimeUnit};
use oracle::limits::{LEVELS, SHEET_BYTES};
use oracle::random::{self, Random};
use oracle::{dict_id, write};

/// Bytes that a sheet is likely to hold: maps, small counts, all codes, edges.
const TELLING: [u8; 20] = [
    0, 0, 0, 1, 1, 2, 3, 4, 8, 13, 16, 21, 27, 32, 33, 34, 39, 40, 128, 255,
];

/// One sheet in so many is around 65,535 bytes long.
const LARGE: usize = 500;

/// One sheet in so many has a dictionary number that is stored as 0.
const WITH_0: usize = 40;

/// A sheet, damaged or not.
pub(super) fn sheet(random: &mut Random) -> Vec<u8> {
    sheet_and_schema(random).0
}

/// A sheet, damaged or not, and the schema that it was before.
pub(super) fn sheet_and_schema(random: &mut Random) -> (Vec<u8>, Schema) {
    let schema = schema(random);
    if random.once_in(12) {
        return (telling(random), schema);
    }
    let bytes = perhaps_with_0(random, &schema);
    (damage::perhaps(random, bytes), schema)
}

/// Two sheets, related most of the time, each damaged or not.
pub(super) fn pair(random: &mut Random) -> (Vec<u8>, Vec<u8>) {
    let one = schema(random);
    let other = match random.once_in(12) {
        true => schema(random),
        false => vary::related(random, &one),
    };
    let [mut one, mut other] = [one, other].map(|schema| perhaps_with_0(random, &schema));
    match random.below(16) {
        0..4 => {
            one = damage::perhaps(random, one);
            other = damage::perhaps(random, other);
        }
        4 => other = telling(random),
        _ => {}
    }
    match random.once_in(2) {
        true => (one, other),
        false => (other, one),
    }
}

/// Three sheets, of which each is likely to contain the next.
pub(crate) fn chain(random: &mut Random) -> [Vec<u8>; 3] {
    let last = schema(random);
    let middle = vary::containing(random, &last);
    let first = vary::containing(random, &middle);
    [first, middle, last].map(|schema| written(&schema))
}

/// A schema: an ordinary one, a deep one or a large one.
pub(super) fn schema(random: &mut Random) -> Schema {
    if random.once_in(LARGE) {
        return large(random);
    }
    match random.below(20) {
        0 => {
            let levels = LEVELS - 2 + random.below(5);
            random::deep(random, levels)
        }
        _ => random::schema(random),
    }
}

/// The schema's bytes, past the limit too.
pub(super) fn written(schema: &Schema) -> Vec<u8> {
    write::layout(schema).expect("every count and length fits")
}

/// The schema's bytes; now and then one field has a dictionary number, and that is stored as 0.
pub(super) fn perhaps_with_0(random: &mut Random, schema: &Schema) -> Vec<u8> {
    /// Eight bytes that nothing else in a sheet is.
    const MARK: [u8; 8] = [0xfe; 8];
    if !random.once_in(WITH_0) {
        return written(schema);
    }
    let mark = |_: &mut Random, field: Field| dict_id::with(&field, i64::from_le_bytes(MARK));
    let mut bytes = written(&vary::one(schema, random, mark));
    if let Some(at) = bytes.windows(8).position(|part| part == MARK) {
        bytes[at..at + 8].fill(0);
    }
    bytes
}

/// Bytes that begin like a sheet and go on at random: a column, one with a dictionary number,
/// one below many lists, metadata with keys in any order, a union with any ids, or nothing of a
/// sheet.
pub(super) fn telling(random: &mut Random) -> Vec<u8> {
    let count = random.below(5) as u8;
    let lists = LEVELS - 3 + random.below(4);
    let mut bytes = match random.below(7) {
        0 => Vec::new(),
        1 => vec![1, count, 0],
        2 => vec![2, 1, 0, 0, 33, random.pick(&[0, 1, 1, 2]), count, 0],
        3 => [vec![2, 1, 0], [0, 27].repeat(lists)].concat(),
        4 => {
            let dict_id = random.pick(&[0, 1, -1, 1 << 56, i64::MIN]).to_le_bytes();
            [&[2, 1, 0, random.pick(&[16, 17, 18, 48])], &dict_id[..]].concat()
        }
        _ => vec![2, 1, 0],
    };
    for _ in 0..count {
        match bytes.as_slice() {
            [1, ..] => bytes.extend([1, 0, random.pick(b"abcdefgh\xff"), 0, 0]),
            [2, 1, 0, 0, 33, ..] => {
                let any = random.byte();
                bytes.extend([random.pick(&[0, 1, 2, 3, 126, 127, 128, any]), 0, 2]);
            }
            _ => {}
        }
    }
    if random.once_in(2) {
        let more = random.below(12);
        bytes.extend((0..more).map(|_| random.pick(&TELLING)));
    }
    bytes
}

/// A schema whose sheet has 65,535 bytes, a few less or a few more.
pub(super) fn large(random: &mut Random) -> Schema {
    let most = SHEET_BYTES - 4 + random.below(10);
    let base = random::schema(random);
    if random.once_in(10) {
        return many_columns(base, most);
    }
    let (first, place) = (random.once_in(2), random.below(6));
    let filled = |bytes: usize| filled(&base, first, place, "n".repeat(bytes));
    let empty = write::length(&filled(1)) as usize;
    filled((most + 1).saturating_sub(empty).min(SHEET_BYTES))
}

/// The schema with a long text in one of six places.
fn filled(base: &Schema, first: bool, place: usize, text: String) -> Schema {
    let plain = || Field::new("", DataType::Int8, false);
    let column = match place {
        0 => {
            let mut metadata = base.metadata.clone();
            metadata.insert("long", text);
            return base.clone().with_metadata(metadata);
        }
        1 => plain().with_metadata([("k", text)]),
        2 => {
            let zoned = DataType::Timestamp(TimeUnit::Second, Some(text.into()));
            plain().with_data_type(zoned)
        }
        3 => {
            let child = plain().with_name(text);
            plain().with_data_type(DataType::Struct(vec![child].into()))
        }
        // before a dictionary number
        4 => dict_id::with(&plain().with_name(text), -1),
        _ => plain().with_name(text),
    };
    let mut columns = base.fields.to_vec();
    let at = if first { 0 } else { columns.len() };
    columns.insert(at, column.into());
    Schema::new_with_metadata(columns, base.metadata.clone())
}

/// The schema with as many of the smallest columns as it takes.
fn many_columns(base: Schema, most: usize) -> Schema {
    let mut columns = base.fields.to_vec();
    let left = most.saturating_sub(3 + write::length(&base) as usize);
    let smallest = || Field::new("", DataType::Int8, false).into();
    columns.extend((0..left / 2).map(|_| -> arrow_schema::FieldRef { smallest() }));
    Schema::new_with_metadata(columns, base.metadata)
}

#[cfg(test)]
mod tests {
    use super::*;
    use oracle::read;

    #[test]
    fn large_schemas_are_around_the_limit() {
        let mut random = Random::new(7);
        let mut past = 0;
        for _ in 0..60 {
            let length = written(&large(&mut random)).len();
            assert!(length.abs_diff(SHEET_BYTES) < 20, "{length}");
            past += usize::from(length > SHEET_BYTES);
        }
        assert!((10..50).contains(&past), "{past} of 60 are past the limit");
    }

    #[test]
    fn a_dictionary_number_is_stored_as_0_now_and_then() {
        let mut random = Random::new(8);
        let mut stored = 0;
        for _ in 0..4000 {
            let schema = random::schema(&mut random);
            let bytes = perhaps_with_0(&mut random, &schema);
            if let Err(refusal) = read::sheet(&bytes) {
                assert_eq!(refusal.number, 2);
                assert_eq!(bytes[refusal.place..][..8], [0; 8]);
                stored += 1;
            }
        }
        assert!((50..100).contains(&stored), "{stored} of 4000");
    }
}
