//! Random schemas of all 41 types, for the tests here and for the comparison: small, with
//! names, keys and ids from small pools, so that they meet.

use std::sync::Arc;

use arrow_schema::{
    DataType, Field, FieldRef, Fields, IntervalUnit, Metadata, Schema, TimeUnit, UnionFields,
    UnionMode,
};

use crate::dict_id;

/// Names of fields, the empty one among them.
const NAMES: [&str; 8] = ["", "a", "b", "c", "ab", "item", "é", "v.a"];
/// Keys of metadata; an empty key and a key that begins another are among them.
const KEYS: [&str; 6] = ["", "k", "k1", "l", "é", "\u{10ffff}"];
/// Dictionary numbers: both ends, both signs, and bits of a lower and of a higher byte alone.
const DICT_IDS: [i64; 7] = [1, 2, -1, 256, 1 << 32, i64::MAX, i64::MIN];
/// Values of metadata.
const VALUES: [&str; 3] = ["", "1", "2"];
/// Time zones; the empty one differs from none.
const ZONES: [Option<&str>; 4] = [None, Some(""), Some("UTC"), Some("+07:30")];
const UNITS: [TimeUnit; 4] = [
    TimeUnit::Second,
    TimeUnit::Millisecond,
    TimeUnit::Microsecond,
    TimeUnit::Nanosecond,
];
const INTERVAL_UNITS: [IntervalUnit; 3] = [
    IntervalUnit::YearMonth,
    IntervalUnit::DayTime,
    IntervalUnit::MonthDayNano,
];
/// Levels that [`schema`] nests to, at most.
const USUAL_LEVELS: usize = 4;

/// A small generator of pseudo-random numbers (splitmix64): the same seed, the same numbers.
#[derive(Clone, Debug)]
pub struct Random(u64);

impl Random {
    /// The generator of this seed.
    pub const fn new(seed: u64) -> Self {
        Self(seed)
    }

    /// The next number.
    pub const fn next(&mut self) -> u64 {
        self.0 = self.0.wrapping_add(0x9e37_79b9_7f4a_7c15);
        let mut mixed = self.0;
        mixed = (mixed ^ (mixed >> 30)).wrapping_mul(0xbf58_476d_1ce4_e5b9);
        mixed = (mixed ^ (mixed >> 27)).wrapping_mul(0x94d0_49bb_1331_11eb);
        mixed ^ (mixed >> 31)
    }

    /// A number below `bound`, which is not 0.
    pub const fn below(&mut self, bound: usize) -> usize {
        (self.next() % bound as u64) as usize
    }

    /// True once in `times`, on the whole.
    pub const fn once_in(&mut self, times: usize) -> bool {
        self.below(times) == 0
    }

    /// Any byte.
    pub const fn byte(&mut self) -> u8 {
        self.next() as u8
    }

    /// One of the choices.
    pub fn pick<T: Clone>(&mut self, choices: &[T]) -> T {
        choices[self.below(choices.len())].clone()
    }
}

/// A schema of up to five columns, nested to four levels at most.
pub fn schema(random: &mut Random) -> Schema {
    let columns = random.below(6);
    let fields = fields(random, columns, USUAL_LEVELS);
    Schema::new_with_metadata(fields, metadata(random))
}

/// A schema that has a column of exactly so many levels (1 or more), and perhaps another.
pub fn deep(random: &mut Random, levels: usize) -> Schema {
    let mut columns = vec![around(random, |random| chain(random, levels))];
    if random.once_in(2) {
        columns.insert(random.below(2), field(random, 2));
    }
    Schema::new(columns)
}

/// A field of at most so many levels (1 or more).
pub fn field(random: &mut Random, levels: usize) -> Field {
    around(random, |random| data_type(random, levels))
}

/// A name of the pool.
pub fn name(random: &mut Random) -> &'static str {
    random.pick(&NAMES)
}

/// Metadata of up to three pairs, none most of the time.
pub fn metadata(random: &mut Random) -> Metadata {
    let pairs = match random.below(4) {
        0 => 1 + random.below(3),
        _ => 0,
    };
    (0..pairs)
        .map(|_| (random.pick(&KEYS), random.pick(&VALUES)))
        .collect()
}

/// A type of at most so many levels (1 or more).
pub fn data_type(random: &mut Random, levels: usize) -> DataType {
    if levels <= 1 || random.once_in(2) {
        leaf(random)
    } else {
        nested(random, levels - 1)
    }
}

/// A field with a random head around a type.
fn around(random: &mut Random, data_type: impl FnOnce(&mut Random) -> DataType) -> Field {
    let (name, nullable, ordered) = (name(random), random.once_in(2), random.once_in(2));
    let metadata = metadata(random);
    let dict_id = dict_id(random);
    dict_id::field(name, data_type(random), nullable, dict_id, ordered).with_metadata(metadata)
}

/// A dictionary number, none (0) most of the time.
pub fn dict_id(random: &mut Random) -> i64 {
    match random.below(16) {
        0 => random.next().cast_signed(),
        1..4 => random.pick(&DICT_IDS),
        _ => 0,
    }
}

fn fields(random: &mut Random, count: usize, levels: usize) -> Fields {
    (0..count).map(|_| field(random, levels)).collect()
}

fn number(random: &mut Random) -> i32 {
    let any = random.next() as i32;
    random.pick(&[0, 1, 4, -1, i32::MAX, i32::MIN, any])
}

fn mode(random: &mut Random) -> UnionMode {
    random.pick(&[UnionMode::Sparse, UnionMode::Dense])
}

/// Different ids, in no order.
fn ids(random: &mut Random, count: usize) -> Vec<i8> {
    let mut ids: Vec<i8> = Vec::new();
    while ids.len() < count {
        let any = random.below(128) as i8;
        let id = random.pick(&[0, 1, 2, 3, 127, any]);
        if !ids.contains(&id) {
            ids.push(id);
        }
    }
    ids
}

/// A type without children, Null more often than another.
pub fn leaf(random: &mut Random) -> DataType {
    use DataType as T;
    let (precision, scale) = (random.pick(&[0, 9, 255]), random.pick(&[0, 2, -128, 127]));
    let unit = random.pick(&UNITS);
    match random.below(36) {
        0 => T::Boolean,
        1 => T::Int8,
        2 => T::Int16,
        3 => T::Int32,
        4 => T::Int64,
        5 => T::UInt8,
        6 => T::UInt16,
        7 => T::UInt32,
        8 => T::UInt64,
        9 => T::Float16,
        10 => T::Float32,
        11 => T::Float64,
        12 => T::Timestamp(unit, random.pick(&ZONES).map(Arc::from)),
        13 => T::Date32,
        14 => T::Date64,
        15 => T::Time32(unit),
        16 => T::Time64(unit),
        17 => T::Duration(unit),
        18 => T::Interval(random.pick(&INTERVAL_UNITS)),
        19 => T::Binary,
        20 => T::FixedSizeBinary(number(random)),
        21 => T::LargeBinary,
        22 => T::BinaryView,
        23 => T::Utf8,
        24 => T::LargeUtf8,
        25 => T::Utf8View,
        26 => T::Decimal32(precision, scale),
        27 => T::Decimal64(precision, scale),
        28 => T::Decimal128(precision, scale),
        29 => T::Decimal256(precision, scale),
        _ => T::Null,
    }
}

/// A type that holds others, those of at most so many levels (1 or more).
fn nested(random: &mut Random, levels: usize) -> DataType {
    use DataType as T;
    let child = |random: &mut Random| -> FieldRef { Arc::new(field(random, levels)) };
    match random.below(12) {
        0 => T::List(child(random)),
        1 => T::ListView(child(random)),
        2 => T::FixedSizeList(child(random), number(random)),
        3 => T::LargeList(child(random)),
        4 => T::LargeListView(child(random)),
        5 => T::Map(child(random), random.once_in(2)),
        6 => T::RunEndEncoded(child(random), child(random)),
        7 => {
            let (key, value) = (data_type(random, levels), data_type(random, levels));
            T::Dictionary(Box::new(key), Box::new(value))
        }
        8 | 9 => {
            let count = random.below(4);
            let children: Vec<Field> = (0..count).map(|_| field(random, levels)).collect();
            let ids = ids(random, count);
            let children = UnionFields::try_new(ids, children).expect("ids that differ");
            T::Union(children, mode(random))
        }
        _ => {
            let count = random.below(4);
            T::Struct(fields(random, count, levels))
        }
    }
}

/// A type of exactly so many levels: each but the last holds the next.
fn chain(random: &mut Random, levels: usize) -> DataType {
    use DataType as T;
    if levels <= 1 {
        return match random.below(3) {
            0 => T::Struct(Fields::empty()),
            1 => T::Union(UnionFields::empty(), mode(random)),
            _ => leaf(random),
        };
    }
    let below = levels - 1;
    let next = |random: &mut Random| -> FieldRef {
        Arc::new(around(random, |random| chain(random, below)))
    };
    let short = |random: &mut Random| -> FieldRef { Arc::new(field(random, 1)) };
    match random.below(13) {
        0 => T::List(next(random)),
        1 => T::ListView(next(random)),
        2 => T::FixedSizeList(next(random), number(random)),
        3 => T::LargeList(next(random)),
        4 => T::LargeListView(next(random)),
        5 => T::Map(next(random), random.once_in(2)),
        6 => T::RunEndEncoded(short(random), next(random)),
        7 => T::RunEndEncoded(next(random), short(random)),
        8 => T::Dictionary(Box::new(leaf(random)), Box::new(chain(random, below))),
        9 => T::Dictionary(Box::new(chain(random, below)), Box::new(leaf(random))),
        10 => T::Struct(Fields::from(vec![next(random)])),
        11 => T::Struct(Fields::from(vec![short(random), next(random)])),
        _ => {
            let ids = ids(random, 2);
            let children = UnionFields::try_new(ids, [short(random), next(random)]);
            T::Union(children.expect("ids that differ"), mode(random))
        }
    }
}
