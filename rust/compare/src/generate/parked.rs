//! Trains of parked logs: Null at a column or inside one, before, behind or between other
//! types there, also where fields of one name fold inside one sheet or one struct; with
//! dictionary numbers, which stay with the first, and without.

use super::source;
use arrow_schema::{DataType, Field, Fields, Schema};
use oracle::dict_id;
use oracle::random::{self, Random};
use std::sync::Arc;

/// Where the Null stands.
#[derive(Clone, Copy, Debug, PartialEq, Eq)]
enum Place {
    Column,
    StructChild,
    ListChild,
    LargeListChild,
    ListedStructChild,
    RepeatedColumn,
    RepeatedChild,
}

/// What one log has there.
#[derive(Clone, Copy, Debug, PartialEq, Eq)]
enum Log {
    Null,
    Ordered,
    Unordered,
    Other,
}

const PLACES: [Place; 7] = [
    Place::Column,
    Place::StructChild,
    Place::ListChild,
    Place::LargeListChild,
    Place::ListedStructChild,
    Place::RepeatedColumn,
    Place::RepeatedChild,
];

/// The logs that a train begins with.
const BEGINNINGS: [&[Log]; 7] = [
    &[Log::Null, Log::Ordered],
    &[Log::Null, Log::Unordered],
    &[Log::Null, Log::Other],
    &[Log::Ordered, Log::Null],
    &[Log::Unordered, Log::Null],
    &[Log::Ordered, Log::Null, Log::Unordered],
    &[Log::Unordered, Log::Null, Log::Ordered],
];

/// What comes behind them.
const MORE: [Log; 6] = [
    Log::Null,
    Log::Null,
    Log::Ordered,
    Log::Ordered,
    Log::Unordered,
    Log::Other,
];

/// How many kinds of such trains there are: each beginning at each place.
pub(super) const KINDS: usize = BEGINNINGS.len() * PLACES.len();

fn kind_of(kind: usize) -> (&'static [Log], Place) {
    let beginning = BEGINNINGS[kind / PLACES.len()];
    (beginning, PLACES[kind % PLACES.len()])
}

/// A train of this kind. Where names repeat, its beginning is in one sheet.
pub(super) fn train(random: &mut Random, kind: usize) -> Vec<u8> {
    let (beginning, place) = kind_of(kind);
    let begun: Vec<Field> = beginning.iter().map(|&log| field(random, log)).collect();
    let mut sheets: Vec<Vec<Field>> = match place {
        Place::RepeatedColumn | Place::RepeatedChild => vec![begun],
        _ => begun.into_iter().map(|field| vec![field]).collect(),
    };
    for _ in 0..random.below(3) {
        let log = random.pick(&MORE);
        sheets.push(vec![field(random, log)]);
    }
    if place == Place::RepeatedChild && random.once_in(2) {
        // an empty struct: those before it are poured
        sheets.push(Vec::new());
    }
    let schemas = sheets
        .into_iter()
        .map(|there| holding(random, place, there));
    schemas
        .flat_map(|schema| source::written(&schema))
        .collect()
}

fn field(random: &mut Random, log: Log) -> Field {
    let data_type = match log {
        Log::Null => DataType::Null,
        Log::Ordered | Log::Unordered => {
            let value = match random.once_in(8) {
                true => DataType::Int32,
                false => DataType::Utf8,
            };
            DataType::Dictionary(Box::new(DataType::Int8), Box::new(value))
        }
        Log::Other => random::data_type(random, 3),
    };
    let (nullable, dict_id) = (random.once_in(4), random::dict_id(random));
    let field = dict_id::field("p", data_type, nullable, dict_id, log == Log::Ordered);
    match random.once_in(10) {
        true => field.with_metadata([("k", random.pick(&["1", "1", "2"]))]),
        false => field,
    }
}

/// A schema that holds these fields there, behind another column perhaps. Only where names
/// repeat are they not one.
fn holding(random: &mut Random, place: Place, mut there: Vec<Field>) -> Schema {
    let around = |data_type| Field::new("log", data_type, false);
    let beside = random.once_in(2);
    let structure = |mut children: Vec<Field>| {
        if beside {
            children.push(Field::new("q", DataType::Int8, false));
        }
        DataType::Struct(Fields::from(children))
    };
    let mut columns = match place {
        Place::Column | Place::RepeatedColumn => there,
        Place::StructChild | Place::RepeatedChild => vec![around(structure(there))],
        Place::ListedStructChild => {
            let child = Field::new("item", structure(there), false);
            vec![around(DataType::List(Arc::new(child)))]
        }
        Place::ListChild | Place::LargeListChild => {
            // the names of lists' children are never compared
            let child = there.remove(0).with_name(random::name(random));
            vec![around(match place {
                Place::ListChild => DataType::List(Arc::new(child)),
                _ => DataType::LargeList(Arc::new(child)),
            })]
        }
    };
    if random.once_in(3) {
        columns.insert(0, Field::new("time", DataType::Int64, false));
    }
    Schema::new(columns)
}

#[cfg(test)]
mod tests {
    use super::*;
    use oracle::operations::{self, Mode};
    use oracle::read;

    /// The fields of a schema that stand at a place.
    fn at(place: Place, schema: &Schema) -> Vec<Field> {
        let fields = |fields: &Fields| -> Vec<Field> {
            let named = fields.iter().filter(|field| field.name() == "p");
            named.map(|field| Field::clone(field)).collect()
        };
        if matches!(place, Place::Column | Place::RepeatedColumn) {
            return fields(&schema.fields);
        }
        let column = schema.fields.last().expect("a column");
        match (place, column.data_type()) {
            (Place::StructChild | Place::RepeatedChild, DataType::Struct(children)) => {
                fields(children)
            }
            (Place::ListChild, DataType::List(child))
            | (Place::LargeListChild, DataType::LargeList(child)) => vec![Field::clone(child)],
            (Place::ListedStructChild, DataType::List(child)) => match child.data_type() {
                DataType::Struct(children) => fields(children),
                other => panic!("a list of {other}"),
            },
            (place, other) => panic!("{place:?} of {other}"),
        }
    }

    fn is(log: Log, field: &Field) -> bool {
        match log {
            Log::Null => field.data_type().is_null(),
            Log::Ordered => field.dict_is_ordered() == Some(true),
            Log::Unordered => field.dict_is_ordered() == Some(false),
            Log::Other => true,
        }
    }

    #[test]
    fn every_kind_begins_as_it_says() {
        let mut random = Random::new(2);
        for kind in (0..40).flat_map(|_| 0..KINDS) {
            let bytes = train(&mut random, kind);
            let (beginning, place) = kind_of(kind);
            let sheets = read::train(&bytes).expect("a train that reads");
            let fields = sheets.iter().flat_map(|sheet| at(place, &sheet.schema));
            let fields: Vec<Field> = fields.collect();
            assert!(fields.len() >= beginning.len(), "{kind}");
            for (&log, field) in beginning.iter().zip(&fields) {
                assert!(is(log, field), "{kind}: {log:?} {field}");
            }
        }
    }

    #[test]
    fn a_batch_begins_with_a_parked_log_and_an_ordered_dictionary_at_every_place() {
        for (kind, place) in PLACES.into_iter().enumerate() {
            assert_eq!(kind_of(kind), (BEGINNINGS[0], place));
        }
        assert_eq!(BEGINNINGS[0], [Log::Null, Log::Ordered]);
    }

    /// How often, of 200 trains of a kind, the Rust gives 20 and parked log first accepts, and
    /// how often both give 20.
    fn loosened_and_not(random: &mut Random, kind: usize) -> (usize, usize) {
        let (mut loosened, mut refused) = (0, 0);
        for _ in 0..200 {
            let bytes = train(random, kind);
            let merged = |mode| {
                let merged = operations::merge(&bytes, mode);
                merged.map_or_else(|refusal| refusal.number, |_| 0)
            };
            match (merged(Mode::AsTheRust), merged(Mode::ParkedFirst)) {
                (20, 0) => loosened += 1,
                (20, 20) => refused += 1,
                _ => {}
            }
        }
        (loosened, refused)
    }

    #[test]
    fn the_modes_differ_at_every_place_and_in_both_orders() {
        let mut random = Random::new(3);
        for kind in 0..KINDS {
            let (loosened, refused) = loosened_and_not(&mut random, kind);
            match kind_of(kind).0 {
                [Log::Null, Log::Ordered] | [Log::Ordered, Log::Null] => {
                    assert!(loosened > 40, "{:?} {loosened}", kind_of(kind));
                }
                [_, Log::Null, _] => assert!(refused > 40, "{:?} {refused}", kind_of(kind)),
                _ => assert!(refused > 5, "{:?} {refused}", kind_of(kind)),
            }
        }
    }
}
