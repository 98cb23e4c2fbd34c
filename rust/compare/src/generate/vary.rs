//! Schemas that have to do with a given one: equal, changed in one field, in all flags, in
//! all dictionary numbers, in all names, in their columns.

use arrow_schema::{DataType, Field, FieldRef, Fields, Metadata, Schema, UnionFields, UnionMode};
use oracle::dict_id;
use oracle::random::{self, Random};
use std::sync::Arc;

/// A schema related to this one.
pub(super) fn related(random: &mut Random, schema: &Schema) -> Schema {
    match random.below(13) {
        0 => schema.clone(),
        1..=3 => one(schema, random, head),
        4..=6 => one(schema, random, with_another_type),
        7 => every(schema, random, |random, field| {
            field.with_name(random::name(random))
        }),
        8 => every(schema, random, wider),
        9 => every(schema, random, |random, field| {
            field.with_dict_is_ordered(random.once_in(2))
        }),
        10 => every(schema, random, perhaps_null),
        11 => every(schema, random, perhaps_numbered),
        _ => columns(random, schema),
    }
}

/// A schema that this one is likely to merge with: some types are Null, some columns gone or
/// new, some fields nullable, some dictionary numbers others.
pub(super) fn mergeable(random: &mut Random, schema: &Schema) -> Schema {
    let nulled = every(schema, random, perhaps_null);
    match random.below(5) {
        0 => columns(random, &nulled),
        1 => every(&nulled, random, wider),
        2 => one(&nulled, random, with_another_type),
        3 => every(&nulled, random, perhaps_numbered),
        _ => nulled,
    }
}

/// A schema that is likely to contain this one: fields become nullable or have one more key, a
/// union has one child less, dictionary numbers are others; or one related in any way.
pub(super) fn containing(random: &mut Random, schema: &Schema) -> Schema {
    let other = match random.below(8) {
        0 => related(random, schema),
        1 => every(schema, random, perhaps_numbered),
        2 | 3 => every(schema, random, with_a_child_less),
        _ => every(schema, random, wider),
    };
    match random.once_in(3) {
        true => {
            let metadata = other.metadata.clone().with("k2", "1");
            other.with_metadata(metadata)
        }
        false => other,
    }
}

/// Changes one field, anywhere.
pub(super) fn one(
    schema: &Schema,
    random: &mut Random,
    change: fn(&mut Random, Field) -> Field,
) -> Schema {
    let mut count = 0;
    map_schema(schema, &mut |field| {
        count += 1;
        field
    });
    if count == 0 {
        return schema.clone();
    }
    let (chosen, mut at) = (random.below(count), 0);
    map_schema(schema, &mut |field| {
        at += 1;
        if at == chosen + 1 {
            change(random, field)
        } else {
            field
        }
    })
}

/// Changes every field.
fn every(schema: &Schema, random: &mut Random, change: fn(&mut Random, Field) -> Field) -> Schema {
    map_schema(schema, &mut |field| change(random, field))
}

/// The schema with each field changed, children before the field that holds them.
fn map_schema(schema: &Schema, change: &mut dyn FnMut(Field) -> Field) -> Schema {
    let columns = map_fields(&schema.fields, change);
    Schema::new_with_metadata(columns, schema.metadata.clone())
}

fn map_fields(fields: &Fields, change: &mut dyn FnMut(Field) -> Field) -> Fields {
    fields
        .iter()
        .map(|field| map_field(field, change))
        .collect()
}

fn map_field(field: &Field, change: &mut dyn FnMut(Field) -> Field) -> FieldRef {
    let data_type = map_type(field.data_type(), change);
    Arc::new(change(field.clone().with_data_type(data_type)))
}

fn map_type(data_type: &DataType, change: &mut dyn FnMut(Field) -> Field) -> DataType {
    use DataType as T;
    match data_type {
        T::List(child) => T::List(map_field(child, change)),
        T::ListView(child) => T::ListView(map_field(child, change)),
        T::FixedSizeList(child, size) => T::FixedSizeList(map_field(child, change), *size),
        T::LargeList(child) => T::LargeList(map_field(child, change)),
        T::LargeListView(child) => T::LargeListView(map_field(child, change)),
        T::Map(child, sorted) => T::Map(map_field(child, change), *sorted),
        T::Struct(children) => T::Struct(map_fields(children, change)),
        T::Union(children, mode) => {
            let children = children
                .iter()
                .map(|(id, child)| (id, map_field(child, change)));
            T::Union(children.collect(), *mode)
        }
        T::Dictionary(key, value) => {
            let key = map_type(key, change);
            T::Dictionary(Box::new(key), Box::new(map_type(value, change)))
        }
        T::RunEndEncoded(run_ends, values) => {
            let run_ends = map_field(run_ends, change);
            T::RunEndEncoded(run_ends, map_field(values, change))
        }
        other => other.clone(),
    }
}

/// Another name, nullability, order flag, dictionary number or metadata.
fn head(random: &mut Random, field: Field) -> Field {
    match random.below(6) {
        0 => field.with_name(random::name(random)),
        1 => {
            let nullable = !field.is_nullable();
            field.with_nullable(nullable)
        }
        2 => {
            let ordered = field.dict_is_ordered() != Some(true);
            field.with_dict_is_ordered(ordered)
        }
        3 => field.with_metadata(Metadata::new()),
        4 => numbered(random, field),
        _ => field.with_metadata(random::metadata(random)),
    }
}

/// Another dictionary number, or none.
fn numbered(random: &mut Random, field: Field) -> Field {
    dict_id::with(&field, random::dict_id(random))
}

/// The schema with no dictionary number at any depth.
#[cfg(test)]
pub(super) fn without_dict_ids(schema: &Schema) -> Schema {
    map_schema(schema, &mut |field| dict_id::with(&field, 0))
}

/// Another dictionary number, perhaps.
fn perhaps_numbered(random: &mut Random, field: Field) -> Field {
    match random.once_in(2) {
        true => numbered(random, field),
        false => field,
    }
}

/// Nullable, or with one more key, perhaps.
fn wider(random: &mut Random, field: Field) -> Field {
    match random.below(3) {
        0 => field.with_nullable(true),
        1 => {
            let metadata = field.metadata().clone().with("k2", "1");
            field.with_metadata(metadata)
        }
        _ => field,
    }
}

/// A union has one child less, if it has any: by the Rust it then contains the one before.
fn with_a_child_less(random: &mut Random, field: Field) -> Field {
    let DataType::Union(children, mode) = field.data_type() else {
        return field;
    };
    let gone = random.below(children.len() + 1);
    let kept = children.iter().enumerate().filter(|&(at, _)| at != gone);
    let kept = kept.map(|(_, (id, child))| (id, child.clone())).collect();
    let union = DataType::Union(kept, *mode);
    field.with_data_type(union)
}

fn perhaps_null(random: &mut Random, field: Field) -> Field {
    match random.once_in(4) {
        true => field.with_data_type(DataType::Null),
        false => field,
    }
}

/// Another type. The order flag is not written where that is no dictionary.
fn with_another_type(random: &mut Random, field: Field) -> Field {
    let data_type = another_type(random, field.data_type());
    field.with_data_type(data_type)
}

/// A type near this one, or any other.
fn another_type(random: &mut Random, data_type: &DataType) -> DataType {
    use DataType as T;
    if random.once_in(6) {
        return random::data_type(random, 2);
    }
    match data_type {
        T::List(child) | T::LargeList(child) | T::ListView(child) | T::LargeListView(child) => {
            let child = child.clone();
            match random.below(5) {
                0 => T::List(child),
                1 => T::LargeList(child),
                2 => T::ListView(child),
                3 => T::LargeListView(child),
                _ => T::FixedSizeList(child, 4),
            }
        }
        T::FixedSizeList(child, size) => T::FixedSizeList(child.clone(), size ^ 1),
        T::Map(child, sorted) => T::Map(child.clone(), !sorted),
        T::Struct(children) => T::Struct(other_children(random, children)),
        T::Union(children, mode) => other_union(random, children, *mode),
        T::Dictionary(key, value) => match random.below(3) {
            0 => T::Dictionary(value.clone(), key.clone()),
            1 => T::Dictionary(key.clone(), Box::new(another_type(random, value))),
            _ => T::Dictionary(Box::new(another_type(random, key)), value.clone()),
        },
        T::RunEndEncoded(run_ends, values) => T::RunEndEncoded(values.clone(), run_ends.clone()),
        T::Timestamp(unit, None) => T::Timestamp(*unit, Some("".into())),
        T::Timestamp(unit, Some(_)) => T::Timestamp(*unit, None),
        _ => random::leaf(random),
    }
}

/// Columns or children: one gone, one new, one twice, or two in each other's place.
fn other_children(random: &mut Random, children: &Fields) -> Fields {
    let mut list = children.to_vec();
    let at = random.below(list.len() + 1);
    match (random.below(4), list.get(at).cloned()) {
        (0, Some(_)) => drop(list.remove(at)),
        (1, Some(child)) => list.insert(at, child),
        (2, Some(_)) => list.swap(0, at),
        _ => list.insert(at, Arc::new(random::field(random, 2))),
    }
    list.into()
}

fn columns(random: &mut Random, schema: &Schema) -> Schema {
    let columns = other_children(random, &schema.fields);
    let metadata = match random.once_in(2) {
        true => random::metadata(random),
        false => schema.metadata.clone(),
    };
    Schema::new_with_metadata(columns, metadata)
}

/// A union: the other mode, another order, a child gone or new, or another id.
fn other_union(random: &mut Random, children: &UnionFields, mode: UnionMode) -> DataType {
    let mut list: Vec<(i8, FieldRef)> = children
        .iter()
        .map(|(id, child)| (id, child.clone()))
        .collect();
    let free = (0..=i8::MAX).find(|id| list.iter().all(|(taken, _)| taken != id));
    let free = free.expect("a random union has few children");
    let at = random.below(list.len() + 1);
    match (random.below(5), at < list.len()) {
        (0, true) => list[at].0 = free,
        (1, true) => drop(list.remove(at)),
        (2, _) => list.reverse(),
        (3, _) => list.push((free, Arc::new(random::field(random, 2)))),
        _ => {
            let turned = match mode {
                UnionMode::Sparse => UnionMode::Dense,
                UnionMode::Dense => UnionMode::Sparse,
            };
            return DataType::Union(children.clone(), turned);
        }
    }
    DataType::Union(list.into_iter().collect(), mode)
}
