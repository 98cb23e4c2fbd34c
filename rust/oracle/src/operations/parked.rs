//! The mode "parked log first" (document 02, Item 6). The Rust has no such mode, so this follows
//! its `Schema::try_merge`, `SchemaBuilder::try_merge` and `Field::try_merge` piece by piece.
//!
//! By hand are the rule of the order flags, in [`with_null`], and the way down to it: the
//! Rust's own way would compare the flags as ever. A comment quotes the Rust's lines that a
//! line by hand stands for. All else the Rust does: the metadata of schemas and of fields,
//! unions, every type that is not merged child by child, nullability, and all clashes. So does
//! the dictionary number stay with the first field: what the Rust merged is given another type
//! or flag at most, and never built anew.

use std::sync::Arc;

use arrow_schema::{ArrowError, DataType, Field, FieldRef, Metadata, Schema};

/// `Schema::try_merge`.
pub(super) fn try_merge(schemas: impl IntoIterator<Item = Schema>) -> Result<Schema, ArrowError> {
    // let mut out_meta = Metadata::new(); let mut out_fields = SchemaBuilder::new();
    let (mut metadata, mut columns) = (Metadata::new(), Vec::new());
    // for schema in schemas {
    for schema in schemas {
        // if let Some(old_val) = out_meta.get(&key) && old_val != &value { return Err(..) }: by
        // the Rust, on schemas without columns, of the old values of these keys and the new ones
        let old = schema.metadata.keys();
        let old = old.filter_map(|key| Some((key.clone(), metadata.get(key)?.clone())));
        let both = [old.collect(), schema.metadata].map(described);
        // out_meta.insert(key, value);
        metadata.extend(Schema::try_merge(both)?.metadata);
        // fields.iter().try_for_each(|x| out_fields.try_merge(x))?
        pour(&mut columns, schema.fields.iter())?;
    }
    // Ok(out_fields.finish().with_metadata(out_meta))
    Ok(Schema::new(columns).with_metadata(metadata))
}

/// A schema without columns.
fn described(metadata: Metadata) -> Schema {
    Schema::empty().with_metadata(metadata)
}

/// `SchemaBuilder::try_merge` of each field in turn. No field is shared, so its test of
/// pointers (`Arc::ptr_eq`) has nothing to stand for it.
fn pour<'a>(
    into: &mut Vec<Field>,
    mut fields: impl Iterator<Item = &'a FieldRef>,
) -> Result<(), ArrowError> {
    fields.try_for_each(|field| {
        // let existing = self.fields.iter_mut().find(|f| f.name() == field.name());
        match into.iter_mut().find(|own| own.name() == field.name()) {
            // Some(e) => .. e.try_merge(field.as_ref())?
            Some(own) => *own = merged(own, field)?,
            // None => self.fields.push(field.clone()),
            None => into.push(Field::clone(field)),
        }
        Ok(())
    })
}

/// `Field::try_merge`.
fn merged(own: &Field, from: &Field) -> Result<Field, ArrowError> {
    use DataType as T;
    // match &mut self.data_type { .. match &from.data_type { .. } }
    match (own.data_type(), from.data_type()) {
        (T::Null, _) | (_, T::Null) => with_null(own, from),
        (T::Struct(children), T::Struct(others)) => {
            let head = head(own, from)?;
            // nested_fields.iter().chain(from_nested_fields).try_for_each(|f| builder.try_merge(f))?;
            let mut poured = Vec::new();
            pour(&mut poured, children.iter().chain(others))?;
            // *nested_fields = builder.finish().fields;
            Ok(head.with_data_type(T::Struct(poured.into())))
        }
        (T::List(child), T::List(other)) => {
            let head = head(own, from)?;
            Ok(head.with_data_type(T::List(merged_child(child, other)?)))
        }
        (T::LargeList(child), T::LargeList(other)) => {
            let head = head(own, from)?;
            Ok(head.with_data_type(T::LargeList(merged_child(child, other)?)))
        }
        // No child is merged: the Rust does it all, the flags included.
        _ => by_the_rust(own.clone(), from),
    }
}

/// The child of a list.
fn merged_child(own: &Field, from: &Field) -> Result<FieldRef, ArrowError> {
    // let mut f = (**field).clone(); f.try_merge(from_field)?; (*field) = Arc::new(f);
    Ok(Arc::new(merged(own, from)?))
}

/// Where either type is Null: "the order flags are not compared", and "a Null column that
/// takes a type takes its order flag too"; a type keeps its own. The Rust merges the two
/// without their flags: `if from.dict_is_ordered != self.dict_is_ordered` finds nothing. The
/// dictionary number does not go with the type: the Rust leaves it to the first.
fn with_null(own: &Field, from: &Field) -> Result<Field, ArrowError> {
    let typed = match own.data_type() {
        DataType::Null => from,
        _ => own,
    };
    let [one, other] = [own, from].map(|field| field.clone().with_dict_is_ordered(false));
    let merged = by_the_rust(one, &other)?;
    Ok(merged.with_dict_is_ordered(typed.dict_is_ordered() == Some(true)))
}

/// What `Field::try_merge` does around its match on the types, by the Rust: both fields have
/// one type here, which has no children.
fn head(own: &Field, from: &Field) -> Result<Field, ArrowError> {
    let [one, other] = [own, from].map(|field| field.clone().with_data_type(DataType::Boolean));
    by_the_rust(one, &other)
}

fn by_the_rust(mut own: Field, from: &Field) -> Result<Field, ArrowError> {
    own.try_merge(from)?;
    Ok(own)
}
