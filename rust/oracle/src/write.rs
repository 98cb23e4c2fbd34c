//! Writing: the one sheet of a schema.

use arrow_schema::{DataType, Field, Fields, IntervalUnit, Metadata, Schema, TimeUnit, UnionMode};

use crate::dict_id;
use crate::limits::SHEET_BYTES;

/// The schema has no sheet: it would be above 65,535 bytes, or (in [`layout`]) a count or
/// length in it is above what a u16 holds.
#[derive(Clone, Copy, Debug, PartialEq, Eq)]
pub struct TooLong;

/// The one sheet of the schema, or [`TooLong`] where that passes 65,535 bytes.
///
/// How deep fields stand is not looked at: a schema of 33 levels gives bytes that no reader
/// accepts.
pub fn sheet(schema: &Schema) -> Result<Vec<u8>, TooLong> {
    // what a u16 cannot count is past the limit too
    match layout(schema)? {
        long if long.len() > SHEET_BYTES => Err(TooLong),
        sheet => Ok(sheet),
    }
}

/// The schema in the layout of a sheet, however long the whole becomes: for trials past the
/// limit. [`TooLong`] where one count or length does not fit its u16.
pub fn layout(schema: &Schema) -> Result<Vec<u8>, TooLong> {
    let mut out = Vec::new();
    let described = !schema.metadata.is_empty();
    let columns = !schema.fields.is_empty();
    out.push(u8::from(described) | u8::from(columns) << 1);
    metadata(&mut out, &schema.metadata)?;
    if columns {
        fields(&mut out, &schema.fields)?;
    }
    Ok(out)
}

/// How many bytes [`layout`] gives, or would give if counts and lengths had no limit.
pub fn length(schema: &Schema) -> u64 {
    let columns = match schema.fields.is_empty() {
        true => 0,
        false => fields_length(&schema.fields),
    };
    1 + metadata_length(&schema.metadata) + columns
}

fn fields_length(fields: &Fields) -> u64 {
    2 + fields.iter().map(|child| field_length(child)).sum::<u64>()
}

fn field_length(field: &Field) -> u64 {
    let name = match field.name().len() as u64 {
        0 => 0,
        bytes => 2 + bytes,
    };
    let dict_id = match dict_id::of(field) {
        0 => 0,
        _ => 8,
    };
    1 + name + metadata_length(field.metadata()) + dict_id + type_length(field.data_type())
}

fn metadata_length(metadata: &Metadata) -> u64 {
    if metadata.is_empty() {
        return 0;
    }
    let pair = |(key, value): (&String, &String)| 4 + key.len() as u64 + value.len() as u64;
    2 + metadata.iter().map(pair).sum::<u64>()
}

fn type_length(data_type: &DataType) -> u64 {
    use DataType as T;
    let parameters = match data_type {
        T::Timestamp(_, None) => 2,
        T::Timestamp(_, Some(zone)) => 4 + zone.len() as u64,
        T::Time32(_) | T::Time64(_) | T::Duration(_) | T::Interval(_) => 1,
        T::FixedSizeBinary(_) => 4,
        T::List(child) | T::ListView(child) | T::LargeList(child) | T::LargeListView(child) => {
            field_length(child)
        }
        T::FixedSizeList(child, _) => 4 + field_length(child),
        T::Struct(children) => fields_length(children),
        T::Union(children, _) => {
            3 + children
                .iter()
                .map(|(_, child)| 1 + field_length(child))
                .sum::<u64>()
        }
        T::Dictionary(key, value) => type_length(key) + type_length(value),
        T::Decimal32(..) | T::Decimal64(..) | T::Decimal128(..) | T::Decimal256(..) => 2,
        T::Map(child, _) => 1 + field_length(child),
        T::RunEndEncoded(run_ends, values) => field_length(run_ends) + field_length(values),
        _ => 0,
    };
    1 + parameters
}

fn number(out: &mut Vec<u8>, number: usize) -> Result<(), TooLong> {
    let number = u16::try_from(number).map_err(|_| TooLong)?;
    out.extend(number.to_le_bytes());
    Ok(())
}

fn string(out: &mut Vec<u8>, text: &str) -> Result<(), TooLong> {
    number(out, text.len())?;
    out.extend(text.as_bytes());
    Ok(())
}

/// The metadata, or nothing where there is none (its bit is clear then).
fn metadata(out: &mut Vec<u8>, metadata: &Metadata) -> Result<(), TooLong> {
    if metadata.is_empty() {
        return Ok(());
    }
    number(out, metadata.len())?;
    for (key, value) in metadata {
        string(out, key)?;
        string(out, value)?;
    }
    Ok(())
}

fn fields(out: &mut Vec<u8>, fields: &Fields) -> Result<(), TooLong> {
    number(out, fields.len())?;
    fields.iter().try_for_each(|child| field(out, child))
}

fn field(out: &mut Vec<u8>, field: &Field) -> Result<(), TooLong> {
    let dict_id = dict_id::of(field);
    let bits = [
        field.is_nullable(),
        field.dict_is_ordered() == Some(true),
        !field.name().is_empty(),
        !field.metadata().is_empty(),
        dict_id != 0,
    ];
    let map = (0..).zip(bits).map(|(bit, stands)| u8::from(stands) << bit);
    out.push(map.sum());
    if !field.name().is_empty() {
        string(out, field.name())?;
    }
    metadata(out, field.metadata())?;
    if dict_id != 0 {
        out.extend(dict_id.to_le_bytes());
    }
    type_(out, field.data_type())
}

fn type_(out: &mut Vec<u8>, data_type: &DataType) -> Result<(), TooLong> {
    use DataType as T;
    out.push(code(data_type));
    match data_type {
        T::Timestamp(unit, zone) => {
            out.extend([time_unit(*unit), u8::from(zone.is_some())]);
            zone.iter().try_for_each(|zone| string(out, zone))?;
        }
        T::Time32(unit) | T::Time64(unit) | T::Duration(unit) => out.push(time_unit(*unit)),
        T::Interval(unit) => out.push(interval_unit(*unit)),
        T::FixedSizeBinary(size) => out.extend(size.to_le_bytes()),
        T::List(child) | T::ListView(child) | T::LargeList(child) | T::LargeListView(child) => {
            field(out, child)?;
        }
        T::FixedSizeList(child, size) => {
            out.extend(size.to_le_bytes());
            field(out, child)?;
        }
        T::Struct(children) => fields(out, children)?,
        T::Union(children, mode) => {
            out.push(u8::from(*mode == UnionMode::Dense));
            number(out, children.len())?;
            for (id, child) in children.iter() {
                out.push(id.cast_unsigned());
                field(out, child)?;
            }
        }
        T::Dictionary(key, value) => {
            type_(out, key)?;
            type_(out, value)?;
        }
        T::Decimal32(precision, scale)
        | T::Decimal64(precision, scale)
        | T::Decimal128(precision, scale)
        | T::Decimal256(precision, scale) => out.extend([*precision, scale.cast_unsigned()]),
        T::Map(child, sorted) => {
            out.push(u8::from(*sorted));
            field(out, child)?;
        }
        T::RunEndEncoded(run_ends, values) => {
            field(out, run_ends)?;
            field(out, values)?;
        }
        _ => {}
    }
    Ok(())
}

fn time_unit(unit: TimeUnit) -> u8 {
    match unit {
        TimeUnit::Second => 0,
        TimeUnit::Millisecond => 1,
        TimeUnit::Microsecond => 2,
        TimeUnit::Nanosecond => 3,
    }
}

fn interval_unit(unit: IntervalUnit) -> u8 {
    match unit {
        IntervalUnit::YearMonth => 0,
        IntervalUnit::DayTime => 1,
        IntervalUnit::MonthDayNano => 2,
    }
}

/// The type's code.
fn code(data_type: &DataType) -> u8 {
    use DataType as T;
    match data_type {
        T::Null => 0,
        T::Boolean => 1,
        T::Int8 => 2,
        T::Int16 => 3,
        T::Int32 => 4,
        T::Int64 => 5,
        T::UInt8 => 6,
        T::UInt16 => 7,
        T::UInt32 => 8,
        T::UInt64 => 9,
        T::Float16 => 10,
        T::Float32 => 11,
        T::Float64 => 12,
        T::Timestamp(..) => 13,
        T::Date32 => 14,
        T::Date64 => 15,
        T::Time32(_) => 16,
        T::Time64(_) => 17,
        T::Duration(_) => 18,
        T::Interval(_) => 19,
        T::Binary => 20,
        T::FixedSizeBinary(_) => 21,
        T::LargeBinary => 22,
        T::BinaryView => 23,
        T::Utf8 => 24,
        T::LargeUtf8 => 25,
        T::Utf8View => 26,
        T::List(_) => 27,
        T::ListView(_) => 28,
        T::FixedSizeList(..) => 29,
        T::LargeList(_) => 30,
        T::LargeListView(_) => 31,
        T::Struct(_) => 32,
        T::Union(..) => 33,
        T::Dictionary(..) => 34,
        T::Decimal32(..) => 35,
        T::Decimal64(..) => 36,
        T::Decimal128(..) => 37,
        T::Decimal256(..) => 38,
        T::Map(..) => 39,
        T::RunEndEncoded(..) => 40,
    }
}
