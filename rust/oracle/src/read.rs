//! Reading: sheets into the crate's schemas, items in layout order, each field built anew.

use std::collections::BTreeMap;
use std::sync::Arc;

use arrow_schema::{
    DataType, Field, FieldRef, Fields, IntervalUnit, Metadata, Schema, TimeUnit, UnionFields,
    UnionMode,
};

use crate::cursor::{Cursor, Item};
use crate::dict_id;
use crate::limits::{LARGEST_ID, LEVELS, TRAIN_SHEETS};
use crate::number::{
    BYTES_LEFT, ID_ABOVE_127, ID_REPEATED, KEY_ORDER, NOT_UTF8, TOO_DEEP, TRAIN_TOO_LONG, UNKNOWN,
};
use crate::refusal::Refusal;

/// The last type code, and the one that may carry the ordered bit.
const LAST_CODE: u8 = 40;
const DICTIONARY: u8 = 34;

/// A sheet as it was read.
#[derive(Debug)]
pub struct Sheet {
    /// The schema; no field of it is shared with any other.
    pub schema: Schema,
    /// The offset in the sheet of each field's map, in layout order: a field before the
    /// fields that its type holds, keys and run ends included.
    pub places: Vec<usize>,
    /// How many of its fields have a dictionary number.
    pub dict_ids: usize,
}

/// Reads a single sheet: 8 where bytes are left after it.
pub fn sheet(bytes: &[u8]) -> Result<Sheet, Refusal> {
    let (read, end) = one(bytes, 0)?;
    if end < bytes.len() {
        return Err(Refusal::new(BYTES_LEFT, end));
    }
    Ok(read)
}

/// Reads two single sheets: the first whole, then the second, whose places count on.
pub fn two(first: &[u8], second: &[u8]) -> Result<(Sheet, Sheet), Refusal> {
    let one = sheet(first)?;
    let other =
        sheet(second).map_err(|below| Refusal::new(below.number, first.len() + below.place))?;
    Ok((one, other))
}

/// Reads a train, sheets end to end: 33 where a 257th begins.
pub fn train(bytes: &[u8]) -> Result<Vec<Sheet>, Refusal> {
    let mut sheets = Vec::new();
    let mut at = 0;
    while at < bytes.len() {
        if sheets.len() == TRAIN_SHEETS {
            return Err(Refusal::new(TRAIN_TOO_LONG, at));
        }
        let (read, end) = one(bytes, at)?;
        sheets.push(read);
        at = end;
    }
    Ok(sheets)
}

/// Reads the sheet that begins at `start`; gives it and the byte after it.
fn one(input: &[u8], start: usize) -> Result<(Sheet, usize), Refusal> {
    let mut reader = Reader {
        cursor: Cursor::new(input, start),
        places: Vec::new(),
        dict_ids: 0,
    };
    let read = Sheet {
        schema: reader.schema()?,
        places: reader.places,
        dict_ids: reader.dict_ids,
    };
    Ok((read, reader.cursor.at()))
}

struct Reader<'a> {
    cursor: Cursor<'a>,
    places: Vec<usize>,
    dict_ids: usize,
}

impl<'a> Reader<'a> {
    fn schema(&mut self) -> Result<Schema, Refusal> {
        let map = self.cursor.byte_up_to(0b11)?;
        let metadata = self.metadata_if(map & 1 != 0)?;
        let count = match map & 2 {
            0 => 0,
            _ => self.cursor.count_above_0()?,
        };
        let fields = self.fields(count, 1)?;
        Ok(Schema::new_with_metadata(fields, metadata))
    }

    fn fields(&mut self, count: usize, level: usize) -> Result<Fields, Refusal> {
        let read: Result<Vec<FieldRef>, Refusal> =
            (0..count).map(|_| self.field_ref(level)).collect();
        Ok(Fields::from(read?))
    }

    fn field_ref(&mut self, level: usize) -> Result<FieldRef, Refusal> {
        Ok(Arc::new(self.field(level)?))
    }

    fn field(&mut self, level: usize) -> Result<Field, Refusal> {
        let map = self.cursor.item(1)?;
        map.need(level <= LEVELS, TOO_DEEP)?;
        map.need(map.byte() <= 0b1_1111, UNKNOWN)?;
        self.places.push(map.place - self.cursor.start());
        let [nullable, ordered, named, described, numbered] =
            [1, 2, 4, 8, 16].map(|bit| map.byte() & bit != 0);
        let name = match named {
            false => "",
            true => self.name()?,
        };
        let metadata = self.metadata_if(described)?;
        let dict_id = match numbered {
            false => 0,
            true => self.dict_id()?,
        };
        let data_type = self.data_type(level, ordered)?;
        let mut field = dict_id::field(name, data_type, nullable, dict_id, ordered);
        field.set_metadata(metadata);
        Ok(field)
    }

    /// A dictionary number under a standing bit: 0 is refused with 2.
    fn dict_id(&mut self) -> Result<i64, Refusal> {
        let item = self.cursor.item(8)?;
        let bytes = item.bytes.try_into().expect("an item of eight bytes");
        let dict_id = i64::from_le_bytes(bytes);
        item.need(dict_id != 0, UNKNOWN)?;
        self.dict_ids += 1;
        Ok(dict_id)
    }

    fn name(&mut self) -> Result<&'a str, Refusal> {
        let length = self.cursor.count_above_0()?;
        self.text(length)
    }

    /// A string body: 3 at its first byte.
    fn text(&mut self, length: usize) -> Result<&'a str, Refusal> {
        let body = self.cursor.item(length)?;
        std::str::from_utf8(body.bytes).map_err(|_| Refusal::new(NOT_UTF8, body.place))
    }

    /// A string that may be empty.
    fn string(&mut self) -> Result<&'a str, Refusal> {
        let length = self.cursor.count()?;
        self.text(length)
    }

    fn metadata_if(&mut self, stands: bool) -> Result<Metadata, Refusal> {
        if !stands {
            return Ok(Metadata::new());
        }
        let count = self.cursor.count_above_0()?;
        let mut pairs = BTreeMap::new();
        let mut before = None;
        for _ in 0..count {
            let key = self.key(before)?;
            let value = self.string()?;
            pairs.insert(key.to_owned(), value.to_owned());
            before = Some(key);
        }
        Ok(Metadata::from(pairs))
    }

    /// A key above the one before: 4 at its length, found at its body, after 3.
    fn key(&mut self, before: Option<&str>) -> Result<&'a str, Refusal> {
        let length = self.cursor.item(2)?;
        let key = self.text(length.u16())?;
        let above = before.is_none_or(|before| before.as_bytes() < key.as_bytes());
        length.need(above, KEY_ORDER)?;
        Ok(key)
    }

    /// A type. The level is judged at its code: for a field's own type it was judged at the
    /// field's map already, so 5 is met here at a Dictionary's two types alone.
    fn data_type(&mut self, level: usize, ordered: bool) -> Result<DataType, Refusal> {
        let code = self.cursor.item(1)?;
        code.need(level <= LEVELS, TOO_DEEP)?;
        code.need(code.byte() <= LAST_CODE, UNKNOWN)?;
        code.need(!ordered || code.byte() == DICTIONARY, UNKNOWN)?;
        match plain(code.byte()) {
            Some(data_type) => Ok(data_type),
            None => self.parameters(&code, level),
        }
    }

    /// The parameters behind a code that has some.
    fn parameters(&mut self, code: &Item, level: usize) -> Result<DataType, Refusal> {
        let below = level + 1;
        Ok(match code.byte() {
            13 => self.timestamp()?,
            16 => DataType::Time32(self.unit()?),
            17 => DataType::Time64(self.unit()?),
            18 => DataType::Duration(self.unit()?),
            19 => DataType::Interval(self.interval_unit()?),
            21 => DataType::FixedSizeBinary(self.i32()?),
            27 => DataType::List(self.field_ref(below)?),
            28 => DataType::ListView(self.field_ref(below)?),
            29 => {
                let size = self.i32()?;
                DataType::FixedSizeList(self.field_ref(below)?, size)
            }
            30 => DataType::LargeList(self.field_ref(below)?),
            31 => DataType::LargeListView(self.field_ref(below)?),
            32 => {
                let count = self.cursor.count()?;
                DataType::Struct(self.fields(count, below)?)
            }
            33 => self.union(below)?,
            DICTIONARY => {
                let key = self.data_type(below, false)?;
                let value = self.data_type(below, false)?;
                DataType::Dictionary(Box::new(key), Box::new(value))
            }
            35..=38 => self.decimal(code.byte())?,
            39 => {
                let sorted = self.cursor.byte_up_to(1)? == 1;
                DataType::Map(self.field_ref(below)?, sorted)
            }
            LAST_CODE => {
                let run_ends = self.field_ref(below)?;
                DataType::RunEndEncoded(run_ends, self.field_ref(below)?)
            }
            _ => return Err(Refusal::new(UNKNOWN, code.place)),
        })
    }

    fn timestamp(&mut self) -> Result<DataType, Refusal> {
        let unit = self.unit()?;
        let zone = match self.cursor.byte_up_to(1)? {
            0 => None,
            _ => Some(Arc::from(self.string()?)),
        };
        Ok(DataType::Timestamp(unit, zone))
    }

    fn unit(&mut self) -> Result<TimeUnit, Refusal> {
        Ok(match self.cursor.byte_up_to(3)? {
            0 => TimeUnit::Second,
            1 => TimeUnit::Millisecond,
            2 => TimeUnit::Microsecond,
            _ => TimeUnit::Nanosecond,
        })
    }

    fn interval_unit(&mut self) -> Result<IntervalUnit, Refusal> {
        Ok(match self.cursor.byte_up_to(2)? {
            0 => IntervalUnit::YearMonth,
            1 => IntervalUnit::DayTime,
            _ => IntervalUnit::MonthDayNano,
        })
    }

    fn i32(&mut self) -> Result<i32, Refusal> {
        let item = self.cursor.item(4)?;
        let bytes = item.bytes.try_into().expect("an item of four bytes");
        Ok(i32::from_le_bytes(bytes))
    }

    fn decimal(&mut self, code: u8) -> Result<DataType, Refusal> {
        let precision = self.cursor.item(1)?.byte();
        let scale = self.cursor.item(1)?.byte().cast_signed();
        Ok(match code {
            35 => DataType::Decimal32(precision, scale),
            36 => DataType::Decimal64(precision, scale),
            37 => DataType::Decimal128(precision, scale),
            _ => DataType::Decimal256(precision, scale),
        })
    }

    /// A union: the ids stay in their order, each the child's own number and no position.
    fn union(&mut self, below: usize) -> Result<DataType, Refusal> {
        let mode = match self.cursor.byte_up_to(1)? {
            0 => UnionMode::Sparse,
            _ => UnionMode::Dense,
        };
        let count = self.cursor.count()?;
        let mut ids = Vec::new();
        let mut children = Vec::new();
        for _ in 0..count {
            ids.push(self.id(&ids)?);
            children.push(self.field_ref(below)?);
        }
        let fields = UnionFields::try_new(ids, children)
            .expect("as many ids as fields, each at most 127 and met once");
        Ok(DataType::Union(fields, mode))
    }

    /// A type id: 6, then 7.
    fn id(&mut self, before: &[i8]) -> Result<i8, Refusal> {
        let item = self.cursor.item(1)?;
        item.need(item.byte() <= LARGEST_ID, ID_ABOVE_127)?;
        let id = item.byte().cast_signed();
        item.need(!before.contains(&id), ID_REPEATED)?;
        Ok(id)
    }
}

/// The type of a code without parameters.
fn plain(code: u8) -> Option<DataType> {
    Some(match code {
        0 => DataType::Null,
        1 => DataType::Boolean,
        2 => DataType::Int8,
        3 => DataType::Int16,
        4 => DataType::Int32,
        5 => DataType::Int64,
        6 => DataType::UInt8,
        7 => DataType::UInt16,
        8 => DataType::UInt32,
        9 => DataType::UInt64,
        10 => DataType::Float16,
        11 => DataType::Float32,
        12 => DataType::Float64,
        14 => DataType::Date32,
        15 => DataType::Date64,
        20 => DataType::Binary,
        22 => DataType::LargeBinary,
        23 => DataType::BinaryView,
        24 => DataType::Utf8,
        25 => DataType::LargeUtf8,
        26 => DataType::Utf8View,
        _ => return None,
    })
}
