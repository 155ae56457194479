//! The yardstick of `crates/value_bench`: every row of the format, read and written by hand in plain Rust.
//!
//! The words are a number of rounds, a name and a size, as `value_bench` takes them.
use std::hint::black_box;
use std::time::Instant;

#[derive(Clone, Copy)]
struct Uuid {
    most: u64,
    least: u64,
}

#[derive(Clone, Copy)]
struct Stamp {
    millis: i64,
    nanos: i32,
}

struct Decimal {
    scale: i32,
    bytes: Vec<u8>,
}

enum Value {
    Byte(i8),
    Short(i16),
    Int(i32),
    Long(i64),
    Float(u32),
    Double(u64),
    Char(u16),
    Bool(bool),
    Str(String),
    Uuid(Uuid),
    Date(i64),
    Bytes(Vec<i8>),
    Shorts(Vec<i16>),
    Ints(Vec<i32>),
    Longs(Vec<i64>),
    Floats(Vec<u32>),
    Doubles(Vec<u64>),
    Chars(Vec<u16>),
    Bools(Vec<bool>),
    Strs(Vec<Option<String>>),
    Uuids(Vec<Option<Uuid>>),
    Dates(Vec<Option<i64>>),
    Objects { type_id: i32, items: Vec<Value> },
    Collection { kind: i8, items: Vec<Value> },
    Map { kind: i8, pairs: Vec<(Value, Value)> },
    Wrapped { bytes: Vec<u8>, offset: i32 },
    Enum { type_id: i32, ordinal: i32 },
    Enums { type_id: i32, items: Vec<Value> },
    Decimal(Decimal),
    Decimals(Vec<Option<Decimal>>),
    Timestamp(Stamp),
    Timestamps(Vec<Option<Stamp>>),
    Time(i64),
    Times(Vec<Option<i64>>),
    BinaryEnum { type_id: i32, ordinal: i32 },
    Null,
    Object(Box<Object>),
}

enum Shape {
    Named(Vec<i32>),
    Compact(i32),
}

struct Object {
    bits: u16,
    type_id: i32,
    shape: Shape,
    fields: Vec<Value>,
}

/// Why bytes are no value, where so many of them are left.
#[derive(Debug)]
#[allow(dead_code)]
enum Fault {
    Short(usize),
    Code(usize, u8),
    Bool(usize, u8),
    Utf8(usize),
    Count(usize, i32),
    Depth(usize),
    /// A header or a footer that is wrong at this offset of the object.
    Object(usize, usize),
}

type Read<'a, T> = Result<(T, &'a [u8]), Fault>;

/// A part without values inside.
trait Part: Sized {
    fn read(bytes: &[u8]) -> Read<'_, Self>;
    fn len(&self) -> usize;
    fn write(&self, out: &mut Vec<u8>);
}

/// An element of an array, which has so many bytes.
trait Element: Part + Copy {
    const WIDTH: usize;
    fn read_all(run: &[u8], left: usize) -> Result<Vec<Self>, Fault>;
    fn write_all(items: &[Self], out: &mut Vec<u8>);
}

macro_rules! numbers {
    ($($number:ty),*) => {$(
        impl Part for $number {
            fn read(bytes: &[u8]) -> Read<'_, Self> {
                match bytes.split_first_chunk() {
                    Some((front, rest)) => Ok((<$number>::from_le_bytes(*front), rest)),
                    None => Err(Fault::Short(bytes.len())),
                }
            }

            fn len(&self) -> usize {
                size_of::<$number>()
            }

            fn write(&self, out: &mut Vec<u8>) {
                out.extend_from_slice(&self.to_le_bytes());
            }
        }

        impl Element for $number {
            const WIDTH: usize = size_of::<$number>();

            fn read_all(run: &[u8], _left: usize) -> Result<Vec<Self>, Fault> {
                let items = run.chunks_exact(Self::WIDTH);
                Ok(items.map(|item| <$number>::from_le_bytes(item.try_into().unwrap())).collect())
            }

            fn write_all(items: &[Self], out: &mut Vec<u8>) {
                let start = out.len();
                out.resize(start + items.len() * Self::WIDTH, 0);
                for (room, item) in out[start..].chunks_exact_mut(Self::WIDTH).zip(items) {
                    room.copy_from_slice(&item.to_le_bytes());
                }
            }
        }
    )*};
}

numbers!(i8, i16, i32, i64, u16, u32, u64);

impl Part for bool {
    fn read(bytes: &[u8]) -> Read<'_, Self> {
        match bytes.split_first() {
            Some((0, rest)) => Ok((false, rest)),
            Some((1, rest)) => Ok((true, rest)),
            Some((other, _)) => Err(Fault::Bool(bytes.len(), *other)),
            None => Err(Fault::Short(0)),
        }
    }

    fn len(&self) -> usize {
        1
    }

    fn write(&self, out: &mut Vec<u8>) {
        out.push(*self as u8);
    }
}

impl Element for bool {
    const WIDTH: usize = 1;

    fn read_all(run: &[u8], left: usize) -> Result<Vec<Self>, Fault> {
        let one = |(i, b): (usize, &u8)| if *b < 2 { Ok(*b == 1) } else { Err(Fault::Bool(left - i, *b)) };
        run.iter().enumerate().map(one).collect()
    }

    fn write_all(items: &[Self], out: &mut Vec<u8>) {
        out.extend(items.iter().map(|b| *b as u8));
    }
}

fn split(bytes: &[u8], count: usize) -> Read<'_, &[u8]> {
    bytes.split_at_checked(count).ok_or(Fault::Short(bytes.len()))
}

fn count(bytes: &[u8]) -> Read<'_, usize> {
    let (count, rest) = i32::read(bytes)?;
    if count < 0 { Err(Fault::Count(bytes.len(), count)) } else { Ok((count as usize, rest)) }
}

fn write_count(count: usize, out: &mut Vec<u8>) {
    out.extend_from_slice(&(count as i32).to_le_bytes());
}

impl Part for Vec<u8> {
    fn read(bytes: &[u8]) -> Read<'_, Self> {
        let (count, rest) = count(bytes)?;
        let (run, rest) = split(rest, count)?;
        Ok((run.to_vec(), rest))
    }

    fn len(&self) -> usize {
        4 + self.as_slice().len()
    }

    fn write(&self, out: &mut Vec<u8>) {
        write_count(self.as_slice().len(), out);
        out.extend_from_slice(self);
    }
}

impl Part for String {
    fn read(bytes: &[u8]) -> Read<'_, Self> {
        let (count, rest) = count(bytes)?;
        let (run, after) = split(rest, count)?;
        let text = std::str::from_utf8(run).map_err(|_| Fault::Utf8(rest.len()))?;
        Ok((text.to_owned(), after))
    }

    fn len(&self) -> usize {
        4 + self.as_str().len()
    }

    fn write(&self, out: &mut Vec<u8>) {
        write_count(self.as_str().len(), out);
        out.extend_from_slice(self.as_bytes());
    }
}

macro_rules! pairs {
    ($($pair:ident { $first:ident, $second:ident }),*) => {$(
        impl Part for $pair {
            fn read(bytes: &[u8]) -> Read<'_, Self> {
                let ($first, rest) = Part::read(bytes)?;
                let ($second, rest) = Part::read(rest)?;
                Ok(($pair { $first, $second }, rest))
            }

            fn len(&self) -> usize {
                Part::len(&self.$first) + Part::len(&self.$second)
            }

            fn write(&self, out: &mut Vec<u8>) {
                self.$first.write(out);
                self.$second.write(out);
            }
        }
    )*};
}

pairs!(Uuid { most, least }, Stamp { millis, nanos }, Decimal { scale, bytes });

fn row<'a, T: Part>(bytes: &'a [u8], make: impl FnOnce(T) -> Value) -> Read<'a, Value> {
    let (part, rest) = T::read(bytes)?;
    Ok((make(part), rest))
}

fn array<'a, T: Element>(bytes: &'a [u8], make: impl FnOnce(Vec<T>) -> Value) -> Read<'a, Value> {
    let (count, rest) = count(bytes)?;
    let whole = count.min(rest.len() / T::WIDTH);
    let (run, after) = split(rest, whole * T::WIDTH)?;
    let items = T::read_all(run, rest.len())?;
    if whole < count { Err(Fault::Short(after.len())) } else { Ok((make(items), after)) }
}

fn optionals<'a, T: Part>(code: u8, bytes: &'a [u8], make: impl FnOnce(Vec<Option<T>>) -> Value) -> Read<'a, Value> {
    let (count, mut rest) = count(bytes)?;
    let mut items = Vec::with_capacity(count.min(rest.len()));
    for _ in 0..count {
        let (byte, after) = rest.split_first().ok_or(Fault::Short(0))?;
        if *byte == 101 {
            items.push(None);
            rest = after;
        } else if *byte == code {
            let (item, after) = T::read(after)?;
            items.push(Some(item));
            rest = after;
        } else {
            return Err(Fault::Code(rest.len(), *byte));
        }
    }
    Ok((make(items), rest))
}

fn values<'a>(levels: u32, count: usize, bytes: &'a [u8], exact: &mut bool) -> Read<'a, Vec<Value>> {
    let mut items = Vec::with_capacity(count.min(bytes.len()));
    let mut rest = bytes;
    for _ in 0..count {
        let (item, after) = decode(levels, rest, exact)?;
        items.push(item);
        rest = after;
    }
    Ok((items, rest))
}

fn typed<'a>(levels: u32, bytes: &'a [u8], exact: &mut bool) -> Read<'a, (i32, Vec<Value>)> {
    let (type_id, rest) = i32::read(bytes)?;
    let (count, rest) = count(rest)?;
    let (items, rest) = values(levels, count, rest, exact)?;
    Ok(((type_id, items), rest))
}

fn both(bytes: &[u8]) -> Read<'_, (i32, i32)> {
    let (first, rest) = i32::read(bytes)?;
    let (second, rest) = i32::read(rest)?;
    Ok(((first, second), rest))
}

/// Reads a value. `exact` stays true where its bytes are its canonical form.
fn decode<'a>(levels: u32, bytes: &'a [u8], exact: &mut bool) -> Read<'a, Value> {
    let (code, rest) = bytes.split_first().ok_or(Fault::Short(0))?;
    if levels == 0 {
        return Err(Fault::Depth(bytes.len()));
    }
    let levels = levels - 1;
    match code {
        1 => row(rest, Value::Byte),
        2 => row(rest, Value::Short),
        3 => row(rest, Value::Int),
        4 => row(rest, Value::Long),
        5 => row(rest, Value::Float),
        6 => row(rest, Value::Double),
        7 => row(rest, Value::Char),
        8 => row(rest, Value::Bool),
        9 => row(rest, Value::Str),
        10 => row(rest, Value::Uuid),
        11 => row(rest, Value::Date),
        12 => array(rest, Value::Bytes),
        13 => array(rest, Value::Shorts),
        14 => array(rest, Value::Ints),
        15 => array(rest, Value::Longs),
        16 => array(rest, Value::Floats),
        17 => array(rest, Value::Doubles),
        18 => array(rest, Value::Chars),
        19 => array(rest, Value::Bools),
        20 => optionals(9, rest, Value::Strs),
        21 => optionals(10, rest, Value::Uuids),
        22 => optionals(11, rest, Value::Dates),
        23 => typed(levels, rest, exact).map(|((type_id, items), rest)| (Value::Objects { type_id, items }, rest)),
        24 => {
            let (count, rest) = count(rest)?;
            let (kind, rest) = i8::read(rest)?;
            let (items, rest) = values(levels, count, rest, exact)?;
            Ok((Value::Collection { kind, items }, rest))
        }
        25 => {
            let (count, rest) = count(rest)?;
            let (kind, mut rest) = i8::read(rest)?;
            let mut pairs = Vec::with_capacity(count.min(rest.len()));
            for _ in 0..count {
                let (key, after) = decode(levels, rest, exact)?;
                let (value, after) = decode(levels, after, exact)?;
                pairs.push((key, value));
                rest = after;
            }
            Ok((Value::Map { kind, pairs }, rest))
        }
        27 => {
            let (bytes, rest) = Part::read(rest)?;
            let (offset, rest) = Part::read(rest)?;
            Ok((Value::Wrapped { bytes, offset }, rest))
        }
        28 => both(rest).map(|((type_id, ordinal), rest)| (Value::Enum { type_id, ordinal }, rest)),
        29 => typed(levels, rest, exact).map(|((type_id, items), rest)| (Value::Enums { type_id, items }, rest)),
        30 => row(rest, Value::Decimal),
        31 => optionals(30, rest, Value::Decimals),
        33 => row(rest, Value::Timestamp),
        34 => optionals(33, rest, Value::Timestamps),
        36 => row(rest, Value::Time),
        37 => optionals(36, rest, Value::Times),
        38 => both(rest).map(|((type_id, ordinal), rest)| (Value::BinaryEnum { type_id, ordinal }, rest)),
        101 => Ok((Value::Null, rest)),
        103 => object(levels, bytes, exact),
        _ => Err(Fault::Code(bytes.len(), *code)),
    }
}

fn number(bytes: &[u8], at: usize) -> i32 {
    i32::from_le_bytes(bytes[at..at + 4].try_into().unwrap())
}

/// The schema identifier of these field identifiers.
fn schema_of(ids: &[i32]) -> i32 {
    let mut hash = 0x811C_9DC5u32;
    for byte in ids.iter().flat_map(|id| id.to_le_bytes()) {
        hash = (hash ^ byte as u32).wrapping_mul(0x0100_0193);
    }
    hash as i32
}

/// The hash of the bytes of an object's fields.
fn hash_of(fields: &[u8]) -> i32 {
    fields.iter().fold(1u32, |hash, byte| hash.wrapping_mul(31).wrapping_add(*byte as i8 as u32)) as i32
}

fn object<'a>(levels: u32, bytes: &'a [u8], exact: &mut bool) -> Read<'a, Value> {
    let wrong = |at| Fault::Object(bytes.len(), at);
    if bytes.len() < 24 {
        return Err(Fault::Short(bytes.len()));
    }
    let flags = u16::from_le_bytes([bytes[2], bytes[3]]);
    let (type_id, hash) = (number(bytes, 4), number(bytes, 8));
    let (length, schema, end) = (number(bytes, 12), number(bytes, 16), number(bytes, 20));
    if bytes[1] != 1 {
        return Err(wrong(1));
    }
    if flags & 4 != 0 || flags & 24 == 24 {
        return Err(wrong(2));
    }
    if type_id == 0 {
        return Err(wrong(4));
    }
    if length < 24 || length as usize > bytes.len() {
        return Err(wrong(12));
    }
    let (whole, after) = bytes.split_at(length as usize);
    let bits = flags & !0x3E;
    if whole.len() == 24 {
        *exact = *exact && flags == bits && (hash, schema, end) == (1, 0, 0);
        let shape = Shape::Named(Vec::new());
        return Ok((Value::Object(Box::new(Object { bits, type_id, shape, fields: Vec::new() })), after));
    }
    let compact = flags & 32 != 0;
    let width = if flags & 8 != 0 { 1 } else if flags & 16 != 0 { 2 } else { 4 };
    let entry = if compact { width } else { width + 4 };
    if flags & 2 == 0 {
        return Err(wrong(2));
    }
    if end <= 24 || end >= length || (length - end) as usize % entry != 0 {
        return Err(wrong(20));
    }
    let (head, footer) = whole.split_at(end as usize);
    let count = footer.len() / entry;
    let shape = if compact {
        Shape::Compact(schema)
    } else {
        let ids: Vec<i32> = footer.chunks_exact(entry).map(|entry| number(entry, 0)).collect();
        if schema_of(&ids) != schema {
            return Err(wrong(16));
        }
        Shape::Named(ids)
    };
    let mut fields = Vec::with_capacity(count.min(head.len() - 24));
    let (mut rest, mut last) = (&head[24..], 0);
    for (i, entry) in footer.chunks_exact(entry).enumerate() {
        let mut offset = [0u8; 4];
        offset[..width].copy_from_slice(&entry[entry.len() - width..]);
        last = u32::from_le_bytes(offset) as usize;
        if last != head.len() - rest.len() {
            return Err(wrong(end as usize + i * entry.len()));
        }
        let (field, after) = decode(levels, rest, exact)?;
        fields.push(field);
        rest = after;
    }
    if !rest.is_empty() {
        return Err(wrong(20));
    }
    *exact = *exact && width == width_of(last) && hash == hash_of(&head[24..]);
    Ok((Value::Object(Box::new(Object { bits, type_id, shape, fields })), after))
}

/// The length of an object, and the offset of its last field.
fn object_len(object: &Object) -> (usize, usize) {
    let (mut end, mut last) = (24, 0);
    for field in &object.fields {
        last = end;
        end += length(field);
    }
    let key = if matches!(object.shape, Shape::Named(_)) { 4 } else { 0 };
    (end + object.fields.len() * (key + width_of(last)), last)
}

fn width_of(last: usize) -> usize {
    if last < 256 { 1 } else if last < 65536 { 2 } else { 4 }
}

/// Writes the fields first, keeps their offsets, and fills in the header at last.
fn write_object(object: &Object, out: &mut Vec<u8>) {
    let start = out.len();
    out.extend_from_slice(&[0; 24]);
    let mut offsets = Vec::with_capacity(object.fields.len());
    for field in &object.fields {
        offsets.push(out.len() - start);
        encode(field, out);
    }
    let end = out.len() - start;
    let last = offsets.last().copied().unwrap_or(0);
    let width = width_of(last);
    for (i, offset) in offsets.iter().enumerate() {
        if let Shape::Named(ids) = &object.shape {
            out.extend_from_slice(&ids[i].to_le_bytes());
        }
        out.extend_from_slice(&(*offset as u32).to_le_bytes()[..width]);
    }
    let (mut flags, mut schema, mut schema_at) = (object.bits, 0, 0);
    if !offsets.is_empty() {
        flags += 2 + match width {
            1 => 8,
            2 => 16,
            _ => 0,
        };
        schema_at = end as i32;
        schema = match &object.shape {
            Shape::Named(ids) => schema_of(ids),
            Shape::Compact(schema) => {
                flags += 32;
                *schema
            }
        };
    }
    let length = (out.len() - start) as i32;
    let hash = hash_of(&out[start + 24..start + end]);
    let head = &mut out[start..start + 24];
    head[0] = 103;
    head[1] = 1;
    head[2..4].copy_from_slice(&flags.to_le_bytes());
    for (room, number) in head[4..].chunks_exact_mut(4).zip([object.type_id, hash, length, schema, schema_at]) {
        room.copy_from_slice(&number.to_le_bytes());
    }
}

fn optionals_len<T: Part>(items: &[Option<T>]) -> usize {
    5 + items.iter().map(|item| 1 + item.as_ref().map_or(0, Part::len)).sum::<usize>()
}

fn values_len(items: &[Value]) -> usize {
    items.iter().map(length).sum::<usize>()
}

fn length(value: &Value) -> usize {
    match value {
        Value::Null => 1,
        Value::Byte(_) | Value::Bool(_) => 2,
        Value::Short(_) | Value::Char(_) => 3,
        Value::Int(_) | Value::Float(_) => 5,
        Value::Long(_) | Value::Double(_) | Value::Date(_) | Value::Time(_) => 9,
        Value::Enum { .. } | Value::BinaryEnum { .. } => 9,
        Value::Timestamp(_) => 13,
        Value::Uuid(_) => 17,
        Value::Str(text) => 5 + text.len(),
        Value::Decimal(x) => 9 + x.bytes.len(),
        Value::Wrapped { bytes, .. } => 9 + bytes.len(),
        Value::Bytes(items) => 5 + items.len(),
        Value::Bools(items) => 5 + items.len(),
        Value::Shorts(items) => 5 + 2 * items.len(),
        Value::Chars(items) => 5 + 2 * items.len(),
        Value::Ints(items) => 5 + 4 * items.len(),
        Value::Floats(items) => 5 + 4 * items.len(),
        Value::Longs(items) => 5 + 8 * items.len(),
        Value::Doubles(items) => 5 + 8 * items.len(),
        Value::Strs(items) => optionals_len(items),
        Value::Uuids(items) => optionals_len(items),
        Value::Dates(items) | Value::Times(items) => optionals_len(items),
        Value::Decimals(items) => optionals_len(items),
        Value::Timestamps(items) => optionals_len(items),
        Value::Object(object) => object_len(object).0,
        Value::Objects { items, .. } | Value::Enums { items, .. } => 9 + values_len(items),
        Value::Collection { items, .. } => 6 + values_len(items),
        Value::Map { pairs, .. } => 6 + pairs.iter().map(|(key, value)| length(key) + length(value)).sum::<usize>(),
    }
}

fn put<T: Part>(code: u8, part: &T, out: &mut Vec<u8>) {
    out.push(code);
    part.write(out);
}

fn put_array<T: Element>(code: u8, items: &[T], out: &mut Vec<u8>) {
    out.push(code);
    write_count(items.len(), out);
    T::write_all(items, out);
}

fn put_optionals<T: Part>(code: u8, inner: u8, items: &[Option<T>], out: &mut Vec<u8>) {
    out.push(code);
    write_count(items.len(), out);
    for item in items {
        match item {
            None => out.push(101),
            Some(item) => put(inner, item, out),
        }
    }
}

fn put_both(code: u8, first: i32, second: i32, out: &mut Vec<u8>) {
    out.push(code);
    first.write(out);
    second.write(out);
}

fn put_typed(code: u8, type_id: i32, items: &[Value], out: &mut Vec<u8>) {
    put(code, &type_id, out);
    write_count(items.len(), out);
    items.iter().for_each(|item| encode(item, out));
}

fn encode(value: &Value, out: &mut Vec<u8>) {
    match value {
        Value::Byte(x) => put(1, x, out),
        Value::Short(x) => put(2, x, out),
        Value::Int(x) => put(3, x, out),
        Value::Long(x) => put(4, x, out),
        Value::Float(x) => put(5, x, out),
        Value::Double(x) => put(6, x, out),
        Value::Char(x) => put(7, x, out),
        Value::Bool(x) => put(8, x, out),
        Value::Str(x) => put(9, x, out),
        Value::Uuid(x) => put(10, x, out),
        Value::Date(x) => put(11, x, out),
        Value::Bytes(xs) => put_array(12, xs, out),
        Value::Shorts(xs) => put_array(13, xs, out),
        Value::Ints(xs) => put_array(14, xs, out),
        Value::Longs(xs) => put_array(15, xs, out),
        Value::Floats(xs) => put_array(16, xs, out),
        Value::Doubles(xs) => put_array(17, xs, out),
        Value::Chars(xs) => put_array(18, xs, out),
        Value::Bools(xs) => put_array(19, xs, out),
        Value::Strs(xs) => put_optionals(20, 9, xs, out),
        Value::Uuids(xs) => put_optionals(21, 10, xs, out),
        Value::Dates(xs) => put_optionals(22, 11, xs, out),
        Value::Objects { type_id, items } => put_typed(23, *type_id, items, out),
        Value::Collection { kind, items } => {
            out.push(24);
            write_count(items.len(), out);
            kind.write(out);
            items.iter().for_each(|item| encode(item, out));
        }
        Value::Map { kind, pairs } => {
            out.push(25);
            write_count(pairs.len(), out);
            kind.write(out);
            for (key, value) in pairs {
                encode(key, out);
                encode(value, out);
            }
        }
        Value::Wrapped { bytes, offset } => {
            put(27, bytes, out);
            offset.write(out);
        }
        Value::Enum { type_id, ordinal } => put_both(28, *type_id, *ordinal, out),
        Value::Enums { type_id, items } => put_typed(29, *type_id, items, out),
        Value::Decimal(x) => put(30, x, out),
        Value::Decimals(xs) => put_optionals(31, 30, xs, out),
        Value::Timestamp(x) => put(33, x, out),
        Value::Timestamps(xs) => put_optionals(34, 33, xs, out),
        Value::Time(x) => put(36, x, out),
        Value::Times(xs) => put_optionals(37, 36, xs, out),
        Value::BinaryEnum { type_id, ordinal } => put_both(38, *type_id, *ordinal, out),
        Value::Null => out.push(101),
        Value::Object(object) => write_object(object, out),
    }
}

fn small(i: i32) -> Value {
    match i % 5 {
        0 => Value::Int(i),
        1 => Value::Str("a small text".to_owned()),
        2 => Value::Null,
        3 => Value::Bool(true),
        _ => Value::Long(i64::from(i)),
    }
}

fn list(count: i32) -> Value {
    Value::Collection { kind: 1, items: (0..count).map(small).collect() }
}

fn nested(count: i32) -> Value {
    Value::Collection { kind: 1, items: (0..count).map(|_| list(5)).collect() }
}

fn map(count: i32) -> Value {
    Value::Map { kind: 1, pairs: (0..count).map(|i| (Value::Int(i), small(i))).collect() }
}

fn object_of(fields: Vec<Value>) -> Value {
    let shape = Shape::Named((1..=fields.len() as i32).collect());
    Value::Object(Box::new(Object { bits: 1, type_id: 112, shape, fields }))
}

/// Objects of ten fields in a collection.
fn objects(count: i32) -> Value {
    Value::Collection { kind: 1, items: (0..count).map(|_| object_of((0..10).map(small).collect())).collect() }
}

/// 31 objects in one another, around bytes.
fn deep(size: i32) -> Value {
    let bytes = Value::Bytes((0..size).map(|i| i as i8).collect());
    (0..31).fold(bytes, |value, _| object_of(vec![value]))
}

/// The value of a name, of so many items.
fn named(name: &str, size: i32) -> Option<Value> {
    Some(match name {
        "bytes" => Value::Bytes((0..size).map(|i| i as i8).collect()),
        "ints" => Value::Ints((0..size).collect()),
        "longs" => Value::Longs((0..size).map(i64::from).collect()),
        "doubles" => Value::Doubles((0..size as u64).collect()),
        "text" => Value::Str("abé".repeat(size as usize / 4)),
        "texts" => Value::Strs((0..size).map(|i| (i % 4 != 3).then(|| "a small text".to_owned())).collect()),
        "list" => list(size),
        "nested" => nested(size),
        "inlist" => Value::Collection { kind: 1, items: vec![list(size)] },
        "map" => map(size),
        "object" => object_of((0..size).map(small).collect()),
        "objects" => objects(size),
        "deep" => deep(size),
        _ => return None,
    })
}

fn main() {
    let words: Vec<String> = std::env::args().collect();
    let rounds: u32 = words[1].parse().expect("the number of rounds");
    let value = named(&words[2], words[3].parse().expect("the size")).expect("a name");
    let (mut writing, mut reading) = (u128::MAX, u128::MAX);
    for _ in 0..rounds {
        let start = Instant::now();
        let mut bytes = Vec::with_capacity(length(black_box(&value)));
        encode(black_box(&value), &mut bytes);
        writing = writing.min(start.elapsed().as_nanos());
        let start = Instant::now();
        let mut exact = true;
        let read = decode(32, black_box(&bytes), &mut exact);
        reading = reading.min(start.elapsed().as_nanos());
        assert!(black_box(read).unwrap().1.is_empty() && black_box(exact));
    }
    eprintln!("decode {reading} encode {writing}");
}
