//! Tables and arrays that lie in octets.
use crate::fault::{written, Fault, Unwritten};
use crate::status::Status;
use crate::sys;

/// Octets that C lends; none may be at a null pointer.
///
/// # Safety
/// There are so many, lent for as long as `'a`.
pub(crate) unsafe fn octets<'a>(at: *const u8, length: usize) -> &'a [u8] {
    if length == 0 {
        return &[];
    }
    std::slice::from_raw_parts(at, length)
}

/// A value in a table or an array: one variant for each tag. Octets are lent.
#[derive(Clone, Copy, PartialEq, Debug)]
pub enum Value<'a> {
    Boolean(bool),
    ShortShortInt(i8),
    ShortShortUint(u8),
    ErrataShortInt(i16),
    ShortInt(i16),
    ShortUint(u16),
    LongInt(i32),
    LongUint(u32),
    ErrataLongLongInt(i64),
    LongLongInt(i64),
    Float(f32),
    Double(f64),
    Decimal { scale: u8, number: u32 },
    Timestamp(u64),
    Void,
    LongString(&'a [u8]),
    ByteArray(&'a [u8]),
    Array(Array<'a>),
    Table(Table<'a>),
}

impl<'a> Value<'a> {
    /// # Safety
    /// Its octets are lent for as long as `'a`, and those of a table or an array were checked.
    unsafe fn told(value: &sys::Value) -> Value<'a> {
        match value.kind {
            b't' => Value::Boolean(value.number != 0),
            b'b' => Value::ShortShortInt(value.number as i8),
            b'B' => Value::ShortShortUint(value.number as u8),
            b's' => Value::ErrataShortInt(value.number as i16),
            b'U' => Value::ShortInt(value.number as i16),
            b'u' => Value::ShortUint(value.number as u16),
            b'I' => Value::LongInt(value.number as i32),
            b'i' => Value::LongUint(value.number as u32),
            b'l' => Value::ErrataLongLongInt(value.number as i64),
            b'L' => Value::LongLongInt(value.number as i64),
            b'f' => Value::Float(f32::from_bits(value.number as u32)),
            b'd' => Value::Double(f64::from_bits(value.number)),
            b'D' => Value::Decimal {
                scale: value.scale,
                number: value.number as u32,
            },
            b'T' => Value::Timestamp(value.number),
            b'S' => Value::LongString(octets(value.octets, value.length)),
            b'x' => Value::ByteArray(octets(value.octets, value.length)),
            b'A' => Value::Array(Array {
                octets: octets(value.octets, value.length),
            }),
            b'F' => Value::Table(Table::told(value)),
            _ => Value::Void,
        }
    }
}

impl Value<'_> {
    /// The value as C takes it.
    fn to_sys(self) -> sys::Value {
        match self {
            Value::Boolean(holds) => sys::Value::number(b't', holds.into()),
            Value::ShortShortInt(number) => sys::Value::number(b'b', number as i64 as u64),
            Value::ShortShortUint(number) => sys::Value::number(b'B', number.into()),
            Value::ErrataShortInt(number) => sys::Value::number(b's', number as i64 as u64),
            Value::ShortInt(number) => sys::Value::number(b'U', number as i64 as u64),
            Value::ShortUint(number) => sys::Value::number(b'u', number.into()),
            Value::LongInt(number) => sys::Value::number(b'I', number as i64 as u64),
            Value::LongUint(number) => sys::Value::number(b'i', number.into()),
            Value::ErrataLongLongInt(number) => sys::Value::number(b'l', number as u64),
            Value::LongLongInt(number) => sys::Value::number(b'L', number as u64),
            Value::Float(number) => sys::Value::number(b'f', number.to_bits().into()),
            Value::Double(number) => sys::Value::number(b'd', number.to_bits()),
            Value::Decimal { scale, number } => sys::Value {
                scale,
                ..sys::Value::number(b'D', number.into())
            },
            Value::Timestamp(number) => sys::Value::number(b'T', number),
            Value::Void => sys::Value::number(b'V', 0),
            Value::LongString(text) => sys::Value::octets(b'S', text),
            Value::ByteArray(octets) => sys::Value::octets(b'x', octets),
            Value::Array(array) => sys::Value::octets(b'A', array.octets),
            Value::Table(table) => sys::Value::octets(b'F', table.octets),
        }
    }
}

/// Writes the table of these pairs at the start of the room, its count with it. The answer is how many octets it has.
pub fn write_table(pairs: &[(&[u8], Value<'_>)], room: &mut [u8]) -> Result<usize, Unwritten> {
    let pairs: Vec<sys::Pair> = pairs
        .iter()
        .map(|(name, value)| sys::Pair {
            name: name.as_ptr(),
            name_length: name.len(),
            value: value.to_sys(),
        })
        .collect();
    let mut told = sys::Written::default();
    // SAFETY: there are so many pairs, whose octets are lent, and so much room, apart from them.
    let status =
        unsafe { sys::mt_table_write(pairs.as_ptr(), pairs.len(), room.as_mut_ptr(), room.len(), &mut told) };
    written(status, &told)
}

/// A table that lies in octets which were checked: names with values, in order. A name may stand more than once.
#[derive(Clone, Copy, PartialEq, Eq, Debug)]
pub struct Table<'a> {
    octets: &'a [u8],
}

const NO_PAIR: sys::Pair = sys::Pair {
    name: std::ptr::null(),
    name_length: 0,
    value: sys::Value::NONE,
};

impl<'a> Table<'a> {
    /// # Safety
    /// As for a value.
    pub(crate) unsafe fn told(value: &sys::Value) -> Table<'a> {
        Table {
            octets: octets(value.octets, value.length),
        }
    }

    /// The table that the octets begin with: a count of four octets, and so many octets of pairs.
    pub fn read(octets: &'a [u8]) -> Result<Table<'a>, Fault> {
        let (status, told) = Table { octets }.tell(&mut []);
        if status != Status::NO_ROOM.number() {
            Status::check(status).map_err(|status| Fault { at: told.at, status })?;
        }
        Ok(Table {
            octets: &octets[..told.length],
        })
    }

    /// Puts the first pairs into their places.
    fn tell(&self, pairs: &mut [sys::Pair]) -> (u32, sys::Table) {
        let mut told = sys::Table::default();
        // SAFETY: there are so many octets and so many places, and they lie apart.
        let status = unsafe {
            sys::mt_table_read(
                self.octets.as_ptr(),
                self.octets.len(),
                pairs.as_mut_ptr(),
                pairs.len(),
                &mut told,
            )
        };
        (status, told)
    }

    /// The table's octets, its count with them.
    pub fn octets(&self) -> &'a [u8] {
        self.octets
    }

    /// The names with their values, in order.
    pub fn iter(&self) -> impl ExactSizeIterator<Item = (&'a [u8], Value<'a>)> {
        let (_, told) = self.tell(&mut []);
        let mut pairs = vec![NO_PAIR; told.count];
        self.tell(&mut pairs);
        // SAFETY: the table lends them, and it was checked.
        pairs
            .into_iter()
            .map(|pair| unsafe { (octets(pair.name, pair.name_length), Value::told(&pair.value)) })
    }

    /// The value of the first pair with this name.
    pub fn get(&self, name: impl AsRef<[u8]>) -> Option<Value<'a>> {
        let name = name.as_ref();
        let mut value = sys::Value::NONE;
        let (table, at) = (self.octets, std::ptr::null_mut());
        // SAFETY: there are so many octets of each, and `value` lies apart from them.
        let status =
            unsafe { sys::mt_table_get(table.as_ptr(), table.len(), name.as_ptr(), name.len(), &mut value, at) };
        // SAFETY: the table lends it, and it was checked.
        (status == 0).then(|| unsafe { Value::told(&value) })
    }
}

/// An array that lies in octets which were checked.
#[derive(Clone, Copy, PartialEq, Eq, Debug)]
pub struct Array<'a> {
    octets: &'a [u8],
}

impl<'a> Array<'a> {
    /// Puts the first values into their places. The answer is how many there are.
    fn tell(&self, values: &mut [sys::Value]) -> usize {
        let mut told = sys::Table::default();
        // SAFETY: there are so many octets and so many places, and they lie apart.
        unsafe {
            sys::mt_array_read(
                self.octets.as_ptr(),
                self.octets.len(),
                values.as_mut_ptr(),
                values.len(),
                &mut told,
            )
        };
        told.count
    }

    /// The array's octets, without the count that stands before them.
    pub fn octets(&self) -> &'a [u8] {
        self.octets
    }

    /// The values, in order.
    pub fn iter(&self) -> impl ExactSizeIterator<Item = Value<'a>> {
        let mut values = vec![sys::Value::NONE; self.tell(&mut [])];
        self.tell(&mut values);
        // SAFETY: the array lends them, and it was checked.
        values.into_iter().map(|value| unsafe { Value::told(&value) })
    }
}
