//! Methods that lie in their payloads.
use crate::fault::{written, Fault, Unwritten};
use crate::status::Status;
use crate::sys;
use crate::table::{octets, Table};
use std::ffi::{c_char, CStr, CString};
use std::fmt;

/// A kind of method: its class id in the upper 16 bits, its method id in the lower ones.
#[derive(Clone, Copy, PartialEq, Eq, Hash)]
pub struct Kind(u32);

impl Kind {
    /// The kind with this name, as `basic.get-ok`.
    pub fn named(name: &str) -> Option<Kind> {
        let name = CString::new(name).ok()?;
        // SAFETY: the name ends with a null octet.
        let kind = unsafe { sys::mt_method_kind(name.as_ptr()) };
        (kind != 0).then_some(Kind(kind))
    }

    /// The kind with this number, unless it is 0, which stands for none.
    pub(crate) fn numbered(number: u32) -> Option<Kind> {
        (number != 0).then_some(Kind(number))
    }

    /// The number, as C sees it.
    pub(crate) fn number(self) -> u32 {
        self.0
    }

    /// The kind that a class id and a method id name, if they name one.
    pub fn from_ids(class_id: u16, method_id: u16) -> Option<Kind> {
        let kind = Kind(u32::from(class_id) << 16 | u32::from(method_id));
        (!kind.name().is_empty()).then_some(kind)
    }

    pub fn class_id(self) -> u16 {
        (self.0 >> 16) as u16
    }

    pub fn method_id(self) -> u16 {
        self.0 as u16
    }

    /// The class and the method, as `basic.get-ok`.
    pub fn name(self) -> &'static str {
        // SAFETY: the name is one of the library's.
        unsafe { name(sys::mt_method_name(self.0)) }
    }
}

impl fmt::Display for Kind {
    fn fmt(&self, f: &mut fmt::Formatter<'_>) -> fmt::Result {
        f.write_str(self.name())
    }
}

impl fmt::Debug for Kind {
    fn fmt(&self, f: &mut fmt::Formatter<'_>) -> fmt::Result {
        f.write_str(self.name())
    }
}

/// A name of the library, or none.
///
/// # Safety
/// The pointer is null, or points to one of the library's names, which stay for ever.
pub(crate) unsafe fn name(text: *const c_char) -> &'static str {
    if text.is_null() {
        return "";
    }
    CStr::from_ptr(text).to_str().unwrap_or("")
}

/// The field of a method, or a property of a content. Octets are lent.
#[derive(Clone, Copy, PartialEq, Debug)]
pub enum Field<'a> {
    Bit(bool),
    Octet(u8),
    Short(u16),
    Long(u32),
    LongLong(u64),
    ShortStr(&'a [u8]),
    LongStr(&'a [u8]),
    Table(Table<'a>),
}

impl<'a> Field<'a> {
    /// What C tells, if it tells of one.
    ///
    /// # Safety
    /// Its octets are lent for as long as `'a`, and those of a table were checked.
    pub(crate) unsafe fn told(value: &sys::Value) -> Option<Field<'a>> {
        let field = match value.kind {
            1 => Field::Bit(value.number != 0),
            2 => Field::Octet(value.number as u8),
            3 => Field::Short(value.number as u16),
            4 => Field::Long(value.number as u32),
            5 => Field::LongLong(value.number),
            6 => Field::ShortStr(octets(value.octets, value.length)),
            7 => Field::LongStr(octets(value.octets, value.length)),
            8 => Field::Table(Table::told(value)),
            _ => return None,
        };
        Some(field)
    }
}

impl Field<'_> {
    /// The field as C takes it.
    pub(crate) fn to_sys(self) -> sys::Value {
        match self {
            Field::Bit(holds) => sys::Value::number(1, holds.into()),
            Field::Octet(number) => sys::Value::number(2, number.into()),
            Field::Short(number) => sys::Value::number(3, number.into()),
            Field::Long(number) => sys::Value::number(4, number.into()),
            Field::LongLong(number) => sys::Value::number(5, number),
            Field::ShortStr(text) => sys::Value::octets(6, text),
            Field::LongStr(text) => sys::Value::octets(7, text),
            Field::Table(table) => sys::Value::octets(8, table.octets()),
        }
    }
}

/// Writes the payload of a method at the start of the room: its fields in the order of the standard, without those
/// that it reserves. The answer is how many octets it has.
pub fn write_method(kind: Kind, fields: &[Field<'_>], room: &mut [u8]) -> Result<usize, Unwritten> {
    let values: Vec<sys::Value> = fields.iter().map(|field| field.to_sys()).collect();
    let mut told = sys::Written::default();
    // SAFETY: there are so many values, whose octets are lent, and so much room, apart from them.
    let status = unsafe {
        sys::mt_method_write(
            kind.0,
            values.as_ptr(),
            values.len(),
            room.as_mut_ptr(),
            room.len(),
            &mut told,
        )
    };
    written(status, &told)
}

/// A method that lies in its payload.
#[derive(Clone, Copy, PartialEq, Debug)]
pub struct Method<'a> {
    kind: Kind,
    fields: [Option<Field<'a>>; sys::MOST_FIELDS],
}

impl<'a> Method<'a> {
    /// The kind of the method that a payload begins with, of which its first four octets are read.
    pub fn peek(payload: &[u8]) -> Option<Kind> {
        let mut kind = 0;
        // SAFETY: the payload has so many octets.
        let status = unsafe { sys::mt_method_peek(payload.as_ptr(), payload.len(), &mut kind) };
        (status == 0).then_some(Kind(kind))
    }

    /// The method that a payload encodes, all of it.
    pub fn read(payload: &'a [u8]) -> Result<Method<'a>, Fault> {
        let mut told = sys::Method {
            at: 0,
            count: 0,
            kind: 0,
            fields: [sys::Value::NONE; sys::MOST_FIELDS],
        };
        // SAFETY: the payload has so many octets, and `told` lies apart from it.
        let status = unsafe { sys::mt_method_read(payload.as_ptr(), payload.len(), &mut told) };
        Status::check(status).map_err(|status| Fault { at: told.at, status })?;
        let mut fields = [None; sys::MOST_FIELDS];
        for (field, value) in fields.iter_mut().zip(&told.fields[..told.count]) {
            // SAFETY: the payload lends them, and it was checked.
            *field = unsafe { Field::told(value) };
        }
        Ok(Method {
            kind: Kind(told.kind),
            fields,
        })
    }

    pub fn kind(&self) -> Kind {
        self.kind
    }

    /// The fields in the order of the standard, without those that it reserves.
    pub fn fields(&self) -> impl Iterator<Item = Field<'a>> + '_ {
        self.fields.iter().map_while(|field| *field)
    }

    /// The names of the fields, in the same order.
    pub fn names(&self) -> impl Iterator<Item = &'static str> + '_ {
        // SAFETY: the names are the library's.
        (0..self.fields().count()).map(|place| unsafe { name(sys::mt_field_name(self.kind.0, place)) })
    }

    /// The field with this name, as `routing-key`.
    pub fn field(&self, name: &str) -> Option<Field<'a>> {
        self.names()
            .zip(self.fields())
            .find(|(held, _)| *held == name)
            .map(|(_, field)| field)
    }
}
