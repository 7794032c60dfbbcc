//! Content headers that lie in their payloads.
use crate::fault::{written, Fault, Unwritten};
use crate::method::{name, Field};
use crate::status::Status;
use crate::sys;
use crate::table::Table;

/// The place of the property with this name.
fn place_of(name: &str) -> Option<usize> {
    // SAFETY: the names are the library's.
    (0..sys::PROPERTIES).find(|place| unsafe { self::name(sys::mt_property_name(*place)) } == name)
}

/// Writes the payload of a content header at the start of the room, with these properties by their names, as
/// `content-type`. The answer is how many octets it has. A name that no property has is a misfit.
pub fn write_header(body_size: u64, properties: &[(&str, Field<'_>)], room: &mut [u8]) -> Result<usize, Unwritten> {
    let mut values = [sys::Value::NONE; sys::PROPERTIES];
    for (given, (name, field)) in properties.iter().enumerate() {
        let Some(place) = place_of(name) else {
            let (status, at) = (Status::MISFIT, 0);
            return Err(Unwritten {
                status,
                value: given,
                at,
            });
        };
        values[place] = field.to_sys();
    }
    let mut told = sys::Written::default();
    // SAFETY: there are as many values as properties, whose octets are lent, and so much room, apart from them.
    let status =
        unsafe { sys::mt_header_write(body_size, values.as_ptr(), room.as_mut_ptr(), room.len(), &mut told) };
    written(status, &told)
}

/// A content header that lies in its payload.
#[derive(Clone, Copy, PartialEq, Debug)]
pub struct Header<'a> {
    body_size: u64,
    properties: [Option<Field<'a>>; sys::PROPERTIES],
}

impl<'a> Header<'a> {
    /// The content header that a payload encodes, all of it.
    pub fn read(payload: &'a [u8]) -> Result<Header<'a>, Fault> {
        let mut told = sys::Header {
            body_size: 0,
            at: 0,
            flags: 0,
            properties: [sys::Value::NONE; sys::PROPERTIES],
        };
        // SAFETY: the payload has so many octets, and `told` lies apart from it.
        let status = unsafe { sys::mt_header_read(payload.as_ptr(), payload.len(), &mut told) };
        Status::check(status).map_err(|status| Fault { at: told.at, status })?;
        Ok(Header {
            body_size: told.body_size,
            // SAFETY: the payload lends them, and it was checked.
            properties: told.properties.map(|value| unsafe { Field::told(&value) }),
        })
    }

    /// How many octets the body has.
    pub fn body_size(&self) -> u64 {
        self.body_size
    }

    /// The properties that are there, with their names, as `content-type`.
    pub fn properties(&self) -> impl Iterator<Item = (&'static str, Field<'a>)> + '_ {
        // SAFETY: the names are the library's.
        let named = |place| unsafe { name(sys::mt_property_name(place)) };
        self.properties
            .iter()
            .enumerate()
            .filter_map(move |(place, field)| field.map(|field| (named(place), field)))
    }

    /// The property with this name, if it is there.
    pub fn property(&self, name: &str) -> Option<Field<'a>> {
        self.properties()
            .find(|(held, _)| *held == name)
            .map(|(_, field)| field)
    }

    /// The application's headers, if they are there.
    pub fn headers(&self) -> Option<Table<'a>> {
        match self.properties[2] {
            Some(Field::Table(table)) => Some(table),
            _ => None,
        }
    }
}
