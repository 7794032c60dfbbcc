//! AMQP 0-9-1 on the wire: both ends of a connection, frames split from a stream, and the methods, content headers and
//! tables that they carry.
//!
//! What stands behind these types is a library that is proved; this crate calls it through C. It touches no socket:
//! octets are handed in as they came, and what they hold is lent.
#![warn(missing_debug_implementations)]

mod blame;
mod content;
mod end;
mod fault;
mod header;
mod method;
mod splitter;
mod status;
pub mod sys;
mod table;

pub use blame::{Blame, FrameBlamed, Rule};
pub use content::Content;
pub use end::{
    Agreed, Cause, ChannelState, Client, ClientSettings, End, EndFault, Event, Limits, Message, Phase, Reason, Server,
    ServerSettings, Taken,
};
pub use fault::{Fault, Unwritten};
pub use header::{write_header, Header};
pub use method::{write_method, Field, Kind, Method};
pub use splitter::{Fed, Frame, FrameFault, FrameKind, Splitter};
pub use status::Status;
pub use table::{write_table, Array, Table, Value};
