//! What a call answers when something is wrong.
use crate::sys;
use std::ffi::CStr;
use std::fmt;

/// The number of what is wrong. `meadowtray.h` has their names, in ranges by what they concern.
#[derive(Clone, Copy, PartialEq, Eq, Hash)]
pub struct Status(u32);

impl Status {
    /// The handle holds another kind of value.
    pub const OTHER_KIND: Status = Status(3);
    pub const OUT_OF_MEMORY: Status = Status(4);
    pub const LIMIT: Status = Status(5);
    pub const FRAME_UNKNOWN_TYPE: Status = Status(101);
    pub const FRAME_TOO_LARGE: Status = Status(102);
    pub const FRAME_BAD_END: Status = Status(103);
    pub const FRAME_OUT_OF_MEMORY: Status = Status(104);
    pub const FRAME_FAILED: Status = Status(105);

    /// There is less room than what is to be put into it.
    pub const NO_ROOM: Status = Status(7);
    /// Nothing is there that was asked for.
    pub const NOT_THERE: Status = Status(8);
    pub const MISFIT: Status = Status(9);
    pub const UNKNOWN_METHOD: Status = Status(201);
    pub const TRAILING: Status = Status(203);
    pub const BAD_WEIGHT: Status = Status(204);
    pub const BAD_FLAGS: Status = Status(205);
    pub const VALUE_ENDS: Status = Status(301);
    pub const VALUE_UNKNOWN_TAG: Status = Status(302);
    pub const VALUE_PASSES_ITS_END: Status = Status(303);
    pub const VALUE_TOO_DEEP: Status = Status(304);
    pub const VALUE_TOO_LONG: Status = Status(306);

    /// More octets than the output has.
    pub const PAST_OUTPUT: Status = Status(10);
    /// Octets of the output, or of a body that was begun, are to be written first.
    pub const WAITS: Status = Status(11);
    pub const END_PEER: Status = Status(401);
    pub const END_FATAL: Status = Status(402);
    pub const END_OUT_OF_MEMORY: Status = Status(403);
    pub const END_FAILED: Status = Status(404);
    pub const END_CLOSED: Status = Status(405);
    pub const SETTINGS_FRAME_MAX: Status = Status(501);
    pub const SETTINGS_CHANNEL_MAX: Status = Status(502);
    pub const SETTINGS_HELLO_TOO_LONG: Status = Status(503);
    pub const ASK_NOT_RUNNING: Status = Status(601);
    pub const ASK_BAD_CHANNEL: Status = Status(602);
    pub const ASK_NOT_OPEN: Status = Status(603);
    pub const ASK_PAUSED: Status = Status(604);
    pub const ASK_NOT_SENDABLE: Status = Status(605);
    pub const ASK_TOO_LARGE: Status = Status(606);
    pub const ASK_FLOW_PENDING: Status = Status(607);
    pub const ASK_NO_FREE_CHANNEL: Status = Status(608);
    pub const ASK_OUT_OF_MEMORY: Status = Status(609);
    pub const ASK_REPLY_PENDING: Status = Status(610);
    pub const ASK_NO_SUCH_REQUEST: Status = Status(611);
    pub const ASK_NOT_AWAITED: Status = Status(612);

    /// The status with this number, if something is wrong.
    pub(crate) fn numbered(status: u32) -> Option<Status> {
        (status != 0).then_some(Status(status))
    }

    /// Nothing is wrong, or this is.
    pub(crate) fn check(status: u32) -> Result<(), Status> {
        match status {
            0 => Ok(()),
            number => Err(Status(number)),
        }
    }

    /// The number, as C sees it.
    pub fn number(self) -> u32 {
        self.0
    }
}

impl fmt::Display for Status {
    fn fmt(&self, f: &mut fmt::Formatter<'_>) -> fmt::Result {
        // SAFETY: the text is never null, ends with a null octet, and stays for ever.
        let text = unsafe { CStr::from_ptr(sys::mt_status_text(self.0)) };
        f.write_str(&text.to_string_lossy())
    }
}

impl fmt::Debug for Status {
    fn fmt(&self, f: &mut fmt::Formatter<'_>) -> fmt::Result {
        write!(f, "Status({}: {self})", self.0)
    }
}

impl std::error::Error for Status {}
