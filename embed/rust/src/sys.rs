//! The functions of `meadowtray.h`, as C declares them. Its comments say what a caller has to keep.

/// The room of a handle: null and false before it is opened.
#[repr(C)]
#[derive(Debug)]
pub struct Handle {
    pub at: *mut core::ffi::c_void,
    pub open: bool,
}

impl Handle {
    pub const CLOSED: Handle = Handle {
        at: core::ptr::null_mut(),
        open: false,
    };
}

/// `mt_frame`.
#[repr(C)]
#[derive(Clone, Copy, Debug)]
pub struct Frame {
    pub taken: usize,
    pub at: u64,
    pub payload: *const u8,
    pub length: usize,
    pub channel: u16,
    pub kind: u8,
}

/// `mt_value`.
#[repr(C)]
#[derive(Clone, Copy, Debug)]
pub struct Value {
    pub octets: *const u8,
    pub length: usize,
    pub number: u64,
    pub kind: u8,
    pub scale: u8,
}

impl Value {
    pub const NONE: Value = Value {
        octets: core::ptr::null(),
        length: 0,
        number: 0,
        kind: 0,
        scale: 0,
    };

    pub(crate) fn number(kind: u8, number: u64) -> Value {
        Value {
            number,
            kind,
            ..Value::NONE
        }
    }

    pub(crate) fn octets(kind: u8, octets: &[u8]) -> Value {
        Value {
            octets: octets.as_ptr(),
            length: octets.len(),
            kind,
            ..Value::NONE
        }
    }
}

/// `MT_MOST_FIELDS`
pub const MOST_FIELDS: usize = 8;

/// `MT_PROPERTIES`
pub const PROPERTIES: usize = 14;

/// `mt_method`.
#[repr(C)]
#[derive(Clone, Copy, Debug)]
pub struct Method {
    pub at: usize,
    pub count: usize,
    pub kind: u32,
    pub fields: [Value; MOST_FIELDS],
}

/// `mt_header`.
#[repr(C)]
#[derive(Clone, Copy, Debug)]
pub struct Header {
    pub body_size: u64,
    pub at: usize,
    pub flags: u16,
    pub properties: [Value; PROPERTIES],
}

/// `mt_pair`.
#[repr(C)]
#[derive(Clone, Copy, Debug)]
pub struct Pair {
    pub name: *const u8,
    pub name_length: usize,
    pub value: Value,
}

/// `mt_table`.
#[repr(C)]
#[derive(Clone, Copy, Default, Debug)]
pub struct Table {
    pub at: usize,
    pub length: usize,
    pub count: usize,
    pub placed: usize,
}

/// `mt_written`.
#[repr(C)]
#[derive(Clone, Copy, Default, Debug)]
pub struct Written {
    pub length: usize,
    pub value: usize,
    pub at: usize,
}

/// `mt_octets`.
#[repr(C)]
#[derive(Clone, Copy, Debug)]
pub struct Octets {
    pub at: *const u8,
    pub length: usize,
}

impl Octets {
    pub const NONE: Octets = Octets {
        at: core::ptr::null(),
        length: 0,
    };
}

impl Default for Octets {
    fn default() -> Octets {
        Octets::NONE
    }
}

/// `mt_client_settings`.
#[repr(C)]
#[derive(Clone, Copy, Default, Debug)]
pub struct ClientSettings {
    pub user: Octets,
    pub password: Octets,
    pub virtual_host: Octets,
    pub mechanism: Octets,
    pub response: Octets,
    pub locale: Octets,
    pub properties: Octets,
    pub max_body: u64,
    pub frame_max: u32,
    pub channel_max: u16,
    pub heartbeat: u16,
    pub gated: bool,
    pub lends: bool,
}

/// `mt_server_settings`.
#[repr(C)]
#[derive(Clone, Copy, Default, Debug)]
pub struct ServerSettings {
    pub mechanisms: Octets,
    pub locales: Octets,
    pub properties: Octets,
    pub max_body: u64,
    pub frame_max: u32,
    pub channel_max: u16,
    pub heartbeat: u16,
    pub gated: bool,
    pub lends: bool,
}

/// `mt_event`.
#[repr(C)]
#[derive(Clone, Copy, Debug)]
pub struct Event {
    pub method: Octets,
    pub header: Octets,
    pub body: Octets,
    pub text: Octets,
    pub frame_max: u32,
    pub channel: u16,
    pub channel_max: u16,
    pub heartbeat: u16,
    pub code: u16,
    pub kind: u8,
    pub holds: bool,
    pub taken: usize,
}

impl Event {
    pub const NONE: Event = Event {
        method: Octets::NONE,
        header: Octets::NONE,
        body: Octets::NONE,
        text: Octets::NONE,
        frame_max: 0,
        channel: 0,
        channel_max: 0,
        heartbeat: 0,
        code: 0,
        kind: 0,
        holds: false,
        taken: 0,
    };
}

/// `mt_message`.
#[repr(C)]
#[derive(Clone, Copy, Default, Debug)]
pub struct Message {
    pub method: Octets,
    pub header: Octets,
    pub body: Octets,
}

/// `mt_agreed`.
#[repr(C)]
#[derive(Clone, Copy, Default, Debug)]
pub struct Agreed {
    pub frame_max: u32,
    pub channel_max: u16,
    pub heartbeat: u16,
}

/// `mt_channel`.
#[repr(C)]
#[derive(Clone, Copy, Default, Debug)]
pub struct Channel {
    pub gathered: usize,
    pub reply_due: u32,
    pub state: u8,
}

/// `mt_blame`.
#[repr(C)]
#[derive(Clone, Copy, Default, Debug)]
pub struct Blame {
    pub octet: u64,
    pub field_at: usize,
    pub field: u32,
    pub method: u32,
    pub channel: u16,
    pub code: u16,
    pub frame: u8,
    pub rule: u8,
}

extern "C" {
    pub fn mt_status_text(status: u32) -> *const core::ffi::c_char;
    pub fn mt_splitter_open(splitter: *mut Handle, limit: u32) -> u32;
    pub fn mt_splitter_feed(splitter: *mut Handle, piece: *const u8, length: usize, frame: *mut Frame) -> u32;
    pub fn mt_splitter_feed_batch(
        splitter: *mut Handle,
        piece: *const u8,
        length: usize,
        frames: *mut Frame,
        capacity: usize,
        count: *mut usize,
        taken: *mut usize,
    ) -> u32;
    pub fn mt_splitter_pending(splitter: *mut Handle, pending: *mut usize) -> u32;
    pub fn mt_splitter_set_limit(splitter: *mut Handle, limit: u32) -> u32;
    pub fn mt_splitter_close(splitter: *mut Handle) -> u32;
    pub fn mt_method_peek(payload: *const u8, length: usize, kind: *mut u32) -> u32;
    pub fn mt_method_read(payload: *const u8, length: usize, method: *mut Method) -> u32;
    pub fn mt_method_name(kind: u32) -> *const core::ffi::c_char;
    pub fn mt_field_name(kind: u32, place: usize) -> *const core::ffi::c_char;
    pub fn mt_header_read(payload: *const u8, length: usize, header: *mut Header) -> u32;
    pub fn mt_property_name(place: usize) -> *const core::ffi::c_char;
    pub fn mt_table_read(
        octets: *const u8,
        length: usize,
        pairs: *mut Pair,
        capacity: usize,
        table: *mut Table,
    ) -> u32;
    pub fn mt_table_get(
        octets: *const u8,
        length: usize,
        name: *const u8,
        name_length: usize,
        value: *mut Value,
        at: *mut usize,
    ) -> u32;
    pub fn mt_array_read(
        octets: *const u8,
        length: usize,
        values: *mut Value,
        capacity: usize,
        array: *mut Table,
    ) -> u32;
    pub fn mt_method_kind(name: *const core::ffi::c_char) -> u32;
    pub fn mt_method_write(
        kind: u32,
        fields: *const Value,
        count: usize,
        room: *mut u8,
        capacity: usize,
        written: *mut Written,
    ) -> u32;
    pub fn mt_header_write(
        body_size: u64,
        properties: *const Value,
        room: *mut u8,
        capacity: usize,
        written: *mut Written,
    ) -> u32;
    pub fn mt_table_write(
        pairs: *const Pair,
        count: usize,
        room: *mut u8,
        capacity: usize,
        written: *mut Written,
    ) -> u32;
    pub fn mt_client_defaults(settings: *mut ClientSettings);
    pub fn mt_server_defaults(settings: *mut ServerSettings);
    pub fn mt_end_open_client(end: *mut Handle, settings: *const ClientSettings) -> u32;
    pub fn mt_end_open_server(end: *mut Handle, settings: *const ServerSettings) -> u32;
    pub fn mt_end_close(end: *mut Handle) -> u32;
    pub fn mt_end_feed(end: *mut Handle, piece: *const u8, length: usize, event: *mut Event) -> u32;
    pub fn mt_end_feed_batch(
        end: *mut Handle,
        piece: *const u8,
        length: usize,
        events: *mut Event,
        capacity: usize,
        count: *mut usize,
        taken: *mut usize,
        code: *mut u16,
    ) -> u32;
    pub fn mt_content_open(content: *mut Handle) -> u32;
    pub fn mt_content_close(content: *mut Handle) -> u32;
    pub fn mt_content_left(content: *mut Handle, left: *mut u64) -> u32;
    pub fn mt_content_add_to(content: *mut Handle, count: *mut u64) -> u32;
    pub fn mt_content_write(content: *mut Handle, part: *const u8, length: usize, octets: *mut Octets) -> u32;
    pub fn mt_end_pieces(end: *mut Handle, length: usize, count: *mut usize) -> u32;
    pub fn mt_end_lend_content(
        end: *mut Handle,
        content: *mut Handle,
        channel: u16,
        message: *const Message,
        pieces: *mut Octets,
        capacity: usize,
        count: *mut usize,
    ) -> u32;
    pub fn mt_end_begin_content(
        end: *mut Handle,
        content: *mut Handle,
        channel: u16,
        method: Octets,
        header: Octets,
        octets: *mut Octets,
    ) -> u32;
    pub fn mt_end_output(end: *mut Handle, output: *mut Octets) -> u32;
    pub fn mt_end_wrote(end: *mut Handle, length: usize) -> u32;
    pub fn mt_end_open_channel(end: *mut Handle, channel: *mut u16) -> u32;
    pub fn mt_end_send(end: *mut Handle, channel: u16, message: *const Message) -> u32;
    pub fn mt_end_flow(end: *mut Handle, channel: u16, active: bool) -> u32;
    pub fn mt_end_close_channel(end: *mut Handle, channel: u16, code: u16, text: Octets) -> u32;
    pub fn mt_end_close_connection(end: *mut Handle, code: u16, text: Octets) -> u32;
    pub fn mt_end_blocked(end: *mut Handle, reason: Octets) -> u32;
    pub fn mt_end_unblocked(end: *mut Handle) -> u32;
    pub fn mt_end_beat(end: *mut Handle) -> u32;
    pub fn mt_end_admit(end: *mut Handle) -> u32;
    pub fn mt_end_refuse(end: *mut Handle, code: u16, text: Octets) -> u32;
    pub fn mt_end_answer_start(end: *mut Handle, mechanism: Octets, response: Octets, locale: Octets) -> u32;
    pub fn mt_end_waiting(end: *mut Handle, channel: u16, octets: *mut usize) -> u32;
    pub fn mt_end_counters(end: *mut Handle, frames_taken: *mut u64, octets_written: *mut u64) -> u32;
    pub fn mt_end_phase(end: *mut Handle, phase: *mut u8) -> u32;
    pub fn mt_end_agreed(end: *mut Handle, agreed: *mut Agreed) -> u32;
    pub fn mt_end_channel(end: *mut Handle, channel: u16, told: *mut Channel) -> u32;
    pub fn mt_end_lowest_free(end: *mut Handle, channel: *mut u16) -> u32;
    pub fn mt_end_pending(end: *mut Handle, pending: *mut usize) -> u32;
    pub fn mt_end_octets_taken(end: *mut Handle, octets: *mut u64) -> u32;
    pub fn mt_end_kept(end: *mut Handle, octets: *mut usize) -> u32;
    pub fn mt_end_gathered_in_all(end: *mut Handle, octets: *mut usize) -> u32;
    pub fn mt_end_heartbeat(end: *mut Handle, heartbeat: *mut u16) -> u32;
    pub fn mt_end_heard(end: *mut Handle, kind: u32, room: *mut u8, capacity: usize, written: *mut Written) -> u32;
    pub fn mt_end_forget_heard(end: *mut Handle) -> u32;
    pub fn mt_end_closed_for(end: *mut Handle, class_id: *mut u16, method_id: *mut u16) -> u32;
    pub fn mt_end_close_channel_for(end: *mut Handle, channel: u16, code: u16, text: Octets, kind: u32) -> u32;
    pub fn mt_end_close_connection_for(end: *mut Handle, code: u16, text: Octets, kind: u32) -> u32;
    pub fn mt_end_blame(end: *mut Handle, blame: *mut Blame) -> u32;
    pub fn mt_end_blame_line(end: *mut Handle, room: *mut core::ffi::c_char, capacity: usize) -> u32;
}
