//! Ends of a connection: clients and servers.
use crate::blame::Blame;
use crate::method::Kind;
use crate::status::Status;
use crate::sys;
use crate::table::octets;
use std::ffi::CStr;
use std::fmt;

/// What a client is set up with.
#[derive(Clone, Copy, PartialEq, Eq, Debug)]
pub struct ClientSettings<'a> {
    pub user: &'a [u8],
    pub password: &'a [u8],
    /// At most 255 octets.
    pub virtual_host: &'a [u8],
    /// The octets of a table, as [`write_table`](crate::write_table) makes them; empty for none.
    pub properties: &'a [u8],
    pub limits: Limits,
}

/// What a server is set up with.
#[derive(Clone, Copy, PartialEq, Eq, Debug)]
pub struct ServerSettings<'a> {
    /// The names of the security mechanisms, parted by spaces.
    pub mechanisms: &'a [u8],
    /// The names of the locales, parted by spaces.
    pub locales: &'a [u8],
    /// The octets of a table, likewise.
    pub properties: &'a [u8],
    pub limits: Limits,
}

/// What an end takes.
#[derive(Clone, Copy, PartialEq, Eq, Debug)]
pub struct Limits {
    /// The greatest frame, all its octets counted: from 4096 to 1048576.
    pub frame_max: u32,
    /// The greatest channel number, from 1.
    pub channel_max: u16,
    /// The greatest body of a content, in octets.
    pub max_body: u64,
    /// The heartbeat that is wanted, in seconds; 0 is none.
    pub heartbeat: u16,
    /// Whether the program decides in the handshake: [`Event::AnswerAsked`], [`Event::LoginAsked`], [`Event::OpenAsked`].
    pub gated: bool,
    /// Whether the frames of a content are told as they come, and none of them is kept: [`Event::Begins`],
    /// [`Event::Heads`], [`Event::Part`].
    pub lends: bool,
}

impl Default for Limits {
    fn default() -> Limits {
        Limits {
            frame_max: 131_072,
            channel_max: 2047,
            max_body: 16_777_216,
            heartbeat: 0,
            gated: false,
            lends: false,
        }
    }
}

impl Default for ClientSettings<'_> {
    fn default() -> Self {
        ClientSettings {
            user: b"guest",
            password: b"guest",
            virtual_host: b"/",
            properties: &[],
            limits: Limits::default(),
        }
    }
}

impl Default for ServerSettings<'_> {
    fn default() -> Self {
        ServerSettings {
            mechanisms: b"PLAIN",
            locales: b"en_US",
            properties: &[],
            limits: Limits::default(),
        }
    }
}

/// What a close of the other end was about: the class and the method that it names, both 0 where it names none.
#[derive(Clone, Copy, PartialEq, Eq, Debug)]
pub struct Cause {
    pub class_id: u16,
    pub method_id: u16,
}

impl Cause {
    /// The method that these name, if there is one.
    pub fn kind(self) -> Option<Kind> {
        Kind::from_ids(self.class_id, self.method_id)
    }
}

/// What tune-ok settled.
#[derive(Clone, Copy, PartialEq, Eq, Debug)]
pub struct Agreed {
    pub channel_max: u16,
    pub frame_max: u32,
    /// In seconds; 0 is none.
    pub heartbeat: u16,
}

/// How far a connection is.
#[derive(Clone, Copy, PartialEq, Eq, Hash, Debug)]
pub enum Phase {
    Handshake,
    Running,
    Closing,
    Closed,
    Failed,
}

/// The state of a channel.
#[derive(Clone, Copy, PartialEq, Eq, Hash, Debug)]
pub enum ChannelState {
    Free,
    Opening,
    Open,
    Closing,
}

/// A message: the payloads of its method and of its content header, and its body. Where no content follows the method,
/// the last two are empty.
#[derive(Clone, Copy, PartialEq, Eq, Default, Debug)]
pub struct Message<'a> {
    pub method: &'a [u8],
    pub header: &'a [u8],
    pub body: &'a [u8],
}

/// The code and the text of a close.
#[derive(Clone, Copy, PartialEq, Eq, Debug)]
pub struct Reason<'a> {
    pub code: u16,
    pub text: &'a [u8],
}

/// What an end tells of what it takes. Octets are lent by the end, until it is used again.
#[derive(Clone, Copy, PartialEq, Eq, Debug)]
pub enum Event<'a> {
    /// The handshake is over.
    Negotiated(Agreed),
    /// A channel's life begins.
    Opened(u16),
    /// A method without content, or a content that is whole now.
    Told(u16, Message<'a>),
    /// An end that lends: the payload of a method that begins a content.
    Begins(u16, &'a [u8]),
    /// An end that lends: the payload of the content's header, and whether the content is whole with it.
    Heads(u16, &'a [u8], bool),
    /// An end that lends: a part of the body, and whether the content is whole with it.
    Part(u16, &'a [u8], bool),
    /// The other end asks that contents be sent, or no more of them.
    Flow(u16, bool),
    /// The other end answers a flow.
    FlowOk(u16, bool),
    /// A channel's life ended: by the other end's close, which has a reason, or with close-ok.
    ChannelClosed(u16, Option<Reason<'a>>),
    /// The connection ended, likewise.
    ConnectionClosed(Option<Reason<'a>>),
    /// A frame was dropped after this end's close, or a content was refused at its header.
    Discarded(u16),
    /// The server takes no more contents, for this reason.
    Blocked(&'a [u8]),
    /// The server takes contents again.
    Unblocked,
    /// A step of the handshake, a heartbeat, or a close that crosses this end's own.
    Quiet,
    /// A gated client took start: [`Client::answer_start`].
    AnswerAsked,
    /// A gated server took start-ok: [`Server::admit`] or [`Server::refuse`].
    LoginAsked,
    /// A gated server took open: likewise.
    OpenAsked,
}

impl<'a> Event<'a> {
    /// The event that C tells of, if it tells of one.
    ///
    /// # Safety
    /// What it lends is lent for as long as `'a`.
    unsafe fn told(event: &sys::Event) -> Option<Event<'a>> {
        let lent = |part: &sys::Octets| octets(part.at, part.length);
        let reason = || {
            event.holds.then(|| Reason {
                code: event.code,
                text: lent(&event.text),
            })
        };
        Some(match event.kind {
            1 => Event::Negotiated(Agreed {
                channel_max: event.channel_max,
                frame_max: event.frame_max,
                heartbeat: event.heartbeat,
            }),
            2 => Event::Opened(event.channel),
            3 => Event::Told(
                event.channel,
                Message {
                    method: lent(&event.method),
                    header: lent(&event.header),
                    body: lent(&event.body),
                },
            ),
            4 => Event::Flow(event.channel, event.holds),
            5 => Event::FlowOk(event.channel, event.holds),
            6 => Event::ChannelClosed(event.channel, reason()),
            7 => Event::ConnectionClosed(reason()),
            8 => Event::Discarded(event.channel),
            9 => Event::Blocked(lent(&event.text)),
            10 => Event::Unblocked,
            11 => Event::Quiet,
            12 => Event::AnswerAsked,
            13 => Event::LoginAsked,
            14 => Event::OpenAsked,
            15 => Event::Begins(event.channel, lent(&event.method)),
            16 => Event::Heads(event.channel, lent(&event.header), event.holds),
            17 => Event::Part(event.channel, lent(&event.body), event.holds),
            _ => return None,
        })
    }
}

/// What a piece gave: how many of its octets were taken, and the event that came of them.
#[derive(Clone, Copy, PartialEq, Eq, Debug)]
pub struct Taken<'a> {
    pub octets: usize,
    pub event: Option<Event<'a>>,
}

/// Why an end takes no more octets, of which so many were taken. Where the other end broke the protocol, `code` is that of
/// the close which was put.
#[derive(Clone, Copy, PartialEq, Eq, Debug)]
pub struct EndFault {
    pub status: Status,
    pub code: Option<u16>,
    pub octets: usize,
}

impl fmt::Display for EndFault {
    fn fmt(&self, f: &mut fmt::Formatter<'_>) -> fmt::Result {
        match self.code {
            Some(code) => write!(f, "{}: {code}", self.status),
            None => write!(f, "{}", self.status),
        }
    }
}

impl std::error::Error for EndFault {}

pub(crate) fn given(octets: &[u8]) -> sys::Octets {
    sys::Octets {
        at: octets.as_ptr(),
        length: octets.len(),
    }
}

/// A handle that is closed when it is dropped.
#[derive(Debug)]
struct Handle(sys::Handle);

// SAFETY: the handle's value may go to another thread: this is proved of it, and a `&mut` gives it to one call at a
// time.
unsafe impl Send for Handle {}

impl Drop for Handle {
    fn drop(&mut self) {
        // SAFETY: a handle that isn't open is refused.
        unsafe { sys::mt_end_close(&mut self.0) };
    }
}

/// One end of a connection, which touches no socket: what a [`Client`] and a [`Server`] have in common.
///
/// Octets that came are fed; octets that are to be sent are lent by [`End::output`], until [`End::wrote`] says that they
/// were sent. An event is lent until the end is used again, so this doesn't compile:
///
/// ```compile_fail
/// let mut client = meadowtray::Client::new(&Default::default())?;
/// let first = client.feed(&[1])?;
/// let second = client.feed(&[0])?;
/// println!("{first:?} {second:?}");
/// # Ok::<(), Box<dyn std::error::Error>>(())
/// ```
#[derive(Debug)]
pub struct End {
    handle: Handle,
}

impl End {
    fn closed() -> End {
        End {
            handle: Handle(sys::Handle::CLOSED),
        }
    }

    pub(crate) fn handle(&mut self) -> &mut sys::Handle {
        &mut self.handle.0
    }

    /// Takes octets up to the end of the next frame of which something is told. Where the piece ends before that, all of it
    /// is taken. An end that lends tells of each frame, and any other of a content once it is whole.
    pub fn feed<'a>(&'a mut self, piece: &'a [u8]) -> Result<Taken<'a>, EndFault> {
        let mut event = sys::Event::NONE;
        // SAFETY: the piece has so many octets, and `event` lies apart from it.
        let status = unsafe { sys::mt_end_feed(&mut self.handle.0, piece.as_ptr(), piece.len(), &mut event) };
        Status::check(status).map_err(|status| EndFault {
            status,
            code: (status == Status::END_PEER).then_some(event.code),
            octets: event.taken,
        })?;
        Ok(Taken {
            octets: event.taken,
            // SAFETY: the end lends it until it is used again, and the piece as long as it is lent.
            event: unsafe { Event::told(&event) },
        })
    }

    /// Takes octets as [`End::feed`] does, again and again, up to so many events, and hands each of them on. The answer
    /// is how many octets were taken: it stops after a frame that began in an earlier piece, too. At a fault the events
    /// before it were handed on.
    pub fn feed_batch<const N: usize>(
        &mut self,
        piece: &[u8],
        mut each: impl FnMut(Event<'_>),
    ) -> Result<usize, EndFault> {
        let mut events = [sys::Event::NONE; N];
        let (mut count, mut taken, mut code) = (0, 0, 0);
        // SAFETY: there is room for so many events, and it lies apart from the piece.
        let status = unsafe {
            sys::mt_end_feed_batch(
                &mut self.handle.0,
                piece.as_ptr(),
                piece.len(),
                events.as_mut_ptr(),
                N,
                &mut count,
                &mut taken,
                &mut code,
            )
        };
        for event in &events[..count] {
            // SAFETY: all are lent until the end is used again.
            if let Some(event) = unsafe { Event::told(event) } {
                each(event);
            }
        }
        Status::check(status).map_err(|status| EndFault {
            status,
            code: (status == Status::END_PEER).then_some(code),
            octets: taken,
        })?;
        Ok(taken)
    }

    /// The octets to send next. They stay until [`End::wrote`] says that they were sent.
    pub fn output(&mut self) -> &[u8] {
        let mut output = sys::Octets::NONE;
        // SAFETY: the handle is open, so the call lends what it says, until the end is used again.
        unsafe {
            sys::mt_end_output(&mut self.handle.0, &mut output);
            octets(output.at, output.length)
        }
    }

    /// So many octets of the output were sent.
    pub fn wrote(&mut self, octets: usize) -> Result<(), Status> {
        // SAFETY: the handle is open.
        Status::check(unsafe { sys::mt_end_wrote(&mut self.handle.0, octets) })
    }

    /// Sends a message on a channel: a content is cut to the agreed frame size.
    pub fn send(&mut self, channel: u16, message: &Message<'_>) -> Result<(), Status> {
        let message = sys::Message {
            method: given(message.method),
            header: given(message.header),
            body: given(message.body),
        };
        // SAFETY: the message's octets are lent.
        Status::check(unsafe { sys::mt_end_send(&mut self.handle.0, channel, &message) })
    }

    /// Asks the other end to send contents on a channel, or no more of them.
    pub fn flow(&mut self, channel: u16, active: bool) -> Result<(), Status> {
        // SAFETY: the handle is open.
        Status::check(unsafe { sys::mt_end_flow(&mut self.handle.0, channel, active) })
    }

    /// Closes a channel, with a code and a text of at most 255 octets.
    pub fn close_channel(&mut self, channel: u16, code: u16, text: &[u8]) -> Result<(), Status> {
        // SAFETY: the text is lent.
        Status::check(unsafe { sys::mt_end_close_channel(&mut self.handle.0, channel, code, given(text)) })
    }

    /// Closes the connection, with a code and a text of at most 255 octets.
    pub fn close(&mut self, code: u16, text: &[u8]) -> Result<(), Status> {
        // SAFETY: the text is lent.
        Status::check(unsafe { sys::mt_end_close_connection(&mut self.handle.0, code, given(text)) })
    }

    /// Closes a channel for a method, which the close names. The text has at most 255 octets.
    pub fn close_channel_for(&mut self, channel: u16, code: u16, text: &[u8], kind: Kind) -> Result<(), Status> {
        // SAFETY: the text is lent.
        Status::check(unsafe {
            sys::mt_end_close_channel_for(&mut self.handle.0, channel, code, given(text), kind.number())
        })
    }

    /// Closes the connection for a method, likewise.
    pub fn close_for(&mut self, code: u16, text: &[u8], kind: Kind) -> Result<(), Status> {
        // SAFETY: the text is lent.
        Status::check(unsafe { sys::mt_end_close_connection_for(&mut self.handle.0, code, given(text), kind.number()) })
    }

    /// Puts a heartbeat. When to beat is the program's.
    pub fn beat(&mut self) -> Result<(), Status> {
        // SAFETY: the handle is open.
        Status::check(unsafe { sys::mt_end_beat(&mut self.handle.0) })
    }

    /// How many octets wait of a channel, put and not sent.
    pub fn waiting(&mut self, channel: u16) -> usize {
        let mut octets = 0;
        // SAFETY: the handle is open.
        unsafe { sys::mt_end_waiting(&mut self.handle.0, channel, &mut octets) };
        octets
    }

    /// How many frames were taken, and how many octets were sent.
    pub fn counters(&mut self) -> (u64, u64) {
        let (mut frames, mut octets) = (0, 0);
        // SAFETY: the handle is open.
        unsafe { sys::mt_end_counters(&mut self.handle.0, &mut frames, &mut octets) };
        (frames, octets)
    }

    /// How far the connection is.
    pub fn phase(&mut self) -> Phase {
        let mut phase = 0;
        // SAFETY: the handle is open.
        unsafe { sys::mt_end_phase(&mut self.handle.0, &mut phase) };
        match phase {
            1 => Phase::Handshake,
            2 => Phase::Running,
            3 => Phase::Closing,
            4 => Phase::Closed,
            _ => Phase::Failed,
        }
    }

    /// What tune-ok settled, once it is known.
    pub fn agreed(&mut self) -> Option<Agreed> {
        let mut agreed = sys::Agreed::default();
        // SAFETY: the handle is open.
        unsafe { sys::mt_end_agreed(&mut self.handle.0, &mut agreed) };
        (agreed.frame_max != 0).then_some(Agreed {
            channel_max: agreed.channel_max,
            frame_max: agreed.frame_max,
            heartbeat: agreed.heartbeat,
        })
    }

    fn channel(&mut self, channel: u16) -> sys::Channel {
        let mut told = sys::Channel::default();
        // SAFETY: the handle is open.
        unsafe { sys::mt_end_channel(&mut self.handle.0, channel, &mut told) };
        told
    }

    /// The state of a channel.
    pub fn channel_state(&mut self, channel: u16) -> ChannelState {
        match self.channel(channel).state {
            2 => ChannelState::Opening,
            3 => ChannelState::Open,
            4 => ChannelState::Closing,
            _ => ChannelState::Free,
        }
    }

    /// How many octets are kept of the body of a content that isn't whole yet.
    pub fn gathered(&mut self, channel: u16) -> usize {
        self.channel(channel).gathered
    }

    /// The request that is to be answered next on a channel.
    pub fn reply_due(&mut self, channel: u16) -> Option<Kind> {
        Kind::numbered(self.channel(channel).reply_due)
    }

    /// How many octets were taken of a frame that isn't whole yet, or of the protocol header.
    pub fn pending(&mut self) -> usize {
        let mut pending = 0;
        // SAFETY: the handle is open.
        unsafe { sys::mt_end_pending(&mut self.handle.0, &mut pending) };
        pending
    }

    /// How many octets were taken in all, also those with which fault was found.
    pub fn octets_taken(&mut self) -> u64 {
        let mut octets = 0;
        // SAFETY: the handle is open.
        unsafe { sys::mt_end_octets_taken(&mut self.handle.0, &mut octets) };
        octets
    }

    /// How many octets the end keeps for its peer: of contents that aren't whole yet, and those that are pending.
    pub fn kept(&mut self) -> usize {
        let mut octets = 0;
        // SAFETY: the handle is open.
        unsafe { sys::mt_end_kept(&mut self.handle.0, &mut octets) };
        octets
    }

    /// How many octets of bodies are kept on all channels: the sum of [`End::gathered`].
    pub fn gathered_in_all(&mut self) -> usize {
        let mut octets = 0;
        // SAFETY: the handle is open.
        unsafe { sys::mt_end_gathered_in_all(&mut self.handle.0, &mut octets) };
        octets
    }

    /// The heartbeat that was agreed, in seconds; 0 is none, and what stands before.
    pub fn heartbeat(&mut self) -> u16 {
        let mut heartbeat = 0;
        // SAFETY: the handle is open.
        unsafe { sys::mt_end_heartbeat(&mut self.handle.0, &mut heartbeat) };
        heartbeat
    }

    /// The payload of the method of this kind that the other end said in the handshake, if it is kept.
    pub fn heard(&mut self, kind: Kind) -> Result<Option<Vec<u8>>, Status> {
        let mut room = vec![0; 1024];
        let mut written = sys::Written::default();
        loop {
            // SAFETY: the room has so many octets, and lies apart from `written`.
            let status = unsafe {
                sys::mt_end_heard(&mut self.handle.0, kind.number(), room.as_mut_ptr(), room.len(), &mut written)
            };
            match Status::check(status) {
                Ok(()) => {
                    room.truncate(written.length);
                    return Ok(Some(room));
                }
                Err(Status::NOT_THERE) => return Ok(None),
                Err(Status::NO_ROOM) => room.resize(room.len() * 4, 0),
                Err(status) => return Err(status),
            }
        }
    }

    /// Forgets what the other end said in the handshake, its credentials among it.
    pub fn forget_heard(&mut self) {
        // SAFETY: the handle is open.
        unsafe { sys::mt_end_forget_heard(&mut self.handle.0) };
    }

    /// What the last close of the other end was about, if there was one.
    pub fn closed_for(&mut self) -> Option<Cause> {
        let (mut class_id, mut method_id) = (0, 0);
        // SAFETY: the handle is open.
        let status = unsafe { sys::mt_end_closed_for(&mut self.handle.0, &mut class_id, &mut method_id) };
        Status::check(status).ok()?;
        Some(Cause { class_id, method_id })
    }

    /// What was wrong with octets that the end took, if it found fault with them.
    pub fn blame(&mut self) -> Option<Blame> {
        let mut blame = sys::Blame::default();
        // SAFETY: the handle is open, and `blame` lies in a place of its own.
        Status::check(unsafe { sys::mt_end_blame(&mut self.handle.0, &mut blame) }).ok()?;
        Some(Blame::told(&blame))
    }

    /// The same as a line for a log: `octet 1043, channel 3: basic.ack while a header is due (505)`.
    pub fn blame_line(&mut self) -> Option<String> {
        let mut room = [0; 512];
        // SAFETY: the room has so many octets, and a line ends with a null octet.
        unsafe {
            Status::check(sys::mt_end_blame_line(&mut self.handle.0, room.as_mut_ptr(), room.len())).ok()?;
            Some(CStr::from_ptr(room.as_ptr()).to_string_lossy().into_owned())
        }
    }
}

/// The side that opens the connection and its channels.
#[derive(Debug)]
pub struct Client {
    end: End,
}

impl Client {
    /// A client that has the protocol header to send.
    pub fn new(settings: &ClientSettings<'_>) -> Result<Client, Status> {
        let mut end = End::closed();
        let mut given_settings = sys::ClientSettings::default();
        // SAFETY: the settings lie in a place of their own, and their octets are lent.
        let status = unsafe {
            sys::mt_client_defaults(&mut given_settings);
            given_settings.user = given(settings.user);
            given_settings.password = given(settings.password);
            given_settings.virtual_host = given(settings.virtual_host);
            given_settings.properties = given(settings.properties);
            given_settings.max_body = settings.limits.max_body;
            given_settings.frame_max = settings.limits.frame_max;
            given_settings.channel_max = settings.limits.channel_max;
            given_settings.heartbeat = settings.limits.heartbeat;
            given_settings.gated = settings.limits.gated;
            given_settings.lends = settings.limits.lends;
            sys::mt_end_open_client(&mut end.handle.0, &given_settings)
        };
        Status::check(status)?;
        Ok(Client { end })
    }

    /// Opens the lowest channel that is free.
    pub fn open_channel(&mut self) -> Result<u16, Status> {
        let mut channel = 0;
        // SAFETY: the handle is open.
        Status::check(unsafe { sys::mt_end_open_channel(&mut self.end.handle.0, &mut channel) })?;
        Ok(channel)
    }

    /// Answers the start that a gated client holds, with what its program chose.
    pub fn answer_start(&mut self, mechanism: &[u8], response: &[u8], locale: &[u8]) -> Result<(), Status> {
        // SAFETY: the octets are lent.
        Status::check(unsafe {
            sys::mt_end_answer_start(&mut self.end.handle.0, given(mechanism), given(response), given(locale))
        })
    }

    /// The lowest channel that is free.
    pub fn lowest_free(&mut self) -> Result<u16, Status> {
        let mut channel = 0;
        // SAFETY: the handle is open.
        Status::check(unsafe { sys::mt_end_lowest_free(&mut self.end.handle.0, &mut channel) })?;
        Ok(channel)
    }
}

/// The side that is connected to.
#[derive(Debug)]
pub struct Server {
    end: End,
}

impl Server {
    /// A server that awaits the protocol header.
    pub fn new(settings: &ServerSettings<'_>) -> Result<Server, Status> {
        let mut end = End::closed();
        let given_settings = sys::ServerSettings {
            mechanisms: given(settings.mechanisms),
            locales: given(settings.locales),
            properties: given(settings.properties),
            max_body: settings.limits.max_body,
            frame_max: settings.limits.frame_max,
            channel_max: settings.limits.channel_max,
            heartbeat: settings.limits.heartbeat,
            gated: settings.limits.gated,
            lends: settings.limits.lends,
        };
        // SAFETY: the handle is closed, and the settings' octets are lent.
        Status::check(unsafe { sys::mt_end_open_server(&mut end.handle.0, &given_settings) })?;
        Ok(Server { end })
    }

    /// Admits a login or an open that a gated server holds.
    pub fn admit(&mut self) -> Result<(), Status> {
        // SAFETY: the handle is open.
        Status::check(unsafe { sys::mt_end_admit(&mut self.end.handle.0) })
    }

    /// Refuses it, and closes the connection, with a code and a text of at most 255 octets.
    pub fn refuse(&mut self, code: u16, text: &[u8]) -> Result<(), Status> {
        // SAFETY: the text is lent.
        Status::check(unsafe { sys::mt_end_refuse(&mut self.end.handle.0, code, given(text)) })
    }

    /// Says that the server takes no more contents, and why: at most 255 octets.
    pub fn blocked(&mut self, reason: &[u8]) -> Result<(), Status> {
        // SAFETY: the reason is lent.
        Status::check(unsafe { sys::mt_end_blocked(&mut self.end.handle.0, given(reason)) })
    }

    /// Says that the server takes contents again.
    pub fn unblocked(&mut self) -> Result<(), Status> {
        // SAFETY: the handle is open.
        Status::check(unsafe { sys::mt_end_unblocked(&mut self.end.handle.0) })
    }
}

impl std::ops::Deref for Client {
    type Target = End;

    fn deref(&self) -> &End {
        &self.end
    }
}

impl std::ops::DerefMut for Client {
    fn deref_mut(&mut self) -> &mut End {
        &mut self.end
    }
}

impl std::ops::Deref for Server {
    type Target = End;

    fn deref(&self) -> &End {
        &self.end
    }
}

impl std::ops::DerefMut for Server {
    fn deref_mut(&mut self) -> &mut End {
        &mut self.end
    }
}
