//! What was wrong with the octets with which an end found fault.
use crate::fault::Fault;
use crate::method::Kind;
use crate::splitter::FrameKind;
use crate::status::Status;
use crate::sys;

/// The rule that was broken. The text of a [`Blame`] says each.
#[derive(Clone, Copy, PartialEq, Eq, Hash, Debug)]
pub enum Rule {
    ProtocolHeader,
    FrameType,
    FrameSize,
    FrameEnd,
    HeartbeatIsEmpty,
    HeartbeatOnZero,
    KnownMethod,
    NoSecure,
    Syntax,
    HandshakeOrder,
    TuneFrameSize,
    TuneOkRange,
    HandshakeIsOver,
    ConnectionOnZero,
    SentBySide,
    WasAsked,
    NotOnZero,
    ChannelMaximum,
    OpenedOnce,
    ChannelOpen,
    HeaderDue,
    BodyDue,
    ContentBegun,
    BodySize,
    WaitingRequests,
    /// A rule that a later library has.
    Other(u8),
}

impl Rule {
    fn numbered(number: u8) -> Rule {
        match number {
            1 => Rule::ProtocolHeader,
            2 => Rule::FrameType,
            3 => Rule::FrameSize,
            4 => Rule::FrameEnd,
            7 => Rule::HeartbeatIsEmpty,
            8 => Rule::HeartbeatOnZero,
            9 => Rule::KnownMethod,
            10 => Rule::NoSecure,
            11 => Rule::Syntax,
            12 => Rule::HandshakeOrder,
            13 => Rule::TuneFrameSize,
            14 => Rule::TuneOkRange,
            15 => Rule::HandshakeIsOver,
            16 => Rule::ConnectionOnZero,
            17 => Rule::SentBySide,
            18 => Rule::WasAsked,
            19 => Rule::NotOnZero,
            20 => Rule::ChannelMaximum,
            21 => Rule::OpenedOnce,
            22 => Rule::ChannelOpen,
            23 => Rule::HeaderDue,
            24 => Rule::BodyDue,
            25 => Rule::ContentBegun,
            26 => Rule::BodySize,
            27 => Rule::WaitingRequests,
            other => Rule::Other(other),
        }
    }
}

/// The whole frame with which fault was found.
#[derive(Clone, Copy, PartialEq, Eq, Debug)]
pub struct FrameBlamed {
    pub kind: FrameKind,
    pub channel: u16,
    /// The method that the first octets of a method's payload name, if they name one.
    pub method: Option<Kind>,
    /// Where a method or a header can't be read: what is wrong with it, and where in its payload.
    pub field: Option<Fault>,
}

/// What was wrong: where, with which frame, and by which rule. [`End::blame_line`](crate::End::blame_line) has its text.
#[derive(Clone, Copy, PartialEq, Eq, Debug)]
pub struct Blame {
    /// The place in the stream, counted from 0, where the frame or the protocol header at fault begins.
    pub octet: u64,
    /// The frame, if one is whole.
    pub frame: Option<FrameBlamed>,
    pub rule: Rule,
    /// The code of the close that was put, if one was.
    pub code: Option<u16>,
}

impl Blame {
    pub(crate) fn told(blame: &sys::Blame) -> Blame {
        let field = Status::numbered(blame.field).map(|status| Fault {
            at: blame.field_at,
            status,
        });
        let frame = FrameKind::of(blame.frame).map(|kind| FrameBlamed {
            kind,
            channel: blame.channel,
            method: Kind::numbered(blame.method),
            field,
        });
        Blame {
            octet: blame.octet,
            frame,
            rule: Rule::numbered(blame.rule),
            code: (blame.code != 0).then_some(blame.code),
        }
    }
}
