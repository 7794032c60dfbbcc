//! A stream of octets, split into its frames.
use crate::status::Status;
use crate::sys;
use std::fmt;

/// What a frame carries.
#[derive(Clone, Copy, PartialEq, Eq, Hash, Debug)]
pub enum FrameKind {
    Method,
    Header,
    Body,
    Heartbeat,
}

impl FrameKind {
    /// The kind that a type octet stands for, if it stands for one.
    pub(crate) fn of(octet: u8) -> Option<FrameKind> {
        Some(match octet {
            1 => FrameKind::Method,
            2 => FrameKind::Header,
            3 => FrameKind::Body,
            8 => FrameKind::Heartbeat,
            _ => return None,
        })
    }
}

/// A frame whose payload is lent, by the piece or by the splitter.
#[derive(Clone, Copy, PartialEq, Eq, Debug)]
pub struct Frame<'a> {
    pub kind: FrameKind,
    pub channel: u16,
    pub payload: &'a [u8],
}

/// What a piece gave: how many of its octets were taken, and the frame that the last of them ends.
#[derive(Clone, Copy, PartialEq, Eq, Debug)]
pub struct Fed<'a> {
    pub taken: usize,
    pub frame: Option<Frame<'a>>,
}

/// What is wrong with a stream, and the place of the octet that shows it.
#[derive(Clone, Copy, PartialEq, Eq, Debug)]
pub struct FrameFault {
    pub at: u64,
    pub status: Status,
}

impl fmt::Display for FrameFault {
    fn fmt(&self, f: &mut fmt::Formatter<'_>) -> fmt::Result {
        write!(f, "{} at octet {}", self.status, self.at)
    }
}

impl std::error::Error for FrameFault {}

/// Splits a stream into its frames, piece by piece.
///
/// A frame is lent until the splitter is used again, so this doesn't compile:
///
/// ```compile_fail
/// let mut splitter = meadowtray::Splitter::new(4096)?;
/// let first = splitter.feed(&[8, 0, 0, 0, 0, 0, 0, 0xce])?;
/// let second = splitter.feed(&[8, 0, 0, 0, 0, 0, 0, 0xce])?;
/// println!("{first:?} {second:?}");
/// # Ok::<(), Box<dyn std::error::Error>>(())
/// ```
#[derive(Debug)]
pub struct Splitter {
    handle: sys::Handle,
}

// SAFETY: the handle's value may go to another thread: this is proved of it, and a `&mut` gives it to one call at a
// time.
unsafe impl Send for Splitter {}

impl Splitter {
    /// A splitter at the beginning of a stream. The limit counts all octets of a frame, and is 8 at least.
    pub fn new(limit: u32) -> Result<Splitter, Status> {
        let mut splitter = Splitter {
            handle: sys::Handle::CLOSED,
        };
        // SAFETY: the handle is closed.
        Status::check(unsafe { sys::mt_splitter_open(&mut splitter.handle, limit) })?;
        Ok(splitter)
    }

    /// Takes octets up to the end of the next frame and no further, and lends that frame.
    pub fn feed<'a>(&'a mut self, piece: &'a [u8]) -> Result<Fed<'a>, FrameFault> {
        let mut frame = NO_FRAME;
        // SAFETY: the piece has so many octets, and `frame` lies apart from it.
        let status = unsafe { sys::mt_splitter_feed(&mut self.handle, piece.as_ptr(), piece.len(), &mut frame) };
        Status::check(status).map_err(|status| FrameFault { at: frame.at, status })?;
        Ok(Fed {
            taken: frame.taken,
            // SAFETY: the splitter lends it until it is used again, and the piece as long as it is lent.
            frame: unsafe { lent(&frame) },
        })
    }

    /// Takes octets as [`Splitter::feed`] does, again and again, up to so many frames, and hands each of them on. The
    /// answer is how many octets were taken. It stops after a frame that began in an earlier piece. At a fault the
    /// frames before it were handed on.
    pub fn feed_batch<const N: usize>(
        &mut self,
        piece: &[u8],
        mut each: impl FnMut(Frame<'_>),
    ) -> Result<usize, FrameFault> {
        let mut frames = [NO_FRAME; N];
        let (mut count, mut taken) = (0, 0);
        // SAFETY: there is room for so many frames, and it lies apart from the piece.
        let status = unsafe {
            sys::mt_splitter_feed_batch(
                &mut self.handle,
                piece.as_ptr(),
                piece.len(),
                frames.as_mut_ptr(),
                N,
                &mut count,
                &mut taken,
            )
        };
        for frame in &frames[..count] {
            // SAFETY: all are lent until the splitter is used again.
            if let Some(frame) = unsafe { lent(frame) } {
                each(frame);
            }
        }
        let at = frames.get(count).map_or(0, |frame| frame.at);
        Status::check(status).map_err(|status| FrameFault { at, status })?;
        Ok(taken)
    }

    /// How many octets were taken of a frame that isn't whole yet.
    pub fn pending(&mut self) -> usize {
        let mut pending = 0;
        // SAFETY: the handle is open, so the call answers 0.
        unsafe { sys::mt_splitter_pending(&mut self.handle, &mut pending) };
        pending
    }

    /// Changes the limit, between two frames.
    pub fn set_limit(&mut self, limit: u32) -> Result<(), Status> {
        // SAFETY: the handle is open.
        Status::check(unsafe { sys::mt_splitter_set_limit(&mut self.handle, limit) })
    }
}

impl Drop for Splitter {
    fn drop(&mut self) {
        // SAFETY: a handle that isn't open is refused.
        unsafe { sys::mt_splitter_close(&mut self.handle) };
    }
}

const NO_FRAME: sys::Frame = sys::Frame {
    taken: 0,
    at: 0,
    payload: std::ptr::null(),
    length: 0,
    channel: 0,
    kind: 0,
};

/// The frame that C tells of, if it tells of one.
///
/// # Safety
/// The payload is lent for as long as `'a`.
unsafe fn lent<'a>(frame: &sys::Frame) -> Option<Frame<'a>> {
    Some(Frame {
        kind: FrameKind::of(frame.kind)?,
        channel: frame.channel,
        payload: std::slice::from_raw_parts(frame.payload, frame.length),
    })
}
