//! Contents whose bodies come part by part, or are lent where they lie.
use crate::end::{given, End, Message};
use crate::status::Status;
use crate::sys;
use crate::table::octets;
use std::io::IoSlice;

/// A content whose body comes part by part, so that a body of any length goes out through a small buffer. It serves one
/// content after the other: [`End::begin_content`] begins each.
///
/// What is to be written is lent until the content is used again, so this doesn't compile:
///
/// ```compile_fail
/// let mut content = meadowtray::Content::new()?;
/// let first = content.write(b"one")?;
/// let second = content.write(b"two")?;
/// println!("{first:?} {second:?}");
/// # Ok::<(), Box<dyn std::error::Error>>(())
/// ```
#[derive(Debug)]
pub struct Content {
    handle: sys::Handle,
}

// SAFETY: the handle's value may go to another thread: this is proved of it, and a `&mut` gives it to one call at a
// time.
unsafe impl Send for Content {}

impl Content {
    /// A content before any is begun.
    pub fn new() -> Result<Content, Status> {
        let mut content = Content {
            handle: sys::Handle::CLOSED,
        };
        // SAFETY: the handle is closed.
        Status::check(unsafe { sys::mt_content_open(&mut content.handle) })?;
        Ok(content)
    }

    /// Frames the next octets of the body, and lends what is to be written. [`Status::MISFIT`] where they are more than
    /// are left, [`Status::NOT_THERE`] where no content was begun; nothing changes then.
    pub fn write(&mut self, part: &[u8]) -> Result<&[u8], Status> {
        let mut lent = sys::Octets::NONE;
        // SAFETY: the part has so many octets, and the content lends what it says until it is used again.
        unsafe {
            Status::check(sys::mt_content_write(&mut self.handle, part.as_ptr(), part.len(), &mut lent))?;
            Ok(octets(lent.at, lent.length))
        }
    }

    /// How many octets of the body are still to come. Once it is 0, all frames were lent.
    pub fn left(&mut self) -> u64 {
        let mut left = 0;
        // SAFETY: the handle is open, so the call answers 0.
        unsafe { sys::mt_content_left(&mut self.handle, &mut left) };
        left
    }

    /// A count with so many octets more as are still to be lent, those around the parts of the body with them: 2^64 - 1
    /// where it would pass that.
    pub fn add_to(&mut self, count: u64) -> u64 {
        let mut sum = count;
        // SAFETY: the handle is open, so the call answers 0.
        unsafe { sys::mt_content_add_to(&mut self.handle, &mut sum) };
        sum
    }
}

impl Drop for Content {
    fn drop(&mut self) {
        // SAFETY: a handle that isn't open is refused.
        unsafe { sys::mt_content_close(&mut self.handle) };
    }
}

impl End {
    /// Begins a content: by the payloads of its method and of its header, which says how long the body will be. The frames of both are lent, and those of the body come by [`Content::write`]. They count as put
    /// and as written, so the program writes all of them before anything else that the end puts.
    ///
    /// [`Status::WAITS`] where octets of the end's output are to be written first, or octets of what the content began
    /// before. Refused, nothing is begun.
    pub fn begin_content<'a>(
        &mut self,
        content: &'a mut Content,
        channel: u16,
        method: &[u8],
        header: &[u8],
    ) -> Result<&'a [u8], Status> {
        let mut lent = sys::Octets::NONE;
        // SAFETY: the payloads are lent, and the content lends what it says until it is used again.
        unsafe {
            Status::check(sys::mt_end_begin_content(
                self.handle(),
                &mut content.handle,
                channel,
                given(method),
                given(header),
                &mut lent,
            ))?;
            Ok(octets(lent.at, lent.length))
        }
    }

    /// Lends the frames of a content, with the body where it lies, for a write that takes several slices: as [`End::send`] sends them, and without the copy. They count as put and as written, so the program
    /// writes all of them before anything else that the end puts.
    ///
    /// [`Status::WAITS`] is as at [`End::begin_content`]; [`Status::MISFIT`] where the header says another size than the
    /// body's. Refused, nothing is lent.
    pub fn lend_content<'a>(
        &mut self,
        content: &'a mut Content,
        channel: u16,
        message: &Message<'a>,
    ) -> Result<Vec<IoSlice<'a>>, Status> {
        let lent = sys::Message {
            method: given(message.method),
            header: given(message.header),
            body: given(message.body),
        };
        let (mut wanted, mut count) = (0, 0);
        // SAFETY: the handle is open.
        Status::check(unsafe { sys::mt_end_pieces(self.handle(), message.body.len(), &mut wanted) })?;
        let mut pieces = vec![sys::Octets::NONE; wanted];
        // SAFETY: there are so many places, and the message's octets are lent.
        Status::check(unsafe {
            sys::mt_end_lend_content(
                self.handle(),
                &mut content.handle,
                channel,
                &lent,
                pieces.as_mut_ptr(),
                wanted,
                &mut count,
            )
        })?;
        // SAFETY: the parts are those of the body, and the content lends what stands around them until it is used again.
        Ok(pieces[..count].iter().map(|piece| IoSlice::new(unsafe { octets(piece.at, piece.length) })).collect())
    }
}
