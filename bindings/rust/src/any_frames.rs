//! The items of an envelope, of any type.

use crate::error::Error;
use crate::kinds::ItemKind;
use crate::losses::{Losses, LOSSES};
use crate::output::{self, range};
use crate::sys;
use std::borrow::Cow;
use std::iter::FusedIterator;

/// Room for the word of an item type, at first.
const ROOM: usize = 64;

/// An item of an envelope, of any type, borrowed from the envelope's bytes. Offsets are in these
/// bytes.
#[derive(Clone, Debug, PartialEq, Eq)]
pub struct AnyFrame<'a> {
    /// The item header, from its `{` to its `}`.
    pub header: &'a [u8],
    /// The payload, without the line feeds around it.
    pub payload: &'a [u8],
    /// The item type: `type` of the item header, unescaped.
    pub word: Cow<'static, str>,
    /// The item type, if it is a known one.
    pub kind: Option<ItemKind>,
    /// Offset of the item, with the white space in front of its header.
    pub start: usize,
    /// Offset behind the item and the line feed that ends it.
    pub end: usize,
    /// Offset of the header.
    pub header_start: usize,
    /// Offset of the payload.
    pub payload_start: usize,
}

impl AnyFrame<'_> {
    /// Returns what is lost if the item isn't sent, as [`losses`](crate::losses) tells of it.
    ///
    /// # Errors
    ///
    /// [`Error::OutOfMemory`].
    pub fn losses(&self) -> Result<Losses, Error> {
        Losses::set_by(|sums| {
            // SAFETY: each pointer is a slice's or an array's, with its length; `sums` is borrowed
            // mutably.
            unsafe {
                sys::curdmesa_frame_losses(
                    self.header.as_ptr(),
                    self.header.len(),
                    self.payload.as_ptr(),
                    self.payload.len(),
                    sums.as_mut_ptr(),
                    LOSSES,
                )
            }
        })
    }
}

/// The items of an envelope, of any type: what [`any_frames`] returns.
#[derive(Clone, Debug)]
pub struct AnyFrames<'a> {
    bytes: &'a [u8],
    offset: u64,
    is_done: bool,
    word: Vec<u8>,
}

/// Returns the items of an envelope, in order, of any type. Payloads aren't parsed, and of item
/// headers only `type` and `length` are read.
///
/// # Errors
///
/// After the items before it, the first fault: [`Error::InvalidHeader`] if the first line isn't a
/// JSON object, [`Error::UnexpectedEof`], [`Error::MissingNewline`] or
/// [`Error::InvalidItemHeader`]; or [`Error::OutOfMemory`]. The iterator ends after an error.
pub fn any_frames(bytes: &[u8]) -> AnyFrames<'_> {
    AnyFrames {
        bytes,
        offset: 0,
        is_done: false,
        word: Vec::new(),
    }
}

impl<'a> AnyFrames<'a> {
    /// Returns the offset behind the last item and the line feed that ends it, from where on the
    /// next item is looked for; 0 before the first item. After an error the item at fault follows.
    pub fn offset(&self) -> usize {
        self.offset as usize
    }

    /// Finds the next frame, and writes its word to `self.word`. Returns the word's length.
    fn find(&mut self, places: &mut sys::CurdmesaAnyFrame) -> Result<usize, Error> {
        output::lengthen(&mut self.word, ROOM)?;
        let (bytes, offset) = (self.bytes, &mut self.offset);
        output::written(&mut self.word, |out, needed| {
            // SAFETY: each pointer is a slice's, with its length, or a reference's; what is written
            // is borrowed mutably.
            unsafe {
                sys::curdmesa_any_frames_next(
                    bytes.as_ptr(),
                    bytes.len(),
                    &mut *offset,
                    &mut *places,
                    out.as_mut_ptr(),
                    out.len(),
                    needed,
                )
            }
        })
    }

    fn frame(&mut self) -> Result<AnyFrame<'a>, Error> {
        let mut places = sys::CurdmesaAnyFrame::default();
        let length = self.find(&mut places)?;
        let kind = ItemKind::try_from(places.kind).ok();
        let word = match kind {
            Some(kind) => Cow::Borrowed(kind.as_str()),
            None => Cow::Owned(output::utf8(self.word[..length].to_vec())?),
        };
        let item = range(places.item_offset, places.item_length);
        let header = range(places.header_offset, places.header_length);
        let payload = range(places.payload_offset, places.payload_length);
        Ok(AnyFrame {
            header: &self.bytes[header.clone()],
            payload: &self.bytes[payload.clone()],
            word,
            kind,
            start: item.start,
            end: item.end,
            header_start: header.start,
            payload_start: payload.start,
        })
    }
}

impl<'a> Iterator for AnyFrames<'a> {
    type Item = Result<AnyFrame<'a>, Error>;

    fn next(&mut self) -> Option<Result<AnyFrame<'a>, Error>> {
        if self.is_done {
            return None;
        }
        let found = match self.frame() {
            Err(Error::NothingLeft) => None,
            found => Some(found),
        };
        self.is_done = !matches!(found, Some(Ok(_)));
        found
    }
}

impl FusedIterator for AnyFrames<'_> {}

/// What is forwarded, and what is lost.
#[derive(Clone, Debug, PartialEq, Eq)]
pub struct Forwarded {
    /// What is left of the envelope, byte for byte; `None` if no item is.
    pub envelope: Option<Vec<u8>>,
    /// What is lost with the dropped items.
    pub losses: Losses,
}

/// Drops items of an envelope, and leaves the header line and all other items byte for byte.
///
/// `keep` is asked about each item, once and in order, whether to keep it. With
/// `attachments_follow` all attachments are dropped if an event or a transaction is dropped and
/// none is kept.
///
/// ```
/// let bytes = b"{}\n{\"type\":\"profile\"}\n{}\n{\"type\":\"event\"}\n{\"x\":1.5}\n";
/// let left = curdmesa::forward(bytes, false, |frame| frame.word != "profile")?;
/// assert_eq!(left.envelope.unwrap(), b"{}\n{\"type\":\"event\"}\n{\"x\":1.5}\n");
/// # Ok::<(), curdmesa::Error>(())
/// ```
///
/// # Errors
///
/// Those of [`any_frames`]; `keep` wasn't called then, except for [`Error::OutOfMemory`].
pub fn forward(
    bytes: &[u8],
    attachments_follow: bool,
    keep: impl FnMut(&AnyFrame<'_>) -> bool,
) -> Result<Forwarded, Error> {
    let frames = any_frames(bytes).collect::<Result<Vec<_>, Error>>()?;
    let answers: Vec<u8> = frames.iter().map(keep).map(u8::from).collect();
    let mut losses = Losses::default();
    let left = output::text(bytes.len(), |out, needed| {
        // SAFETY: each pointer is a slice's or an array's, with its length, or a reference's; what
        // is written is borrowed mutably.
        unsafe {
            sys::curdmesa_envelope_forward(
                bytes.as_ptr(),
                bytes.len(),
                answers.as_ptr(),
                answers.len(),
                attachments_follow,
                out.as_mut_ptr(),
                out.len(),
                needed,
                losses.sums.as_mut_ptr(),
                LOSSES,
            )
        }
    });
    let envelope = output::optional(left)?;
    Ok(Forwarded { envelope, losses })
}
