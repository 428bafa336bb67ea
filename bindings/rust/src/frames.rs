//! The items of an envelope, as slices of its bytes.

use crate::error::Error;
use crate::kinds::ItemKind;
use crate::output::range;
use crate::sys;
use std::iter::FusedIterator;

/// An item of an envelope, borrowed from the envelope's bytes.
#[derive(Clone, Copy, Debug, PartialEq, Eq)]
pub struct Frame<'a> {
    /// The item header, from its `{` to its `}`.
    pub header: &'a [u8],
    /// The payload, without the line feeds around it. It isn't parsed.
    pub payload: &'a [u8],
    /// The item type.
    pub kind: ItemKind,
}

/// The items of an envelope: what [`frames`] returns.
#[derive(Clone, Debug)]
pub struct Frames<'a> {
    bytes: &'a [u8],
    offset: u64,
    is_done: bool,
}

/// Returns the items of an envelope, in order. Neither the envelope's header line nor payloads are
/// parsed, and nothing is copied.
///
/// # Errors
///
/// After the items before it, the framing's first fault: [`Error::UnexpectedEof`],
/// [`Error::MissingNewline`] or [`Error::InvalidItemHeader`]; or [`Error::OutOfMemory`]. The
/// iterator ends after an error.
pub fn frames(bytes: &[u8]) -> Frames<'_> {
    Frames {
        bytes,
        offset: 0,
        is_done: false,
    }
}

impl<'a> Frames<'a> {
    /// Returns the offset behind the last item and the line feed that ends it, from where on the
    /// next item is looked for; 0 before the first item. After an error the item at fault follows.
    pub fn offset(&self) -> usize {
        self.offset as usize
    }

    fn frame(&self, places: &sys::CurdmesaFrame) -> Result<Frame<'a>, Error> {
        let kind = ItemKind::try_from(places.kind);
        Ok(Frame {
            header: &self.bytes[range(places.header_offset, places.header_length)],
            payload: &self.bytes[range(places.payload_offset, places.payload_length)],
            kind: kind.map_err(|_| Error::InvalidItemHeader)?,
        })
    }
}

impl<'a> Iterator for Frames<'a> {
    type Item = Result<Frame<'a>, Error>;

    fn next(&mut self) -> Option<Result<Frame<'a>, Error>> {
        if self.is_done {
            return None;
        }
        let mut places = sys::CurdmesaFrame::default();
        // SAFETY: the pointers are a slice's, with its length, and two references'.
        let status = unsafe {
            sys::curdmesa_frames_next(
                self.bytes.as_ptr(),
                self.bytes.len(),
                &mut self.offset,
                &mut places,
            )
        };
        let found = match Error::from_status(status) {
            None => Some(self.frame(&places)),
            Some(Error::NothingLeft) => None,
            Some(error) => Some(Err(error)),
        };
        self.is_done = !matches!(found, Some(Ok(_)));
        found
    }
}

impl FusedIterator for Frames<'_> {}
