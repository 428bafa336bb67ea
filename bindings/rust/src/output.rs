//! Texts that the library writes to memory of this crate.

use crate::error::{done, Error};
use std::ops::Range;

/// Lengthens a buffer to `room` elements with zeros, if it is shorter.
pub fn lengthen<T: Clone + Default>(out: &mut Vec<T>, room: usize) -> Result<(), Error> {
    if let Some(more) = room.checked_sub(out.len()) {
        out.try_reserve_exact(more)
            .map_err(|_| Error::OutOfMemory)?;
        out.resize(room, T::default());
    }
    Ok(())
}

/// Returns the length of the text that a call writes to the front of a buffer, which is lengthened
/// if the text needs more.
///
/// `call` gets the buffer and where to put the text's length, and returns a status. If that is `OK`,
/// it has written a text of that length to the front of the buffer.
pub fn written(
    out: &mut Vec<u8>,
    mut call: impl FnMut(&mut [u8], &mut u64) -> i32,
) -> Result<usize, Error> {
    let mut needed = 0;
    let mut status = call(out, &mut needed);
    if Error::from_status(status) == Some(Error::NoRoom) {
        lengthen(
            out,
            usize::try_from(needed).map_err(|_| Error::OutOfMemory)?,
        )?;
        status = call(out, &mut needed);
    }
    done(status)?;
    let length = usize::try_from(needed).map_err(|_| Error::OutOfMemory)?;
    assert!(length <= out.len());
    Ok(length)
}

/// Returns the text that a call writes: with room for `room` bytes at first, and with as much as
/// the text needs if that is too little.
pub fn text(room: usize, call: impl FnMut(&mut [u8], &mut u64) -> i32) -> Result<Vec<u8>, Error> {
    let mut out = Vec::new();
    lengthen(&mut out, room)?;
    let length = written(&mut out, call)?;
    out.truncate(length);
    Ok(out)
}

/// Returns what a call wrote; `None` if it found nothing to write.
pub fn optional(text: Result<Vec<u8>, Error>) -> Result<Option<Vec<u8>>, Error> {
    match text {
        Ok(text) => Ok(Some(text)),
        Err(Error::NothingLeft) => Ok(None),
        Err(error) => Err(error),
    }
}

/// Returns a printed text.
pub fn utf8(bytes: Vec<u8>) -> Result<String, Error> {
    String::from_utf8(bytes).map_err(|_| Error::NotUtf8)
}

/// Returns the range of a place.
pub fn range(offset: u64, length: u64) -> Range<usize> {
    let offset = offset as usize;
    offset..offset + length as usize
}
