//! Statuses as errors.

use crate::sys;
use std::convert::Infallible;
use std::error;
use std::fmt;

/// Why a call failed: a variant for each status of `curdmesa.h` but `CURDMESA_OK`. Its text is that of
/// `curdmesa_status_text`.
#[derive(Clone, Copy, Debug, PartialEq, Eq, Hash)]
#[non_exhaustive]
pub enum Error {
    /// The text is longer than the room for it. This crate makes room, so its calls don't return
    /// this error.
    NoRoom,
    /// No such moment: before 1970, past the year 9999, or 10^9 nanoseconds or more.
    NoMoment,
    /// The text isn't UTF-8.
    NotUtf8,
    /// The text isn't a timestamp, a crontab schedule or a word of an enumeration; or the bytes
    /// aren't a ledger's.
    InvalidText,
    /// A number, an offset or the length of a table is out of range. In this crate only the
    /// conversion of a number to an enumeration returns this error; elsewhere types rule it out.
    InvalidArgument,
    /// No item is left, or the ledger holds no loss. Calls of this crate return `None` instead.
    NothingLeft,
    /// The sum would exceed 2^64-1.
    LedgerFull,
    /// Only white space is left where an item is expected, or fewer bytes than an item header
    /// states.
    UnexpectedEof,
    /// Never returned: an empty header line is [`Error::InvalidHeader`].
    MissingHeader,
    /// Never returned: bytes that are no item header are [`Error::InvalidItemHeader`].
    MissingItemHeader,
    /// An item header, or a payload of a stated length, is followed by anything but a line feed or
    /// the end.
    MissingNewline,
    /// The first line isn't one JSON object without floats that reads as envelope headers.
    InvalidHeader,
    /// An item doesn't begin with a JSON object without floats that reads as an item header.
    InvalidItemHeader,
    /// A payload isn't one JSON text without floats that reads as its item type.
    InvalidItemPayload,
    /// An allocation failed, in the library or in this crate.
    OutOfMemory,
    /// No URL, or a URL without a host.
    DsnInvalidUrl,
    /// The scheme is neither `http` nor `https`.
    DsnInvalidScheme,
    /// No user name, which is the public key.
    DsnNoUsername,
    /// The path is `/`.
    DsnNoProjectId,
    /// The project id is empty.
    DsnInvalidProjectId,
    /// The text doesn't begin with the word `sentry`, in any ASCII case.
    AuthNonSentry,
    /// A `sentry_version`, up to its first `.`, isn't a whole number of 16 bits.
    AuthInvalidVersion,
    /// The public key (`sentry_key`) is absent or empty.
    AuthMissingPublicKey,
    /// A status that `curdmesa.h` doesn't list: the archive is of another version.
    Unknown(i32),
}

/// Each status with its error.
const STATUSES: [(i32, Error); 23] = [
    (1, Error::NoRoom),
    (2, Error::NoMoment),
    (3, Error::NotUtf8),
    (4, Error::InvalidText),
    (5, Error::InvalidArgument),
    (6, Error::NothingLeft),
    (7, Error::LedgerFull),
    (10, Error::UnexpectedEof),
    (11, Error::MissingHeader),
    (12, Error::MissingItemHeader),
    (13, Error::MissingNewline),
    (14, Error::InvalidHeader),
    (15, Error::InvalidItemHeader),
    (16, Error::InvalidItemPayload),
    (17, Error::OutOfMemory),
    (20, Error::DsnInvalidUrl),
    (21, Error::DsnInvalidScheme),
    (22, Error::DsnNoUsername),
    (23, Error::DsnNoProjectId),
    (24, Error::DsnInvalidProjectId),
    (30, Error::AuthNonSentry),
    (31, Error::AuthInvalidVersion),
    (32, Error::AuthMissingPublicKey),
];

/// Room for the text of any status.
const TEXT: usize = 64;

impl Error {
    /// Returns the error of a status, or `None` for status 0, which is success.
    pub fn from_status(status: i32) -> Option<Error> {
        if status == 0 {
            return None;
        }
        let row = STATUSES.iter().find(|row| row.0 == status);
        Some(row.map_or(Error::Unknown(status), |row| row.1))
    }

    /// Returns the status of `curdmesa.h`.
    pub fn status(self) -> i32 {
        match self {
            Error::Unknown(status) => status,
            known => STATUSES
                .iter()
                .find(|row| row.1 == known)
                .map_or(0, |row| row.0),
        }
    }
}

/// The library's text of the status.
impl fmt::Display for Error {
    fn fmt(&self, f: &mut fmt::Formatter<'_>) -> fmt::Result {
        let (mut out, mut needed) = ([0; TEXT], 0);
        // SAFETY: the pointers are an array's, with its length, and a reference's; both are borrowed
        // mutably.
        let status = unsafe {
            sys::curdmesa_status_text(self.status(), out.as_mut_ptr(), TEXT, &mut needed)
        };
        let text = out.get(..needed as usize).map(std::str::from_utf8);
        match text {
            Some(Ok(text)) if status == 0 => f.write_str(text),
            _ => write!(f, "unknown status {}", self.status()),
        }
    }
}

impl error::Error for Error {}

/// For moments that need no conversion: see [`Moment`](crate::Moment).
impl From<Infallible> for Error {
    fn from(never: Infallible) -> Error {
        match never {}
    }
}

/// Returns the error of a status, or nothing for success.
pub(crate) fn done(status: i32) -> Result<(), Error> {
    Error::from_status(status).map_or(Ok(()), Err)
}

#[cfg(test)]
mod tests {
    use super::*;
    use crate::output::text;

    fn said(status: i32) -> Result<Vec<u8>, Error> {
        // SAFETY: the pointers are a slice's, with its length, and a reference's.
        text(1, |out, needed| unsafe {
            sys::curdmesa_status_text(status, out.as_mut_ptr(), out.len(), needed)
        })
    }

    #[test]
    fn statuses_are_the_librarys() {
        for status in 1..99 {
            let error = Error::from_status(status).unwrap();
            let printed = match said(status) {
                Ok(text) => String::from_utf8(text).unwrap(),
                Err(refused) => {
                    assert_eq!(refused, Error::InvalidArgument);
                    assert_eq!(error, Error::Unknown(status));
                    format!("unknown status {status}")
                }
            };
            assert_eq!(error.to_string(), printed);
        }
    }
}
