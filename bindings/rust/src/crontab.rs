//! Schedules of monitors.

use crate::error::{done, Error};
use crate::sys;

/// Checks that a text is a crontab schedule of five fields.
///
/// ```
/// assert!(curdmesa::crontab::check("*/10 0-6 * * mon").is_ok());
/// assert!(curdmesa::crontab::check("60 * * * *").is_err());
/// ```
///
/// # Errors
///
/// [`Error::NotUtf8`], [`Error::InvalidText`].
pub fn check(text: impl AsRef<[u8]>) -> Result<(), Error> {
    let text = text.as_ref();
    // SAFETY: the pointer is the slice's, with its length.
    done(unsafe { sys::curdmesa_crontab_check(text.as_ptr(), text.len()) })
}
