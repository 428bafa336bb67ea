//! Timestamps as text.

use crate::error::{done, Error};
use crate::moment::Moment;
use crate::{output, sys};

/// The longest timestamp, in bytes.
const LONGEST: usize = 30;

/// Parses an RFC 3339 timestamp, from 1970 to the year 9999.
///
/// ```
/// use curdmesa::rfc3339;
///
/// let moment = rfc3339::parse("1970-01-01T01:00:01.50+01:00")?;
/// assert_eq!(rfc3339::format(moment)?, "1970-01-01T00:00:01.5Z");
/// # Ok::<(), curdmesa::Error>(())
/// ```
///
/// # Errors
///
/// [`Error::NotUtf8`]; [`Error::InvalidText`], also for another year.
pub fn parse(text: impl AsRef<[u8]>) -> Result<Moment, Error> {
    let text = text.as_ref();
    let (mut secs, mut nanos) = (0, 0);
    // SAFETY: the pointers are a slice's, with its length, and two references'.
    done(unsafe { sys::curdmesa_rfc3339_parse(text.as_ptr(), text.len(), &mut secs, &mut nanos) })?;
    Ok(Moment { secs, nanos })
}

/// Returns a moment as RFC 3339 in UTC, such as `2020-07-20T14:51:14.296Z`, without trailing zeros
/// in the fraction.
///
/// # Errors
///
/// [`Error::NoMoment`], [`Error::OutOfMemory`].
pub fn format<N>(moment: N) -> Result<String, Error>
where
    N: TryInto<Moment>,
    Error: From<N::Error>,
{
    let moment = moment.try_into()?;
    let text = output::text(LONGEST, |out, needed| {
        // SAFETY: the pointers are a slice's, with its length, and a reference's.
        unsafe {
            sys::curdmesa_rfc3339_format(
                moment.secs,
                moment.nanos,
                out.as_mut_ptr(),
                out.len(),
                needed,
            )
        }
    })?;
    output::utf8(text)
}
