//! Moments.

use crate::error::Error;
use std::time::{SystemTime, UNIX_EPOCH};

/// A moment: seconds and nanoseconds since 1970-01-01T00:00:00Z.
///
/// Calls take what converts to it: a `Moment`, a pair `(u64, u32)`, or a [`SystemTime`]. A pair is
/// no moment past the year 9999 or with 10^9 nanoseconds or more; the call that it is handed to
/// returns [`Error::NoMoment`] then.
#[derive(Clone, Copy, Debug, PartialEq, Eq, PartialOrd, Ord, Hash)]
pub struct Moment {
    /// Seconds since 1970-01-01T00:00:00Z.
    pub secs: u64,
    /// Nanoseconds of the second.
    pub nanos: u32,
}

impl From<(u64, u32)> for Moment {
    fn from((secs, nanos): (u64, u32)) -> Moment {
        Moment { secs, nanos }
    }
}

impl TryFrom<SystemTime> for Moment {
    type Error = Error;

    /// Fails with [`Error::NoMoment`] for a time before 1970.
    fn try_from(time: SystemTime) -> Result<Moment, Error> {
        let since = time
            .duration_since(UNIX_EPOCH)
            .map_err(|_| Error::NoMoment)?;
        Ok(Moment {
            secs: since.as_secs(),
            nanos: since.subsec_nanos(),
        })
    }
}
