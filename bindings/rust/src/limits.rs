//! Rate limits.

use crate::error::{done, Error};
use crate::kinds::Category;
use crate::moment::Moment;
use crate::sys;
use std::time::{Duration, SystemTime, UNIX_EPOCH};

/// Number of ends: one for all categories, and one for each of 12 categories.
const ENDS: usize = 13;

/// The rate limits that Sentry's answers state: when the limit of each category ends, and that of
/// all categories, in whole seconds.
///
/// The rules: <https://develop.sentry.dev/sdk/expected-features/rate-limiting/>.
///
/// ```
/// use curdmesa::{Category, RateLimits};
///
/// let mut limits = RateLimits::new();
/// limits.update("60:transaction:key, 2700:error;security:organization", (1000, 0))?;
/// assert!(limits.is_limited(Category::Error, (3699, 0))?);
/// assert!(!limits.is_limited(Category::Error, (3700, 0))?);
/// assert!(limits.is_item_limited("transaction", (1059, 0))?);
/// # Ok::<(), curdmesa::Error>(())
/// ```
#[derive(Clone, Copy, Debug, PartialEq, Eq)]
pub struct RateLimits {
    ends: [u64; ENDS],
}

impl RateLimits {
    /// Returns limits of which none holds.
    pub const fn new() -> RateLimits {
        RateLimits { ends: [0; ENDS] }
    }

    /// Returns limits of their ends, as a program keeps them over a restart.
    pub const fn from_ends(ends: [u64; ENDS]) -> RateLimits {
        RateLimits { ends }
    }

    /// Returns when the limits end, in seconds since 1970; 0 if there is none: first that of all
    /// categories, then that of each category.
    pub const fn ends(&self) -> &[u64; ENDS] {
        &self.ends
    }

    /// Holds the limits that the value of an `X-Sentry-Rate-Limits` header states, which came at the
    /// moment `now`, beside those that are held: of two ends the later one counts.
    ///
    /// A number of seconds that can't be read stands for 60, and an empty list of categories for
    /// all; categories that [`Category`] doesn't have are ignored.
    ///
    /// # Errors
    ///
    /// [`Error::NotUtf8`], [`Error::NoMoment`]; the limits are unchanged.
    pub fn update<N>(&mut self, header: impl AsRef<[u8]>, now: N) -> Result<(), Error>
    where
        N: TryInto<Moment>,
        Error: From<N::Error>,
    {
        let (header, now) = (header.as_ref(), now.try_into()?);
        // SAFETY: each pointer is an array's or a slice's, with its length; what is written is
        // borrowed mutably.
        done(unsafe {
            sys::curdmesa_limits_update(
                self.ends.as_mut_ptr(),
                ENDS,
                header.as_ptr(),
                header.len(),
                now.secs,
                now.nanos,
            )
        })
    }

    /// Holds a limit of all categories that the value of a `Retry-After` header states, beside those
    /// that are held: of an answer with status 429 that has no `X-Sentry-Rate-Limits`.
    ///
    /// The value is a number of seconds or an HTTP date; any other, as the empty text for an absent
    /// header, stands for 60 seconds.
    ///
    /// # Errors
    ///
    /// [`Error::NotUtf8`], [`Error::NoMoment`]; the limits are unchanged.
    pub fn update_retry_after<N>(&mut self, value: impl AsRef<[u8]>, now: N) -> Result<(), Error>
    where
        N: TryInto<Moment>,
        Error: From<N::Error>,
    {
        let (value, now) = (value.as_ref(), now.try_into()?);
        // SAFETY: each pointer is an array's or a slice's, with its length; what is written is
        // borrowed mutably.
        done(unsafe {
            sys::curdmesa_limits_retry_after(
                self.ends.as_mut_ptr(),
                ENDS,
                value.as_ptr(),
                value.len(),
                now.secs,
                now.nanos,
            )
        })
    }

    fn category_end(&self, category: Category) -> u64 {
        let mut end = 0;
        // SAFETY: the pointers are an array's, with its length, and a reference's.
        let status = unsafe {
            sys::curdmesa_limits_category_end(self.ends.as_ptr(), ENDS, category as u32, &mut end)
        };
        debug_assert_eq!(status, 0, "the number of a category is in range");
        end
    }

    fn item_end(&self, word: &str) -> u64 {
        let mut end = 0;
        // SAFETY: the pointers are an array's and a text's, with their lengths, and a reference's.
        let status = unsafe {
            sys::curdmesa_limits_item_end(
                self.ends.as_ptr(),
                ENDS,
                word.as_ptr(),
                word.len(),
                &mut end,
            )
        };
        debug_assert_eq!(status, 0, "the word is UTF-8");
        end
    }

    /// Returns until when a category is limited, by its own limit or by that of all categories;
    /// `None` if no such limit was stated. The time may be past.
    pub fn until(&self, category: Category) -> Option<SystemTime> {
        time_of(self.category_end(category))
    }

    /// Returns until when items are limited of the type with this word, as [`RateLimits::until`] does,
    /// by the category that is lost with them. Logs and metrics are limited by two categories; a
    /// client report or an item of an unknown type has none, and is limited by the limit of all
    /// categories alone.
    pub fn item_until(&self, word: &str) -> Option<SystemTime> {
        time_of(self.item_end(word))
    }

    /// Returns whether a category is limited at a moment.
    ///
    /// # Errors
    ///
    /// [`Error::NoMoment`] for a time before 1970.
    pub fn is_limited<N>(&self, category: Category, now: N) -> Result<bool, Error>
    where
        N: TryInto<Moment>,
        Error: From<N::Error>,
    {
        Ok(now.try_into()?.secs < self.category_end(category))
    }

    /// Returns whether items are limited of the type with this word at a moment, as
    /// [`RateLimits::item_until`] tells.
    ///
    /// # Errors
    ///
    /// [`Error::NoMoment`] for a time before 1970.
    pub fn is_item_limited<N>(&self, word: &str, now: N) -> Result<bool, Error>
    where
        N: TryInto<Moment>,
        Error: From<N::Error>,
    {
        Ok(now.try_into()?.secs < self.item_end(word))
    }
}

/// No limits.
impl Default for RateLimits {
    fn default() -> RateLimits {
        RateLimits::new()
    }
}

/// Returns the time at which a limit ends, if there is one.
fn time_of(end: u64) -> Option<SystemTime> {
    if end == 0 {
        return None;
    }
    UNIX_EPOCH.checked_add(Duration::from_secs(end))
}
