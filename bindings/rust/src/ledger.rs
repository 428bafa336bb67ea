//! Losses that aren't reported yet.

use crate::error::{done, Error};
use crate::kinds::{Category, Reason};
use crate::losses::{Losses, LOSSES};
use crate::moment::Moment;
use crate::{output, sys};

/// Number of sums: one for each of 12 categories and 9 reasons.
const SUMS: usize = 108;

/// Room for a report of a few losses.
const ROOM: usize = 1024;

/// Number of bytes of a ledger.
const BYTES: usize = 882;

/// A ledger: the quantity of each category that was lost for each reason and isn't reported yet.
///
/// ```
/// use curdmesa::{Category, Ledger, Reason};
///
/// let mut ledger = Ledger::new();
/// ledger.record(Category::Error, Reason::NetworkError, 2)?;
/// let report = String::from_utf8(ledger.flush((60, 0))?.unwrap()).unwrap();
/// assert_eq!(
///     report.lines().last(),
///     Some("{\"discarded_events\":[{\"category\":\"error\",\"quantity\":2,\
///           \"reason\":\"network_error\"}],\"timestamp\":60}")
/// );
/// assert_eq!(ledger.flush((60, 0))?, None);
/// # Ok::<(), curdmesa::Error>(())
/// ```
#[derive(Clone, Debug, PartialEq, Eq)]
pub struct Ledger {
    sums: [u64; SUMS],
}

impl Ledger {
    /// Returns a ledger that holds no loss.
    pub const fn new() -> Ledger {
        Ledger { sums: [0; SUMS] }
    }

    /// Returns a ledger with the sums of another one, as a spool keeps them over a restart.
    pub const fn from_sums(sums: [u64; SUMS]) -> Ledger {
        Ledger { sums }
    }

    /// Returns what the ledger holds: for each category in turn the sum of each reason.
    pub const fn sums(&self) -> &[u64; SUMS] {
        &self.sums
    }

    /// Adds a loss.
    ///
    /// # Errors
    ///
    /// [`Error::LedgerFull`] exactly if the sum would exceed 2^64-1; the ledger is unchanged.
    pub fn record(
        &mut self,
        category: Category,
        reason: Reason,
        quantity: u64,
    ) -> Result<(), Error> {
        // SAFETY: the pointer is an array's, with its length.
        done(unsafe {
            sys::curdmesa_ledger_record(
                self.sums.as_mut_ptr(),
                SUMS,
                category as u32,
                reason as u32,
                quantity,
            )
        })
    }

    /// Adds losses: those without a reason under `reason`, all others under their own. Returns how
    /// many sums are refused, and not added, because the ledger's would exceed 2^64-1.
    pub fn record_losses(&mut self, losses: &Losses, reason: Reason) -> u64 {
        let mut refused = 0;
        // SAFETY: the pointers are arrays', with their lengths, and a reference's; what is written
        // is borrowed mutably.
        let status = unsafe {
            sys::curdmesa_ledger_record_losses(
                self.sums.as_mut_ptr(),
                SUMS,
                losses.sums.as_ptr(),
                LOSSES,
                reason as u32,
                &mut refused,
            )
        };
        debug_assert_eq!(status, 0, "the number of a reason is in range");
        refused
    }

    /// Adds what is lost if an envelope isn't sent: its [`losses`](crate::losses), as
    /// [`Ledger::record_losses`] does. So an envelope of [`Ledger::flush`] that can't be sent is put
    /// back. Returns how many sums are refused.
    ///
    /// ```
    /// use curdmesa::{Category, Ledger, Reason};
    ///
    /// let mut ledger = Ledger::new();
    /// ledger.record(Category::Error, Reason::NetworkError, 2)?;
    /// let unsent = ledger.flush((60, 0))?.unwrap();
    /// ledger.record_envelope(&unsent, Reason::SendError)?;
    /// assert_eq!(ledger.held(Category::Error, Reason::NetworkError), 2);
    /// # Ok::<(), curdmesa::Error>(())
    /// ```
    ///
    /// # Errors
    ///
    /// Those of [`losses`](crate::losses); the ledger is unchanged.
    pub fn record_envelope(&mut self, bytes: &[u8], reason: Reason) -> Result<u64, Error> {
        let mut refused = 0;
        // SAFETY: the pointers are an array's and a slice's, with their lengths, and a reference's;
        // what is written is borrowed mutably.
        done(unsafe {
            sys::curdmesa_ledger_record_envelope(
                self.sums.as_mut_ptr(),
                SUMS,
                bytes.as_ptr(),
                bytes.len(),
                reason as u32,
                &mut refused,
            )
        })?;
        Ok(refused)
    }

    /// Returns the quantity of a category and a reason that the ledger holds.
    pub fn held(&self, category: Category, reason: Reason) -> u64 {
        let mut quantity = 0;
        // SAFETY: the pointers are an array's, with its length, and a reference's.
        let status = unsafe {
            sys::curdmesa_ledger_held(
                self.sums.as_ptr(),
                SUMS,
                category as u32,
                reason as u32,
                &mut quantity,
            )
        };
        debug_assert_eq!(
            status, 0,
            "the numbers of a category and a reason are in range"
        );
        quantity
    }

    /// Moves all losses into a client report of the moment `now`, and returns the envelope of that
    /// one item; `None` if the ledger holds no loss.
    ///
    /// The losses are only in the envelope then: if it can't be sent, [`Ledger::record_envelope`]
    /// puts them back, each under its own reason.
    ///
    /// # Errors
    ///
    /// [`Error::NoMoment`], [`Error::OutOfMemory`]; the ledger is unchanged.
    pub fn flush<N>(&mut self, now: N) -> Result<Option<Vec<u8>>, Error>
    where
        N: TryInto<Moment>,
        Error: From<N::Error>,
    {
        self.flush_by(now.try_into()?, sys::curdmesa_ledger_flush)
    }

    /// Does what [`Ledger::flush`] does, but returns the report's item alone: its header and its
    /// payload, each with a line feed. Behind an envelope that ends with a line feed it is one more
    /// item of that envelope.
    ///
    /// # Errors
    ///
    /// Those of [`Ledger::flush`].
    pub fn flush_item<N>(&mut self, now: N) -> Result<Option<Vec<u8>>, Error>
    where
        N: TryInto<Moment>,
        Error: From<N::Error>,
    {
        self.flush_by(now.try_into()?, sys::curdmesa_ledger_flush_item)
    }

    fn flush_by(&mut self, now: Moment, call: sys::FlushCall) -> Result<Option<Vec<u8>>, Error> {
        let report = output::text(ROOM, |out, needed| {
            // SAFETY: each pointer is a slice's or an array's, with its length, or a reference's;
            // what is written is borrowed mutably.
            unsafe {
                call(
                    self.sums.as_mut_ptr(),
                    SUMS,
                    now.secs,
                    now.nanos,
                    out.as_mut_ptr(),
                    out.len(),
                    needed,
                )
            }
        });
        output::optional(report)
    }

    /// Returns the ledger as bytes, as a spool keeps it over a restart.
    ///
    /// # Errors
    ///
    /// [`Error::OutOfMemory`].
    pub fn to_bytes(&self) -> Result<Vec<u8>, Error> {
        output::text(BYTES, |out, needed| {
            // SAFETY: each pointer is a slice's or an array's, with its length, or a reference's;
            // what is written is borrowed mutably.
            unsafe {
                sys::curdmesa_ledger_write(
                    self.sums.as_ptr(),
                    SUMS,
                    out.as_mut_ptr(),
                    out.len(),
                    needed,
                )
            }
        })
    }

    /// Returns the ledger that [`Ledger::to_bytes`] made these bytes of.
    ///
    /// # Errors
    ///
    /// [`Error::InvalidText`] if the bytes aren't those of a ledger.
    pub fn from_bytes(bytes: &[u8]) -> Result<Ledger, Error> {
        let mut ledger = Ledger::new();
        // SAFETY: the pointers are a slice's and an array's, with their lengths; what is written is
        // borrowed mutably.
        done(unsafe {
            sys::curdmesa_ledger_read(bytes.as_ptr(), bytes.len(), ledger.sums.as_mut_ptr(), SUMS)
        })?;
        Ok(ledger)
    }
}

impl Default for Ledger {
    fn default() -> Ledger {
        Ledger::new()
    }
}
