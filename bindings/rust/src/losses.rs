//! What is lost if items aren't sent.

use crate::error::{done, Error};
use crate::kinds::{Category, Reason};
use crate::sys;

/// Number of sums: for each of 12 categories one without a reason, and one for each of 9 reasons.
pub(crate) const LOSSES: usize = 120;

/// A quantity of a category that is lost for a reason.
#[derive(Clone, Copy, Debug, PartialEq, Eq)]
pub struct Loss {
    /// The data category.
    pub category: Category,
    /// The discard reason, where one is known: that of a client report's item.
    pub reason: Option<Reason>,
    /// The quantity; it stops at 2^64-1.
    pub quantity: u64,
}

/// What is lost with items: a sum for each category and reason, or for no known reason.
#[derive(Clone, Debug, PartialEq, Eq)]
pub struct Losses {
    pub(crate) sums: [u64; LOSSES],
}

impl Losses {
    /// Returns the losses whose sums a call sets; the call returns a status.
    pub(crate) fn set_by(call: impl FnOnce(&mut [u64; LOSSES]) -> i32) -> Result<Losses, Error> {
        let mut losses = Losses::default();
        done(call(&mut losses.sums))?;
        Ok(losses)
    }

    /// Returns the quantity of a category that is lost for a reason, or without a known one.
    pub fn get(&self, category: Category, reason: Option<Reason>) -> u64 {
        let within = reason.map_or(0, |reason| reason as usize + 1);
        self.sums[10 * category as usize + within]
    }

    /// Returns the losses above 0, by category; in each the one without a reason first, then by
    /// reason.
    pub fn iter(&self) -> impl Iterator<Item = Loss> + '_ {
        let reasons = || std::iter::once(None).chain(Reason::ALL.iter().copied().map(Some));
        let pairs = Category::ALL
            .iter()
            .flat_map(move |category| reasons().map(move |reason| (*category, reason)));
        pairs.filter_map(|(category, reason)| match self.get(category, reason) {
            0 => None,
            quantity => Some(Loss {
                category,
                reason,
                quantity,
            }),
        })
    }
}

/// No losses.
impl Default for Losses {
    fn default() -> Losses {
        Losses { sums: [0; LOSSES] }
    }
}

/// Returns what is lost if an envelope isn't sent.
///
/// An item that can't be read counts 1 in the category of its type, an attachment the bytes of its
/// payload, and an item of a type without a category nothing.
///
/// # Errors
///
/// Those of [`any_frames`](crate::any_frames).
pub fn losses(bytes: &[u8]) -> Result<Losses, Error> {
    Losses::set_by(|sums| {
        // SAFETY: each pointer is a slice's or an array's, with its length; `sums` is borrowed
        // mutably.
        unsafe {
            sys::curdmesa_envelope_losses(bytes.as_ptr(), bytes.len(), sums.as_mut_ptr(), LOSSES)
        }
    })
}
