//! How many items an envelope has, and how long they are.

use crate::error::{done, Error};
use crate::kinds::ItemKind;
use crate::sys;

/// Number of counts: one for each of 11 item types, and one for unknown types.
const MEASURES: usize = 12;

/// Counts and sizes of the items of an envelope, by their types; `None` stands for unknown types.
#[derive(Clone, Copy, Debug, PartialEq, Eq)]
pub struct Measured {
    items: [u64; MEASURES],
    sizes: [u64; MEASURES],
    /// Size of the longest payload in bytes; 0 if there is none.
    pub longest: u64,
}

impl Measured {
    /// Returns how many items of a type there are.
    pub fn items(&self, kind: Option<ItemKind>) -> u64 {
        self.items[kind.map_or(MEASURES - 1, |kind| kind as usize)]
    }

    /// Returns the size of the payloads of these items in bytes.
    pub fn bytes(&self, kind: Option<ItemKind>) -> u64 {
        self.sizes[kind.map_or(MEASURES - 1, |kind| kind as usize)]
    }
}

/// Counts the items of an envelope, and the bytes of their payloads. Only the header line and item
/// headers are read.
///
/// ```
/// use curdmesa::{measure, ItemKind};
///
/// let measured = measure(b"{}\n{\"type\":\"attachment\"}\nhello\n{\"type\":\"profile\"}\n[1.5]")?;
/// assert_eq!(measured.bytes(Some(ItemKind::Attachment)), 5);
/// assert_eq!(measured.items(None), 1);
/// # Ok::<(), curdmesa::Error>(())
/// ```
///
/// # Errors
///
/// Those of [`any_frames`](crate::any_frames).
pub fn measure(bytes: &[u8]) -> Result<Measured, Error> {
    let mut measured = Measured {
        items: [0; MEASURES],
        sizes: [0; MEASURES],
        longest: 0,
    };
    // SAFETY: each pointer is a slice's or an array's, with its length, or a reference's; what is
    // written is borrowed mutably.
    done(unsafe {
        sys::curdmesa_envelope_measure(
            bytes.as_ptr(),
            bytes.len(),
            measured.items.as_mut_ptr(),
            MEASURES,
            measured.sizes.as_mut_ptr(),
            MEASURES,
            &mut measured.longest,
        )
    })?;
    Ok(measured)
}
