//! Parsing, normalizing, filtering and showing envelopes.

use crate::error::{done, Error};
use crate::kinds::ItemKind;
use crate::losses::{Losses, LOSSES};
use crate::moment::Moment;
use crate::{output, sys};

/// Returns the capacity for a normal form, at first: the envelope's own length, and room for the
/// defaults and lengths that items get, which is most for small ones. An attachment of ten bytes
/// grows from 64 bytes to 143.
fn capacity(length: usize) -> usize {
    length + (2 * length).clamp(256, 16 * 1024)
}

/// Parses an envelope and returns its normal form.
///
/// `now` fills absent timestamps; absent ids are drawn from a generator seeded with `seed` alone, so
/// hand in another random number with each envelope. The normal form of the normal form is the
/// normal form, unless its JSON nests deeper than 127.
///
/// # Errors
///
/// [`Error::NoMoment`]; the first check of the envelope that fails, [`Error::UnexpectedEof`] to
/// [`Error::InvalidItemPayload`]; [`Error::OutOfMemory`].
pub fn normalize<N>(bytes: &[u8], now: N, seed: u64) -> Result<Vec<u8>, Error>
where
    N: TryInto<Moment>,
    Error: From<N::Error>,
{
    let mut out = Vec::new();
    let length = normalize_into(bytes, now, seed, &mut out)?.len();
    out.truncate(length);
    Ok(out)
}

/// Like [`normalize`], into the front of `out`: returns the normal form that stands there.
///
/// The whole length of `out` is room for the normal form. It is lengthened if it is shorter than
/// most normal forms of envelopes like this; if the normal form is longer all the same, `out` is
/// lengthened again, and the envelope is parsed once more. So a program that hands in the same
/// buffer with each envelope takes memory for it, and clears it, only where an envelope is longer
/// than all before. What stands behind the normal form, or after an error, is of no meaning.
///
/// ```
/// let mut out = Vec::new();
/// for bytes in [&b"{\"dsn\":null}"[..], b"{}"] {
///     let normal = curdmesa::normalize_into(bytes, (0, 0), 42, &mut out)?;
///     assert_eq!(normal, b"{}\n");
/// }
/// # Ok::<(), curdmesa::Error>(())
/// ```
///
/// # Errors
///
/// Those of [`normalize`].
pub fn normalize_into<'o, N>(
    bytes: &[u8],
    now: N,
    seed: u64,
    out: &'o mut Vec<u8>,
) -> Result<&'o [u8], Error>
where
    N: TryInto<Moment>,
    Error: From<N::Error>,
{
    let now = now.try_into()?;
    output::lengthen(out, capacity(bytes.len()))?;
    let length = output::written(out, |out, needed| {
        // SAFETY: each pointer is a slice's, with its length, or a reference's; `out` and `needed`
        // are borrowed mutably.
        unsafe {
            sys::curdmesa_envelope_normalize(
                bytes.as_ptr(),
                bytes.len(),
                now.secs,
                now.nanos,
                seed,
                out.as_mut_ptr(),
                out.len(),
                needed,
            )
        }
    })?;
    Ok(&out[..length])
}

/// Parses an envelope, and returns nothing of it.
///
/// # Errors
///
/// Those of [`normalize`].
pub fn check<N>(bytes: &[u8], now: N) -> Result<(), Error>
where
    N: TryInto<Moment>,
    Error: From<N::Error>,
{
    let now = now.try_into()?;
    // SAFETY: the pointer is the slice's, with its length.
    done(unsafe { sys::curdmesa_envelope_check(bytes.as_ptr(), bytes.len(), now.secs, now.nanos) })
}

/// Which items a filter keeps, by their type.
#[derive(Clone, Copy, Debug, PartialEq, Eq)]
pub enum Kinds<'a> {
    /// Keep items of these types and remove all others.
    Keep(&'a [ItemKind]),
    /// Remove items of these types and keep all others.
    Remove(&'a [ItemKind]),
}

impl Kinds<'_> {
    /// A bit for each item type that is listed, and whether these are kept.
    fn bits(self) -> (u32, bool) {
        let (kinds, keep) = match self {
            Kinds::Keep(kinds) => (kinds, true),
            Kinds::Remove(kinds) => (kinds, false),
        };
        (
            kinds.iter().fold(0, |bits, kind| bits | 1 << *kind as u32),
            keep,
        )
    }
}

/// What a filter leaves and loses.
#[derive(Clone, Debug, PartialEq, Eq)]
pub struct Filtered {
    /// What is left of the envelope, in normal form; `None` if no item is.
    pub envelope: Option<Vec<u8>>,
    /// What is lost with the removed items.
    pub losses: Losses,
}

/// Parses an envelope and removes items by their type.
///
/// An attachment is also removed if no event and no transaction is kept. With `keep_headers` all
/// envelope headers but the event id stay; without, none does. The event id becomes that of the
/// first event or transaction that is left. `now` and `seed` are those of [`normalize`].
///
/// ```
/// use curdmesa::{filter, Category, ItemKind, Kinds};
///
/// let bytes = b"{}\n{\"type\":\"attachment\"}\nhelloworld";
/// let filtered = filter(bytes, (0, 0), 42, Kinds::Remove(&[ItemKind::Attachment]), true)?;
/// assert_eq!(filtered.envelope, None);
/// assert_eq!(filtered.losses.get(Category::Attachment, None), 10);
/// # Ok::<(), curdmesa::Error>(())
/// ```
///
/// # Errors
///
/// Those of [`normalize`].
pub fn filter<N>(
    bytes: &[u8],
    now: N,
    seed: u64,
    kinds: Kinds<'_>,
    keep_headers: bool,
) -> Result<Filtered, Error>
where
    N: TryInto<Moment>,
    Error: From<N::Error>,
{
    let now = now.try_into()?;
    let (kinds, keep) = kinds.bits();
    let mut losses = Losses::default();
    let left = output::text(capacity(bytes.len()), |out, needed| {
        // SAFETY: each pointer is a slice's or an array's, with its length, or a reference's;
        // `out`, `needed` and `losses` are borrowed mutably.
        unsafe {
            sys::curdmesa_envelope_filter(
                bytes.as_ptr(),
                bytes.len(),
                now.secs,
                now.nanos,
                seed,
                kinds,
                keep,
                keep_headers,
                out.as_mut_ptr(),
                out.len(),
                needed,
                losses.sums.as_mut_ptr(),
                LOSSES,
            )
        }
    });
    let envelope = output::optional(left)?;
    Ok(Filtered { envelope, losses })
}

/// Returns what is known of an envelope, as a JSON object: whether [`check`] accepts it, the type,
/// the verdict and the bytes of each item, its faults and its header, what would be lost if all
/// items were dropped, and what its events and transactions say.
///
/// A refused envelope is shown up to the first item that can't be split off.
///
/// ```
/// let shown = curdmesa::show_json(b"{}\n{\"type\":\"attachment\"}\nhelloworld")?;
/// assert!(shown.starts_with("{\"bytes\":35,\"accepted\":true,\"items\":[{\"type\":\"attachment\","));
/// # Ok::<(), curdmesa::Error>(())
/// ```
///
/// # Errors
///
/// [`Error::OutOfMemory`].
pub fn show_json(bytes: &[u8]) -> Result<String, Error> {
    let shown = output::text(4096, |out, needed| {
        // SAFETY: each pointer is a slice's, with its length, or a reference's; `out` and `needed`
        // are borrowed mutably.
        unsafe {
            sys::curdmesa_envelope_show_json(
                bytes.as_ptr(),
                bytes.len(),
                out.as_mut_ptr(),
                out.len(),
                needed,
            )
        }
    })?;
    output::utf8(shown)
}
