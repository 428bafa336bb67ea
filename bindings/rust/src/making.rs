//! Making envelopes, items and events.

use crate::error::Error;
use crate::moment::Moment;
use crate::output::{text, utf8};
use crate::sys::{self, CurdmesaPair};

/// Texts one after another, and the lengths of each two.
fn joined<'a>(
    pairs: impl IntoIterator<Item = (&'a [u8], &'a [u8])>,
) -> (Vec<u8>, Vec<CurdmesaPair>) {
    let mut texts = Vec::new();
    let mut lengths = Vec::new();
    for (first, second) in pairs {
        texts.extend_from_slice(first);
        texts.extend_from_slice(second);
        lengths.push(CurdmesaPair {
            first: first.len() as u64,
            second: second.len() as u64,
        });
    }
    (texts, lengths)
}

/// Makes an envelope of a header line, such as `{}`, and items, each of a header and a payload.
///
/// Header line and payloads are written byte for byte, each with a line feed behind it. So are item
/// headers, but one that doesn't state the length of its payload is made to, by a first member
/// `length`.
///
/// ```
/// let item = (&br#"{"type":"log"}"#[..], &br#"{"items":[]}"#[..]);
/// assert_eq!(
///     curdmesa::make_envelope(b"{}", &[item])?,
///     b"{}\n{\"length\":12,\"type\":\"log\"}\n{\"items\":[]}\n"
/// );
/// # Ok::<(), curdmesa::Error>(())
/// ```
///
/// # Errors
///
/// [`Error::InvalidHeader`] if the header line isn't one JSON object in one line;
/// [`Error::InvalidItemHeader`] if an item header isn't one JSON object with a string `type`, without
/// white space around it, or has a `length` that isn't its payload's; [`Error::OutOfMemory`].
pub fn make_envelope(header: &[u8], items: &[(&[u8], &[u8])]) -> Result<Vec<u8>, Error> {
    let (texts, lengths) = joined(items.iter().copied());
    let room = header.len() + texts.len() + 40 * items.len() + 1;
    text(room, |out, needed| {
        // SAFETY: each pointer is a slice's, with its length, or a reference's; `out` and `needed`
        // are borrowed mutably.
        unsafe {
            sys::curdmesa_envelope_make(
                header.as_ptr(),
                header.len(),
                texts.as_ptr(),
                texts.len(),
                lengths.as_ptr(),
                lengths.len(),
                out.as_mut_ptr(),
                out.len(),
                needed,
            )
        }
    })
}

/// Appends an item to an envelope: returns the bytes of the envelope, a line feed if they don't end
/// with one that ends an item or the header line, and the item as [`make_envelope`] writes it.
///
/// A header line alone is an envelope. The payloads of the envelope aren't parsed, and of item
/// headers only `type` and `length` are read.
///
/// # Errors
///
/// Those of [`any_frames`](crate::any_frames) for the envelope;
/// [`Error::InvalidItemHeader`] as [`make_envelope`] for the item; [`Error::OutOfMemory`].
pub fn append_item(envelope: &[u8], header: &[u8], payload: &[u8]) -> Result<Vec<u8>, Error> {
    let room = envelope.len() + header.len() + payload.len() + 40;
    text(room, |out, needed| {
        // SAFETY: as in `make_envelope`.
        unsafe {
            sys::curdmesa_envelope_append(
                envelope.as_ptr(),
                envelope.len(),
                header.as_ptr(),
                header.len(),
                payload.as_ptr(),
                payload.len(),
                out.as_mut_ptr(),
                out.len(),
                needed,
            )
        }
    })
}

/// Returns a text as a JSON string: in quotes, with the shortest escapes.
///
/// # Errors
///
/// [`Error::OutOfMemory`].
pub fn json_text(given: &str) -> Result<String, Error> {
    let json = text(given.len() + 16, |out, needed| {
        // SAFETY: as in `make_envelope`.
        unsafe {
            sys::curdmesa_json_text(
                given.as_ptr(),
                given.len(),
                out.as_mut_ptr(),
                out.len(),
                needed,
            )
        }
    })?;
    utf8(json)
}

/// An event to be made. An empty text is left out.
///
/// ```
/// use curdmesa::{any_frames, NewEvent};
///
/// let event = NewEvent {
///     message: "Disk full",
///     level: "warning",
///     tags: &[("disk", "sda")],
///     ..NewEvent::default()
/// };
/// let envelope = event.to_envelope(std::time::SystemTime::now(), 42)?;
/// assert_eq!(any_frames(&envelope).next().unwrap()?.word, "event");
/// # Ok::<(), curdmesa::Error>(())
/// ```
///
/// `42` is the seed: a program hands in another random number with each event.
#[derive(Clone, Copy, Debug, Default, PartialEq, Eq)]
pub struct NewEvent<'a> {
    /// Severity: `fatal`, `error`, `warning`, `info` or `debug`; an event without one is an error.
    pub level: &'a str,
    /// The message.
    pub message: &'a str,
    /// Release of the application.
    pub release: &'a str,
    /// Environment, such as `production`.
    pub environment: &'a str,
    /// Searchable tags, each a name and a value. Of those with the same name the last counts.
    pub tags: &'a [(&'a str, &'a str)],
}

impl NewEvent<'_> {
    /// Returns an envelope of the event alone, in normal form. The event has the timestamp `now`,
    /// and an id that is drawn from a generator seeded with `seed` alone.
    ///
    /// # Errors
    ///
    /// [`Error::NoMoment`]; [`Error::InvalidItemPayload`] if the level is unknown;
    /// [`Error::OutOfMemory`].
    pub fn to_envelope<N>(&self, now: N, seed: u64) -> Result<Vec<u8>, Error>
    where
        N: TryInto<Moment>,
        Error: From<N::Error>,
    {
        let now = now.try_into()?;
        let tags = self.tags.iter();
        let (tags, lengths) = joined(tags.map(|tag| (tag.0.as_bytes(), tag.1.as_bytes())));
        let room = self.message.len() + tags.len() + 512;
        text(room, |out, needed| {
            // SAFETY: as in `make_envelope`.
            unsafe {
                sys::curdmesa_event_make(
                    self.level.as_ptr(),
                    self.level.len(),
                    self.message.as_ptr(),
                    self.message.len(),
                    self.release.as_ptr(),
                    self.release.len(),
                    self.environment.as_ptr(),
                    self.environment.len(),
                    tags.as_ptr(),
                    tags.len(),
                    lengths.as_ptr(),
                    lengths.len(),
                    now.secs,
                    now.nanos,
                    seed,
                    out.as_mut_ptr(),
                    out.len(),
                    needed,
                )
            }
        })
    }
}
