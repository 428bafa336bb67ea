//! Why an envelope is refused, and the repairs of one.

use crate::error::Error;
use crate::moment::Moment;
use crate::{output, sys};
use std::error;
use std::fmt;

/// Rows of faults or notes, at first.
const ROWS: usize = 16;
/// Room for their texts, at first.
const ROOM: usize = 4096;

/// A value that doesn't fit.
#[derive(Clone, Debug, PartialEq, Eq)]
pub struct Misfit {
    /// Keys and indices that lead to the value, such as `exception.values[0].type`.
    pub path: String,
    /// Offset of the value in the envelope; of an absent one, of the bracket that ends its object.
    pub start: usize,
    /// Offset behind the value.
    pub end: usize,
    /// What reads there, such as `an RFC 3339 string`.
    pub wanted: String,
    /// The JSON type of what stands there, such as `decimal`, or `absent`.
    pub found: String,
    /// The number or boolean that stands there, its first 40 characters; else empty.
    pub value: String,
}

impl Misfit {
    fn read(row: &sys::CurdmesaMisfit, texts: &[u8]) -> Misfit {
        Misfit {
            path: text_at(texts, row.path),
            start: row.start as usize,
            end: row.end as usize,
            wanted: text_at(texts, row.wanted),
            found: text_at(texts, row.found),
            value: text_at(texts, row.value),
        }
    }
}

/// Why an item or a header line is refused.
#[derive(Clone, Debug, PartialEq, Eq)]
#[non_exhaustive]
pub enum Cause {
    /// The framing is at fault, or no single place inside.
    Whole,
    /// The text isn't JSON.
    Syntax {
        /// Offset of the byte at which it breaks.
        at: usize,
        /// What is expected there, such as `a comma or the closing bracket`.
        expected: String,
    },
    /// A value inside doesn't fit.
    Misfit(Misfit),
}

/// A fault of an envelope: the check that fails, and where. Offsets are in the envelope's bytes.
///
/// Prints as a line.
#[derive(Clone, Debug, PartialEq, Eq)]
pub struct Fault {
    /// The first check of the item that fails, as if it stood alone.
    pub error: Error,
    /// Index of the item; `None` for the header line.
    pub item: Option<usize>,
    /// Item type (`type`); empty if it can't be read.
    pub word: String,
    /// Offset of the item, or of the header line.
    pub start: usize,
    /// Offset behind it.
    pub end: usize,
    /// What doesn't fit.
    pub cause: Cause,
    message: String,
}

impl Fault {
    fn read(row: &sys::CurdmesaFault, texts: &[u8]) -> Fault {
        let misfit = Misfit::read(&row.misfit, texts);
        let cause = match row.cause {
            1 => Cause::Syntax {
                at: misfit.start,
                expected: misfit.wanted,
            },
            2 => Cause::Misfit(misfit),
            _ => Cause::Whole,
        };
        Fault {
            error: Error::from_status(row.error).unwrap_or(Error::Unknown(row.error)),
            item: (row.item != u64::MAX).then_some(row.item as usize),
            word: text_at(texts, row.word),
            start: row.start as usize,
            end: row.end as usize,
            cause,
            message: text_at(texts, row.message),
        }
    }
}

impl fmt::Display for Fault {
    fn fmt(&self, f: &mut fmt::Formatter<'_>) -> fmt::Result {
        f.pad(&self.message)
    }
}

/// Why an envelope is refused: what [`explain`] returns.
///
/// Prints as the line of the first fault, and how many others there are.
#[derive(Clone, Debug, PartialEq, Eq)]
pub struct Refusal {
    /// The first check of the envelope that fails: the error of [`check`](crate::check).
    pub error: Error,
    /// The faults, in order: of the header line, and then item by item.
    pub faults: Vec<Fault>,
}

impl fmt::Display for Refusal {
    fn fmt(&self, f: &mut fmt::Formatter<'_>) -> fmt::Result {
        match self.faults.split_first() {
            None => write!(f, "{}", self.error),
            Some((first, [])) => write!(f, "{first}"),
            Some((first, others)) => write!(f, "{first} (and {} more)", others.len()),
        }
    }
}

impl error::Error for Refusal {
    fn source(&self) -> Option<&(dyn error::Error + 'static)> {
        Some(&self.error)
    }
}

/// Tells why an envelope is refused; `None` if [`check`](crate::check) takes it.
///
/// Each item is read alone, so the faults of all items are told, at most 1,000 of each, and those
/// of the header line.
///
/// ```
/// let bytes = b"{}\n{\"type\":\"event\"}\n{\"timestamp\":1.5}";
/// let refusal = curdmesa::explain(bytes, (0, 0))?.unwrap();
/// assert_eq!(refusal.error, curdmesa::Error::InvalidItemPayload);
/// assert_eq!(
///     refusal.to_string(),
///     "item 0 `event` at bytes 3..37: invalid item payload: `timestamp` at bytes 33..36: \
///      wanted whole seconds or an RFC 3339 string, found decimal 1.5"
/// );
/// # Ok::<(), curdmesa::Error>(())
/// ```
///
/// # Errors
///
/// [`Error::NoMoment`], [`Error::OutOfMemory`].
pub fn explain<N>(bytes: &[u8], now: N) -> Result<Option<Refusal>, Error>
where
    N: TryInto<Moment>,
    Error: From<N::Error>,
{
    let now = now.try_into()?;
    let mut error = 0;
    let (rows, texts) = rows(
        ROOM,
        |rows: &mut [sys::CurdmesaFault], count, out, needed| {
            // SAFETY: each pointer is a slice's, with its length, or a reference's; what is written is
            // borrowed mutably.
            unsafe {
                sys::curdmesa_envelope_explain(
                    bytes.as_ptr(),
                    bytes.len(),
                    now.secs,
                    now.nanos,
                    rows.as_mut_ptr(),
                    rows.len(),
                    count,
                    &mut error,
                    out.as_mut_ptr(),
                    out.len(),
                    needed,
                )
            }
        },
    )?;
    let faults = rows.iter().map(|row| Fault::read(row, &texts)).collect();
    Ok(Error::from_status(error).map(|error| Refusal { error, faults }))
}

/// Which repairs [`mend`] may make.
#[derive(Clone, Copy, Debug, PartialEq, Eq)]
pub enum Repairs {
    /// None: items that don't read are left out.
    Strict,
    /// Those that lose nothing but form: values become strings, an absent or null array becomes an
    /// empty one, null members are taken out.
    Form,
    /// All: what still doesn't fit is taken out, the smallest such part.
    All,
}

/// What [`mend`] may do. The default allows the repairs of [`Repairs::Form`].
#[derive(Clone, Copy, Debug, PartialEq, Eq)]
pub struct MendRules {
    /// Repairs that are allowed.
    pub repairs: Repairs,
    /// Whether an event or a transaction without an id takes that of the envelope header.
    pub header_event_id: bool,
}

impl Default for MendRules {
    fn default() -> MendRules {
        MendRules {
            repairs: Repairs::Form,
            header_event_id: false,
        }
    }
}

/// What a repair did.
#[derive(Clone, Copy, Debug, PartialEq, Eq, Hash)]
#[repr(u32)]
#[non_exhaustive]
pub enum Repair {
    /// A number of seconds became an RFC 3339 string, cut to nanoseconds.
    AsMoment,
    /// A value became a string of its own characters.
    AsText,
    /// The type of an attribute became `string`, beside a value that became a string.
    AsStringType,
    /// An empty array was put where a required array is absent or doesn't fit.
    AsEmptyList,
    /// A member or an item of an array was taken out.
    TakenOut,
    /// The event id of the envelope header was put.
    HeaderId,
    /// `length` in the item header became the size of the repaired payload.
    Length,
    /// An item that can't be repaired was left out of the envelope.
    Left,
}

impl Repair {
    /// All variants, by their number in `curdmesa.h`.
    pub const ALL: &'static [Repair] = &[
        Repair::AsMoment,
        Repair::AsText,
        Repair::AsStringType,
        Repair::AsEmptyList,
        Repair::TakenOut,
        Repair::HeaderId,
        Repair::Length,
        Repair::Left,
    ];
}

/// A change of an envelope: some bytes, and what stands there instead. Offsets are in the bytes that
/// were handed in.
///
/// Prints as a line.
#[derive(Clone, Debug, PartialEq, Eq)]
pub struct Note {
    /// What was done.
    pub repair: Repair,
    /// Index of the item.
    pub item: usize,
    /// Item type (`type`); empty if it can't be read.
    pub word: String,
    /// The first check of the item that fails as it stands; `None` if only the header's id was put.
    pub error: Option<Error>,
    /// Offset of the first byte that is replaced.
    pub start: usize,
    /// Offset behind the last one.
    pub end: usize,
    /// The bytes that stand there instead.
    pub instead: Vec<u8>,
    /// The value that was repaired.
    pub misfit: Misfit,
    message: String,
}

impl Note {
    fn read(row: &sys::CurdmesaNote, texts: &[u8]) -> Result<Note, Error> {
        let repair = Repair::ALL.get(row.repair as usize);
        let instead = output::range(row.instead.offset, row.instead.length);
        Ok(Note {
            repair: *repair.ok_or(Error::InvalidArgument)?,
            item: row.item as usize,
            word: text_at(texts, row.word),
            error: Error::from_status(row.error),
            start: row.start as usize,
            end: row.end as usize,
            instead: texts[instead].to_vec(),
            misfit: Misfit::read(&row.misfit, texts),
            message: text_at(texts, row.message),
        })
    }
}

impl fmt::Display for Note {
    fn fmt(&self, f: &mut fmt::Formatter<'_>) -> fmt::Result {
        f.pad(&self.message)
    }
}

/// What [`mend`] returns.
#[derive(Clone, Debug, PartialEq, Eq)]
pub struct Mended {
    /// The normal form of the envelope of all items that read, as they stand or repaired.
    pub envelope: Vec<u8>,
    /// The error of [`check`](crate::check); `None` if it takes the bytes as they stand.
    pub error: Option<Error>,
    /// The changes, in the order of their bytes.
    pub notes: Vec<Note>,
}

/// Parses an envelope item by item: where an item is refused, the least is changed that lets it
/// read, and an item that can't be repaired is left out. Each change is a note.
///
/// `now` and `seed` are those of [`normalize`](crate::normalize).
///
/// ```
/// use curdmesa::{mend, MendRules, Repair};
///
/// let bytes = b"{}\n{\"type\":\"event\"}\n{\"timestamp\":1.5}";
/// let mended = mend(bytes, (0, 0), 42, MendRules::default())?;
/// assert_eq!(mended.notes[0].repair, Repair::AsMoment);
/// assert_eq!(mended.notes[0].instead, b"\"1970-01-01T00:00:01.5Z\"");
/// # Ok::<(), curdmesa::Error>(())
/// ```
///
/// # Errors
///
/// [`Error::NoMoment`]; [`Error::InvalidHeader`] if the header line is refused;
/// [`Error::OutOfMemory`].
pub fn mend<N>(bytes: &[u8], now: N, seed: u64, rules: MendRules) -> Result<Mended, Error>
where
    N: TryInto<Moment>,
    Error: From<N::Error>,
{
    let now = now.try_into()?;
    let (mut error, mut envelope_len) = (0, 0);
    let room = ROOM + 3 * bytes.len();
    let (rows, texts) = rows(
        room,
        |rows: &mut [sys::CurdmesaNote], count, out, needed| {
            // SAFETY: each pointer is a slice's, with its length, or a reference's; what is written is
            // borrowed mutably.
            unsafe {
                sys::curdmesa_envelope_mend(
                    bytes.as_ptr(),
                    bytes.len(),
                    now.secs,
                    now.nanos,
                    seed,
                    rules.repairs as u32,
                    rules.header_event_id,
                    rows.as_mut_ptr(),
                    rows.len(),
                    count,
                    &mut error,
                    &mut envelope_len,
                    out.as_mut_ptr(),
                    out.len(),
                    needed,
                )
            }
        },
    )?;
    let notes = rows.iter().map(|row| Note::read(row, &texts));
    let notes = notes.collect::<Result<_, Error>>()?;
    let mut envelope = texts;
    envelope.truncate(envelope_len as usize);
    Ok(Mended {
        envelope,
        error: Error::from_status(error),
        notes,
    })
}

fn text_at(texts: &[u8], place: sys::CurdmesaPlace) -> String {
    let bytes = &texts[output::range(place.offset, place.length)];
    String::from_utf8_lossy(bytes).into_owned()
}

/// Returns all rows that a call tells, and the texts that their places are in.
///
/// `call` gets the rows, where to put the number of all, the buffer and where to put the texts'
/// length, and returns a status.
fn rows<T: Copy + Default>(
    room: usize,
    mut call: impl FnMut(&mut [T], &mut u64, &mut [u8], &mut u64) -> i32,
) -> Result<(Vec<T>, Vec<u8>), Error> {
    let (mut rows, mut out) = (Vec::new(), Vec::new());
    output::lengthen(&mut rows, ROWS)?;
    output::lengthen(&mut out, room)?;
    loop {
        let mut count = 0;
        let length = output::written(&mut out, |out, needed| {
            call(&mut rows, &mut count, out, needed)
        })?;
        let count = usize::try_from(count).map_err(|_| Error::OutOfMemory)?;
        if count <= rows.len() {
            rows.truncate(count);
            out.truncate(length);
            return Ok((rows, out));
        }
        output::lengthen(&mut rows, count)?;
    }
}
