//! Envelope headers.

use crate::error::Error;
use crate::moment::Moment;
use crate::output::{range, text, utf8};
use crate::sys;
use std::fmt;

/// The headers of an envelope: the members of its first line.
///
/// ```
/// let bytes = b"{\"sdk\":{\"name\":\"my-sdk\",\"version\":\"1.0\"},\"trace\":{\"sample_rate\":\"0.25\"}}\n";
/// let header = curdmesa::Header::parse(bytes)?;
/// assert_eq!((header.sdk_name(), header.event_id()), (Some("my-sdk"), None));
/// assert_eq!(header.trace().unwrap().sample_rate(), Some(0.25));
/// # Ok::<(), curdmesa::Error>(())
/// ```
#[derive(Clone)]
pub struct Header {
    texts: String,
    parts: sys::CurdmesaHeader,
}

impl Header {
    /// Parses the header line of an envelope. Members of other keys are ignored, and what stands
    /// behind the header line isn't parsed.
    ///
    /// # Errors
    ///
    /// [`Error::InvalidHeader`], [`Error::OutOfMemory`].
    pub fn parse(bytes: impl AsRef<[u8]>) -> Result<Header, Error> {
        let bytes = bytes.as_ref();
        let line = bytes.split(|byte| *byte == b'\n').next().unwrap_or(bytes);
        let mut parts = sys::CurdmesaHeader::default();
        let texts = text(line.len() + 64, |out, needed| {
            // SAFETY: each pointer is a slice's, with its length, or a reference's; what is written
            // is borrowed mutably.
            unsafe {
                sys::curdmesa_envelope_header(
                    line.as_ptr(),
                    line.len(),
                    out.as_mut_ptr(),
                    out.len(),
                    needed,
                    &mut parts,
                )
            }
        })?;
        let texts = utf8(texts)?;
        Ok(Header { texts, parts })
    }

    fn part(&self, flag: u32, place: sys::CurdmesaPlace) -> Option<&str> {
        (flag != 0).then(|| &self.texts[range(place.offset, place.length)])
    }

    /// The event id, hyphenated and in lower case.
    pub fn event_id(&self) -> Option<&str> {
        self.part(self.parts.has_event_id, self.parts.event_id)
    }

    /// The printed form of the DSN that the envelope is sent to; [`Dsn::parse`](crate::Dsn::parse)
    /// takes it apart.
    pub fn dsn(&self) -> Option<&str> {
        self.part(self.parts.has_dsn, self.parts.dsn)
    }

    /// The name of the SDK that sends the envelope.
    pub fn sdk_name(&self) -> Option<&str> {
        self.part(self.parts.has_sdk, self.parts.sdk_name)
    }

    /// The version of the SDK.
    pub fn sdk_version(&self) -> Option<&str> {
        self.part(self.parts.has_sdk, self.parts.sdk_version)
    }

    /// The time of sending.
    pub fn sent_at(&self) -> Option<Moment> {
        (self.parts.has_sent_at != 0).then_some(Moment {
            secs: self.parts.sent_at_secs,
            nanos: self.parts.sent_at_nanos,
        })
    }

    /// The dynamic sampling context of the trace.
    pub fn trace(&self) -> Option<Trace<'_>> {
        (self.parts.has_trace != 0).then_some(Trace { header: self })
    }
}

impl fmt::Debug for Header {
    fn fmt(&self, f: &mut fmt::Formatter<'_>) -> fmt::Result {
        f.debug_struct("Header")
            .field("event_id", &self.event_id())
            .field("dsn", &self.dsn())
            .field("sdk_name", &self.sdk_name())
            .field("sdk_version", &self.sdk_version())
            .field("sent_at", &self.sent_at())
            .field("trace", &self.trace())
            .finish()
    }
}

/// The dynamic sampling context of a trace: the data by which the trace is sampled.
#[derive(Clone, Copy)]
pub struct Trace<'h> {
    header: &'h Header,
}

impl<'h> Trace<'h> {
    fn parts(&self) -> &'h sys::CurdmesaTrace {
        &self.header.parts.trace
    }

    /// The trace id: 32 hex digits in lower case.
    pub fn trace_id(&self) -> Option<&'h str> {
        let parts = self.parts();
        self.header.part(parts.has_trace_id, parts.trace_id)
    }

    /// The public key of the DSN that the trace is sent to.
    pub fn public_key(&self) -> Option<&'h str> {
        let parts = self.parts();
        self.header.part(parts.has_public_key, parts.public_key)
    }

    /// The release.
    pub fn release(&self) -> Option<&'h str> {
        let parts = self.parts();
        self.header.part(parts.has_release, parts.release)
    }

    /// The environment.
    pub fn environment(&self) -> Option<&'h str> {
        let parts = self.parts();
        self.header.part(parts.has_environment, parts.environment)
    }

    /// The transaction name.
    pub fn transaction(&self) -> Option<&'h str> {
        let parts = self.parts();
        self.header.part(parts.has_transaction, parts.transaction)
    }

    /// The sample rate.
    pub fn sample_rate(&self) -> Option<f64> {
        let parts = self.parts();
        (parts.has_sample_rate != 0).then_some(parts.sample_rate as f64 / 1e9)
    }

    /// The random value that the sample rate is compared with.
    pub fn sample_rand(&self) -> Option<f64> {
        let parts = self.parts();
        (parts.has_sample_rand != 0).then_some(parts.sample_rand as f64 / 1e9)
    }

    /// Whether the trace was sampled.
    pub fn sampled(&self) -> Option<bool> {
        let parts = self.parts();
        (parts.has_sampled != 0).then_some(parts.sampled != 0)
    }

    /// The organization id.
    pub fn org_id(&self) -> Option<u64> {
        let parts = self.parts();
        (parts.has_org_id != 0).then_some(parts.org_id)
    }
}

impl fmt::Debug for Trace<'_> {
    fn fmt(&self, f: &mut fmt::Formatter<'_>) -> fmt::Result {
        f.debug_struct("Trace")
            .field("trace_id", &self.trace_id())
            .field("public_key", &self.public_key())
            .field("release", &self.release())
            .field("environment", &self.environment())
            .field("transaction", &self.transaction())
            .field("sample_rate", &self.sample_rate())
            .field("sample_rand", &self.sample_rand())
            .field("sampled", &self.sampled())
            .field("org_id", &self.org_id())
            .finish()
    }
}
