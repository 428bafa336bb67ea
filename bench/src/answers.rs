//! What each of the two answers to the bytes of an envelope.

use curdmesa::Error;
use sentry_types::protocol::v7::{Envelope, EnvelopeError};
use std::panic;

/// The moment that fills absent timestamps: 2020-07-20T14:51:14Z.
pub const NOW: (u64, u32) = (1_595_256_674, 0);

/// The seed for absent ids.
pub const SEED: u64 = 42;

/// Why bytes are refused.
#[derive(Clone, Copy, Debug, PartialEq, Eq, PartialOrd, Ord)]
pub enum Fault {
    UnexpectedEof,
    MissingHeader,
    MissingItemHeader,
    MissingNewline,
    InvalidHeader,
    InvalidItemHeader,
    InvalidItemPayload,
    Other,
}

/// The answer to the bytes of an envelope.
#[derive(Debug, PartialEq, Eq)]
pub enum Answer {
    /// The envelope was read, and written again as these bytes.
    Written(Vec<u8>),
    /// It was refused.
    Refused(Fault),
    /// It was read, and then not written.
    Unwritten(String),
}

/// What the two answer to the same bytes.
pub struct Answers {
    pub ours: Answer,
    pub theirs: Answer,
}

/// Returns what the two answer.
pub fn both(bytes: &[u8]) -> Answers {
    Answers {
        ours: ours(bytes),
        theirs: theirs(bytes),
    }
}

impl Answer {
    pub fn is_refusal(&self) -> bool {
        matches!(self, Answer::Refused(_))
    }
}

/// Returns Curdmesa's answer.
pub fn ours(bytes: &[u8]) -> Answer {
    match curdmesa::normalize(bytes, NOW, SEED) {
        Ok(written) => Answer::Written(written),
        Err(error) => Answer::Refused(match error {
            Error::UnexpectedEof => Fault::UnexpectedEof,
            Error::MissingHeader => Fault::MissingHeader,
            Error::MissingItemHeader => Fault::MissingItemHeader,
            Error::MissingNewline => Fault::MissingNewline,
            Error::InvalidHeader => Fault::InvalidHeader,
            Error::InvalidItemHeader => Fault::InvalidItemHeader,
            Error::InvalidItemPayload => Fault::InvalidItemPayload,
            _ => Fault::Other,
        }),
    }
}

fn theirs_unguarded(bytes: &[u8]) -> Answer {
    let envelope = match Envelope::from_slice(bytes) {
        Ok(envelope) => envelope,
        Err(error) => {
            return Answer::Refused(match error {
                EnvelopeError::UnexpectedEof => Fault::UnexpectedEof,
                EnvelopeError::MissingHeader => Fault::MissingHeader,
                EnvelopeError::MissingItemHeader => Fault::MissingItemHeader,
                EnvelopeError::MissingNewline => Fault::MissingNewline,
                EnvelopeError::InvalidHeader(_) => Fault::InvalidHeader,
                EnvelopeError::InvalidItemHeader(_) => Fault::InvalidItemHeader,
                EnvelopeError::InvalidItemPayload(_) => Fault::InvalidItemPayload,
                _ => Fault::Other,
            })
        }
    };
    let mut written = Vec::with_capacity(bytes.len() + 256);
    match envelope.to_writer(&mut written) {
        Ok(()) => Answer::Written(written),
        Err(error) => Answer::Unwritten(error.to_string()),
    }
}

/// Returns the Rust crate's answer.
pub fn theirs(bytes: &[u8]) -> Answer {
    panic::catch_unwind(|| theirs_unguarded(bytes))
        .unwrap_or_else(|_| Answer::Unwritten("panic".to_owned()))
}
