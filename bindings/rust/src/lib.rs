//! Sentry envelopes, DSNs, auth headers and client reports, over the C library of Curdmesa, which
//! is proved to meet its contracts. The calls here are not proved: each hands its arguments to one
//! function of `curdmesa.h`, and gives back what that returns.
//!
//! There is no state and no handle: what a call returns depends on its arguments alone, and on
//! whether memory could be allocated. So every call may be made from several threads at once.
//!
//! ```
//! use curdmesa::{frames, normalize, ItemKind};
//!
//! let bytes = b"{\"event_id\":\"9ec79c33ec9942ab8353589fcb2e04dc\"}\n{\"type\":\"attachment\"}\nhelloworld";
//! let frame = frames(bytes).next().unwrap()?;
//! assert_eq!((frame.kind, frame.payload), (ItemKind::Attachment, &b"helloworld"[..]));
//!
//! let normal = normalize(bytes, std::time::SystemTime::now(), 42)?;
//! assert!(normal.starts_with(b"{\"event_id\":\"9ec79c33-ec99-42ab-8353-589fcb2e04dc\"}\n"));
//! # Ok::<(), curdmesa::Error>(())
//! ```
//!
//! `42` is the seed: a program hands in another random number with each call. With the feature `now`
//! `normalize_now`, `check_now` and `filter_now` take the system's clock and a random seed.
//!
//! The crate links `libcurdmesa.a` from the folder that the variable `CURDMESA_LIB` names; without
//! it, from that of the C binding beside this crate, or from where pkg-config says that it is
//! installed.
#![warn(missing_docs)]

mod any_frames;
mod auth;
pub mod crontab;
mod dsn;
mod envelope;
mod error;
mod faults;
mod frames;
mod headers;
mod kinds;
mod ledger;
mod limits;
mod losses;
mod measure;
mod making;
mod moment;
#[cfg(feature = "now")]
mod now;
mod output;
pub mod rfc3339;
mod sys;

pub use any_frames::{any_frames, forward, AnyFrame, AnyFrames, Forwarded};
pub use auth::Auth;
pub use dsn::Dsn;
pub use envelope::{check, filter, normalize, normalize_into, show_json, Filtered, Kinds};
pub use error::Error;
pub use faults::{
    explain, mend, Cause, Fault, MendRules, Mended, Misfit, Note, Refusal, Repair, Repairs,
};
pub use frames::{frames, Frame, Frames};
pub use headers::{Header, Trace};
pub use kinds::{Category, ItemKind, Reason};
pub use ledger::Ledger;
pub use limits::RateLimits;
pub use losses::{losses, Loss, Losses};
pub use measure::{measure, Measured};
pub use making::{append_item, json_text, make_envelope, NewEvent};
pub use moment::Moment;
#[cfg(feature = "now")]
pub use now::{check_now, filter_now, normalize_now};

/// Returns the version of the library that is linked: major, minor and patch.
pub fn library_version() -> (u32, u32, u32) {
    // SAFETY: the function has no parameters.
    let number = unsafe { sys::curdmesa_version() };
    (number / 1_000_000, number / 1000 % 1000, number % 1000)
}
