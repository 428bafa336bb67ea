//! Calls at the time of the system's clock, each with a random seed.

use crate::envelope::{check, filter, normalize, Filtered, Kinds};
use crate::error::Error;
use std::collections::hash_map::RandomState;
use std::hash::{BuildHasher, Hasher};
use std::time::SystemTime;

/// Returns a random number: a hash of nothing, under keys of the operating system's random source.
fn random_seed() -> u64 {
    RandomState::new().build_hasher().finish()
}

/// [`normalize`] at the time of the system's clock, with a random seed. With the feature `now`.
///
/// # Errors
///
/// Those of [`normalize`].
pub fn normalize_now(bytes: &[u8]) -> Result<Vec<u8>, Error> {
    normalize(bytes, SystemTime::now(), random_seed())
}

/// [`check`] at the time of the system's clock. With the feature `now`.
///
/// # Errors
///
/// Those of [`check`].
pub fn check_now(bytes: &[u8]) -> Result<(), Error> {
    check(bytes, SystemTime::now())
}

/// [`filter`] at the time of the system's clock, with a random seed. With the feature `now`.
///
/// # Errors
///
/// Those of [`filter`].
pub fn filter_now(bytes: &[u8], kinds: Kinds<'_>, keep_headers: bool) -> Result<Filtered, Error> {
    filter(bytes, SystemTime::now(), random_seed(), kinds, keep_headers)
}

#[cfg(test)]
mod tests {
    use super::*;

    #[test]
    fn ids_are_drawn_anew() {
        let event = b"{}\n{\"type\":\"event\"}\n{}\n";
        let first = normalize_now(event).unwrap();
        assert_ne!(first, normalize_now(event).unwrap());
        let kept = filter_now(&first, Kinds::Remove(&[]), true).unwrap();
        assert_eq!(kept.envelope.map(|left| check_now(&left)), Some(Ok(())));
    }
}
