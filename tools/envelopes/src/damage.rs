//! Damages bytes.

use crate::random::Random;

/// Bytes that mean something in an envelope.
const BYTES: &[u8] = b"\n\r\t \"\\{}[]:,0123456789-+.eE\x00\x7f\x80\xc3\xed\xff/utrfnaZ";

/// Damages bytes in one to three places.
pub fn damage(random: &mut Random, bytes: &mut Vec<u8>) {
    for _ in 0..=random.below(3) {
        damage_once(random, bytes);
    }
}

fn damage_once(random: &mut Random, bytes: &mut Vec<u8>) {
    if bytes.is_empty() {
        return;
    }
    let at = random.below(bytes.len());
    let end = (at + 1 + random.below(8)).min(bytes.len());
    match random.below(8) {
        0 => bytes[at] ^= 1 << random.below(8),
        1 | 2 => bytes[at] = *random.pick(BYTES),
        3 | 4 => bytes.insert(at, *random.pick(BYTES)),
        5 => drop(bytes.drain(at..end)),
        6 => {
            let again = bytes[at..end].to_vec();
            bytes.splice(at..at, again);
        }
        _ => bytes.truncate(at),
    }
}
