//! Damaged copies of good bytes.

use crate::rng::Rng;

/// Changes, drops, doubles or swaps up to three bytes; new bytes come from `letters`.
pub fn damaged(good: &[u8], letters: &[u8], rng: &mut Rng) -> Vec<u8> {
    let mut bytes = good.to_vec();
    for _ in 0..=rng.below(3) {
        damage(&mut bytes, letters, rng);
    }
    bytes
}

fn damage(bytes: &mut Vec<u8>, letters: &[u8], rng: &mut Rng) {
    let letter = rng.pick(letters);
    if bytes.is_empty() {
        bytes.push(letter);
        return;
    }
    let at = rng.index(bytes.len());
    match rng.below(6) {
        0 => bytes[at] = letter,
        1 => bytes.insert(at, letter),
        2 => drop(bytes.remove(at)),
        3 => bytes.insert(at, bytes[at]),
        4 => bytes.truncate(at),
        _ => {
            let other = rng.index(bytes.len());
            bytes.swap(at, other);
        }
    }
}
