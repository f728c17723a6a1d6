//! Descriptor bytes.

use oracle::case::Case;

use crate::damage::damaged;
use crate::product::digit;
use crate::rng::Rng;

const GOOD: [u8; 12] = [
    9, 0x21, 0x0b, 0xff, 0x00, 0x00, 0x08, 0x1a, 0x01, 0x55, 0xaa, 0x00,
];
const EDGES: [u8; 5] = [0, 1, 0x7f, 0x80, 0xff];

pub fn fixed() -> Box<dyn Iterator<Item = Case>> {
    let lengths = (0..=12).flat_map(|length| {
        [0x21, 0, 1, 0x20, 0x22, 0xa1, 0xff].map(|kind| with(1, kind)[..length].to_vec())
    });
    let bytes = (0..9).flat_map(|at| (0..=255).map(move |byte| with(at, byte)[..9].to_vec()));
    let longer = (0..=255).map(|attributes| with(2, attributes).to_vec());
    let all = lengths.chain(bytes).chain(longer).chain(edge_numbers());
    Box::new(all.map(Case::Descriptor))
}

pub fn random(rng: &mut Rng) -> Case {
    Case::Descriptor(match rng.below(4) {
        0 => {
            let letters = rng.bytes(4);
            damaged(&GOOD[..9], &letters, rng)
        }
        1 => {
            let length = rng.index(24);
            rng.bytes(length)
        }
        _ => {
            let length = 2 + rng.index(10);
            let mut bytes = rng.bytes(length);
            bytes[1] = 0x21;
            bytes
        }
    })
}

fn with(at: usize, byte: u8) -> [u8; 12] {
    let mut bytes = GOOD;
    bytes[at] = byte;
    bytes
}

/// Both bytes of each number at their edges.
fn edge_numbers() -> impl Iterator<Item = Vec<u8>> {
    (0..EDGES.len().pow(6)).map(|mut row| {
        let mut bytes = GOOD[..9].to_vec();
        bytes[3..].fill_with(|| digit(&mut row, &EDGES));
        bytes
    })
}
