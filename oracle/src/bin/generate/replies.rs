//! Bytes of a GETSTATUS reply. One that is long enough has status 0: any other is outside the domain.

use oracle::case::Case;

use crate::product::digit;
use crate::rng::Rng;

const EDGES: [u8; 5] = [0, 1, 0x7f, 0x80, 0xff];

pub fn fixed() -> Box<dyn Iterator<Item = Case>> {
    let lengths = (0..=5)
        .map(|length| vec![3; length])
        .chain((6..=12).map(|length| vec![0; length]));
    let named = (0..=255)
        .flat_map(|index| (0..=255).map(move |state| vec![0, 1, 2, 3, state, index ^ state]));
    let times = (0..EDGES.len().pow(3)).map(|mut row| {
        let [low, middle, high] = [(); 3].map(|()| digit(&mut row, &EDGES));
        vec![0, low, middle, high, 4, 0]
    });
    let all = lengths.chain(named).chain(times);
    Box::new(all.map(Case::Reply))
}

pub fn random(rng: &mut Rng) -> Case {
    let length = match rng.below(8) {
        0 => rng.index(6),
        1 => 7 + rng.index(58),
        _ => 6,
    };
    let mut bytes = rng.bytes(length);
    if length >= 6 {
        bytes[0] = 0;
    }
    Case::Reply(bytes)
}
