//! Starts by their numbers alone.

use oracle::case::{Begin, Case, Kind, Target};

use crate::product::digit;
use crate::rng::Rng;

const KINDS: [Kind; 2] = [Kind::Plain, Kind::Dfuse];
const LIMIT: u64 = 1 << 32;
const ADDRESSES: [u32; 4] = [0, 1, 0x0800_0000, u32::MAX];
const OVERRIDES: [Option<u32>; 4] = [None, Some(0), Some(1), Some(u32::MAX)];
const SIZES: [u16; 4] = [0, 6, 7, 65_535];
/// The most blocks that DfuSe has numbers for.
const MOST_BLOCKS: u64 = 65_533;
const LENGTHS: [u64; 20] = [
    0,
    1,
    2,
    6,
    4_096,
    MOST_BLOCKS * 6,
    MOST_BLOCKS * 6 + 1,
    MOST_BLOCKS * 7,
    MOST_BLOCKS * 7 + 1,
    MOST_BLOCKS * 65_535,
    MOST_BLOCKS * 65_535 + 1,
    LIMIT - 0x0800_0001,
    LIMIT - 0x0800_0000,
    LIMIT - 2,
    LIMIT - 1,
    LIMIT,
    LIMIT + 1,
    2 * LIMIT,
    1 << 63,
    u64::MAX,
];
const BUDGETS: [u64; 3] = [0, 1, u64::MAX];
const PAGE_COUNTS: [u32; 4] = [0, 1, 512, 4_096];

pub fn fixed() -> Box<dyn Iterator<Item = Case>> {
    let rows = KINDS.len()
        * ADDRESSES.len()
        * OVERRIDES.len()
        * SIZES.len()
        * LENGTHS.len()
        * BUDGETS.len()
        * PAGE_COUNTS.len();
    Box::new((0..rows).map(|mut row| {
        let row = &mut row;
        Case::Begin(Begin {
            target: Target {
                kind: digit(row, &KINDS),
                address: digit(row, &ADDRESSES),
                override_address: digit(row, &OVERRIDES),
                size: digit(row, &SIZES),
            },
            length: digit(row, &LENGTHS),
            budget: digit(row, &BUDGETS),
            page_count: digit(row, &PAGE_COUNTS),
        })
    }))
}

pub fn random(rng: &mut Rng) -> Case {
    let address = rng.sized(32) as u32;
    let override_address = rng.one_in(3).then(|| rng.sized(32) as u32);
    let start = u64::from(override_address.unwrap_or(address));
    let size = if rng.one_in(16) {
        0
    } else {
        rng.sized(16) as u16
    };
    let length = match rng.below(8) {
        0 => rng.sized(64),
        1 => rng.sized(33),
        // about the longest that DfuSe has numbers for
        2..=5 => (MOST_BLOCKS * u64::from(size) + rng.sized(3)).saturating_sub(rng.sized(20)),
        // about the length that ends at 2^32
        _ => (LIMIT - start + rng.below(5)).saturating_sub(2),
    };
    Case::Begin(Begin {
        target: Target {
            kind: rng.pick(&KINDS),
            address,
            override_address,
            size,
        },
        length,
        budget: rng.sized(64),
        page_count: rng.below(4_097) as u32,
    })
}
