//! Texts that layouts and interface strings are made of.

use crate::product::digit;
use crate::rng::Rng;

/// Strings as ST's devices send them, and one of two regions.
pub const PUBLISHED: [&str; 14] = [
    "@Internal Flash  /0x08000000/04*016Kg,01*064Kg,07*128Kg",
    "@Internal Flash  /0x08000000/04*016Kg,01*064Kg,07*128Kg,04*016Kg,01*064Kg,07*128Kg",
    "@Internal Flash  /0x08000000/12*001Ka,116*001Kg",
    "@Internal Flash  /0x08000000/064*0002Kg",
    "@Internal Flash   /0x08000000/256*0002Kg",
    "@Internal Flash   /0x08000000/16*128Kg",
    "@Option Bytes  /0x1FFFC000/01*016 e",
    "@Option Bytes  /0x1FFFF800/01*016 e",
    "@Option Bytes   /0x5200201C/01*128 e",
    "@OTP Memory /0x1FFF7800/01*512 e,01*016 e",
    "@Device Feature/0xFFFF0000/01*004 e",
    "@SPI Flash : M25P64/0x00000000/128*064Kg",
    "@NOR Flash : M29W128F/0x64000000/0256*064Kg",
    "@Internal Flash  /0x08000000/04*016Kg/0x08020000/07*128Kg",
];

/// Letters that a reader of these texts looks at, or nearly.
pub const LETTERS: &[u8] = b"0123456789*KM ,g+x/-XBkmaefF@";

/// Decimal numbers at their edges, well formed and not.
pub const NUMBERS: [&str; 28] = [
    "",
    "0",
    "1",
    "+1",
    "00",
    "01",
    "+",
    "++1",
    "-0",
    "-1",
    "1 ",
    " 1",
    "1x",
    "0x1",
    "+0",
    "0+",
    "2",
    "255",
    "511",
    "512",
    "4095",
    "4096",
    "4194303",
    "04194303",
    "4294967295",
    "+04294967295",
    "00000000000000000000001",
    "016",
];

/// Numbers that no 32 bits hold.
pub const TOO_LARGE: [&str; 4] = [
    "4294967296",
    "9999999999",
    "18446744073709551616",
    "99999999999999999999999999",
];

/// All texts of at most so many letters, the shortest first.
pub fn short(letters: &'static [u8], longest: u32) -> impl Iterator<Item = Vec<u8>> {
    (0..=longest).flat_map(move |length| {
        (0..letters.len().pow(length))
            .map(move |mut row| (0..length).map(|_| digit(&mut row, letters)).collect())
    })
}

/// A number in one of the ways in which it may be written.
pub fn number(value: u64, rng: &mut Rng) -> String {
    match rng.below(12) {
        0 => format!("+{value}"),
        1 => format!("{value:03}"),
        2 => format!("{value:0width$}", width = rng.index(20)),
        3 => format!("+{value:02}"),
        _ => value.to_string(),
    }
}

/// A layout of this many pieces, well formed; few of its products and sums go too far.
pub fn layout(pieces: usize, rng: &mut Rng) -> String {
    let piece = |_| {
        let (unit, bits) = rng.pick(&[('K', 22), ('M', 12), (' ', 32), ('K', 8), (' ', 10)]);
        let size = rng.sized(bits);
        let count = match rng.below(20) {
            0 => rng.below(520),
            1 => rng.sized(32),
            2 => 0,
            _ => rng.below(9),
        };
        let kind = rng.pick(b"abcdefg g") as char;
        format!("{}*{}{unit}{kind}", number(count, rng), number(size, rng))
    };
    (0..pieces).map(piece).collect::<Vec<_>>().join(",")
}

/// How many pieces a random layout has: mostly few, at times as many as a text holds.
pub fn pieces(rng: &mut Rng) -> usize {
    match rng.below(20) {
        0 => 1 + rng.index(150),
        1..=5 => 1 + rng.index(12),
        _ => 1 + rng.index(4),
    }
}

/// How many numbers the lent store holds: mostly enough for any layout.
pub fn store(rng: &mut Rng) -> usize {
    match rng.below(8) {
        0 => 8_192,
        1 => rng.index(64),
        2 => rng.index(8_193),
        _ => 4_096,
    }
}

/// A random text, of the letters that matter or of any in ASCII.
pub fn any(longest: usize, rng: &mut Rng) -> Vec<u8> {
    let length = rng.index(longest + 1);
    if rng.one_in(4) {
        return (0..length).map(|_| rng.byte() & 127).collect();
    }
    (0..length).map(|_| rng.pick(LETTERS)).collect()
}
