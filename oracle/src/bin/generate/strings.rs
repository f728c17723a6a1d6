//! Interface strings.

use oracle::case::Case;

use crate::damage::damaged;
use crate::rng::Rng;
use crate::texts::{self, LETTERS, PUBLISHED};

const DFUSE: (u8, u8) = (1, 0x1a);
const PLAIN: (u8, u8) = (1, 0x10);

pub fn fixed() -> Box<dyn Iterator<Item = Case>> {
    let dfuse = |text: Vec<u8>| string(DFUSE, 4_096, text);
    let texts = short_addresses()
        .chain(edge_addresses())
        .chain(short_layouts())
        .chain(slashes())
        .chain(long())
        .chain(PUBLISHED.map(|text| text.as_bytes().to_vec()));
    Box::new(texts.map(dfuse).chain(versions()).chain(unread()))
}

pub fn random(rng: &mut Rng) -> Case {
    let version = match rng.below(20) {
        0 => PLAIN,
        1 => (rng.byte(), rng.byte()),
        _ => DFUSE,
    };
    let text = match rng.below(10) {
        0..=3 => good(rng),
        4..=6 => damaged(&good(rng), LETTERS, rng),
        7..=8 => damaged(rng.pick(&PUBLISHED).as_bytes(), LETTERS, rng),
        _ => texts::any(60, rng),
    };
    string(version, texts::store(rng), text)
}

fn string((major, minor): (u8, u8), store: usize, text: Vec<u8>) -> Case {
    Case::Interface {
        major,
        minor,
        store,
        text,
    }
}

fn good(rng: &mut Rng) -> Vec<u8> {
    let name = rng.pick(&["@Internal Flash  ", "", "@a/b", "@", "//"]);
    let address = rng.sized(33);
    let address = match rng.below(8) {
        0 => format!("0x{address:x}"),
        1 => format!("0x+{address:08X}"),
        2 => format!("0x{address:020x}"),
        3 => format!("0X{address:x}"),
        _ => format!("0x{address:08X}"),
    };
    let pieces = texts::pieces(rng);
    format!("{name}/{address}/{}", texts::layout(pieces, rng)).into_bytes()
}

/// Every version.
fn versions() -> impl Iterator<Item = Case> {
    (0..=255).flat_map(|major| {
        (0..=255).map(move |minor| {
            let text = PUBLISHED[usize::from(major ^ minor) % PUBLISHED.len()];
            string((major, minor), 512, text.as_bytes().to_vec())
        })
    })
}

/// Texts that only a version which doesn't read them takes.
fn unread() -> impl Iterator<Item = Case> {
    let texts = [
        Vec::new(),
        vec![0xff; 7],
        vec![b'a'; 1_025],
        b"/0x0/1*4096Mg".to_vec(),
        b"/0x0/4097*1Kg".to_vec(),
        "é/0x0/1*1é".as_bytes().to_vec(),
    ];
    texts.into_iter().flat_map(|text| {
        [PLAIN, (1, 0), (0x10, 1), (0x1a, 1), (2, 0x1a), (0, 0)]
            .map(|version| string(version, 0, text.clone()))
    })
}

fn with_address(address: &[u8]) -> Vec<u8> {
    [b"@Flash/", address, b"/2*1Kg"].concat()
}

fn short_addresses() -> impl Iterator<Item = Vec<u8>> {
    let letters = b"01xX+-fFgG ";
    let hex = texts::short(letters, 3).map(|digits| [b"0x", digits.as_slice()].concat());
    texts::short(letters, 4)
        .chain(hex)
        .map(|address| with_address(&address))
}

fn edge_addresses() -> impl Iterator<Item = Vec<u8>> {
    let digits = [
        "7fffffff",
        "80000000",
        "fffffffe",
        "FFFFFFFF",
        "fFfFfFfF",
        "100000000",
        "1ffffffff",
        "ffffffff0",
        "0ffffffff",
        "0000000000000000000000ffffffff",
        "10000000000000000",
        "deadbeef",
        "DEADBEEG",
        "0x0",
        "00000000",
    ];
    digits.into_iter().flat_map(|digits| {
        ["0x", "0x+", "0X", "", "+0x", "0x++", "0x-", "00x", " 0x"]
            .map(|start| with_address(format!("{start}{digits}").as_bytes()))
    })
}

/// Short layouts with no second slash before them, a good address and a bad one.
fn short_layouts() -> impl Iterator<Item = Vec<u8>> {
    texts::short(b"019*KM ,g+x", 3).flat_map(|layout| {
        [b"/".as_slice(), b"/0x8/", b"/8/", b""].map(|start| [start, &layout].concat())
    })
}

/// All rows of up to five of the parts that a string is made of.
fn slashes() -> impl Iterator<Item = Vec<u8>> {
    const PARTS: [&[u8]; 6] = [b"/", b"0x8", b"1*1Kg", b"x", b",", b"@N/0x"];
    texts::short(&[0, 1, 2, 3, 4, 5], 5).map(|row| {
        row.iter()
            .flat_map(|&part| PARTS[usize::from(part)])
            .copied()
            .collect()
    })
}

/// Strings at the longest length: filled up in the name, in the address, in the layout.
fn long() -> impl Iterator<Item = Vec<u8>> {
    (1_022..=1_025).flat_map(|length| {
        let fill = |start: &str, letter: &str, end: &str| {
            let middle = letter.repeat(length - start.len() - end.len());
            [start, &middle, end].concat().into_bytes()
        };
        [
            fill("@", "n", "/0x8/1*1Kg"),
            fill("", "/", "/0x8/1*1Kg"),
            fill("/0x", "0", "8/1*1Kg"),
            fill("/0x", "f", "/1*1Kg"),
            fill("/0x8/", "0", "1*1Kg"),
            fill("/0x8/1*1Kg", ",", ""),
            fill("/0x8/1*1Kg", "g", ""),
            fill("", "/", ""),
            fill("", "x", ""),
        ]
    })
}
