//! Layout texts.

use oracle::case::Case;

use crate::damage::damaged;
use crate::rng::Rng;
use crate::texts::{self, LETTERS, NUMBERS, PUBLISHED, TOO_LARGE};

pub fn fixed() -> Box<dyn Iterator<Item = Case>> {
    let enough = |text: Vec<u8>| layout(4_096, text);
    let texts = texts::short(b"019*KM ,g+x", 5)
        .chain(single_pieces().map(String::into_bytes))
        .chain(tails())
        .chain(long().map(String::into_bytes))
        .chain(PUBLISHED.map(published_layout));
    Box::new(texts.map(enough).chain(full_stores()))
}

pub fn random(rng: &mut Rng) -> Case {
    let text = match rng.below(8) {
        0..=2 => {
            let pieces = texts::pieces(rng);
            texts::layout(pieces, rng).into_bytes()
        }
        3..=5 => {
            let good = texts::layout(1 + rng.index(6), rng);
            damaged(good.as_bytes(), LETTERS, rng)
        }
        6 => damaged(&published_layout(rng.pick(&PUBLISHED)), LETTERS, rng),
        _ => texts::any(40, rng),
    };
    layout(texts::store(rng), text)
}

fn layout(store: usize, text: Vec<u8>) -> Case {
    Case::Layout { store, text }
}

fn published_layout(string: &str) -> Vec<u8> {
    let (_, layout) = string.rsplit_once('/').expect("it has a slash");
    layout.as_bytes().to_vec()
}

/// One piece of every count and size that is at an edge, with every unit; alone, and before and after a good one.
fn single_pieces() -> impl Iterator<Item = String> {
    let numbers = || NUMBERS.into_iter().chain(TOO_LARGE);
    numbers().flat_map(move |count| {
        numbers().flat_map(move |size| {
            ["Kg", "Mg", " g", "Bg", "K", ""]
                .into_iter()
                .flat_map(move |tail| {
                    let piece = format!("{count}*{size}{tail}");
                    [format!("{piece},2*2Kg"), format!("2*2Kg,{piece}"), piece]
                })
        })
    })
}

/// Every ASCII byte as unit, and as the letter after it.
fn tails() -> impl Iterator<Item = Vec<u8>> {
    (0..128).flat_map(|byte| {
        let unit = [b"1*2".as_slice(), &[byte, b'g']].concat();
        let letter = [b"1*2K".as_slice(), &[byte]].concat();
        [unit, letter]
    })
}

/// Texts at the longest length, good and bad at their ends.
fn long() -> impl Iterator<Item = String> {
    (1_022..=1_025).flat_map(|length| {
        let zeros = |rest: usize| "0".repeat(length - rest);
        [
            format!("{}1*1Kg", zeros(5)),
            format!("1*{}1Kg", zeros(5)),
            format!("1*{}", zeros(2)),
            format!("{}*", zeros(1)),
            zeros(0),
            ",".repeat(length),
            "*".repeat(length),
            format!("{:,<length$}", "1*1Kg"),
            format!("{:9>length$}", "*1Kg"),
            "1*1 g,".repeat(length / 6) + &"x".repeat(length % 6),
            "+1*+1Kg,".repeat(length / 8) + &"1*1Kg"[..(length % 8).min(5)],
        ]
    })
}

/// Layouts of so many pages, written in one piece or two, in a store that holds just these, fewer or many more.
fn full_stores() -> impl Iterator<Item = Case> {
    [0usize, 1, 2, 3, 255, 256, 511, 512, 513, 4_095, 4_096, 4_097]
        .into_iter()
        .flat_map(|pages| {
            let halves = (pages / 2, pages - pages / 2);
            let texts = [
                format!("{pages}*1Kg"),
                format!("{}*1 g,{}*2 a", halves.0, halves.1),
                format!("{pages}*1 g,0*1Kg"),
                format!("{pages}*1 g,x"),
                format!("{pages}*1 g,1*1 g,x"),
                format!("x,{pages}*1Kg"),
            ];
            let stores = [pages.saturating_sub(1), pages, pages + 1, 8_192];
            stores
                .into_iter()
                .flat_map(move |store| texts.clone().map(|text| layout(store, text.into_bytes())))
        })
}
