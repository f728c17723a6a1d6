//! Reads a line of the case format. Whatever is not exactly of its grammar is read as nothing.

use crate::case::{Begin, Case, Kind, Session, Target, Told, Word, LONGEST_FIRMWARE};

/// The most bytes of a line, its newline not counted.
pub const LONGEST_LINE: usize = 65_535;

/// The most numbers of a page store, and the most pages of a session.
const MOST_PAGES: usize = 8_192;
const MOST_COMMAND: usize = 16;
const MOST_ROUNDS: u64 = 1_000_000;

/// The case that a line says. Two spaces side by side, or one at an end, make an empty word, which no rule reads.
pub fn read(line: &[u8]) -> Option<Case> {
    let mut words = line.split(|&byte| byte == b' ');
    let words = &mut words;
    let case = match words.next()? {
        b"descriptor" => Case::Descriptor(hex(words.next()?)?),
        b"reply" => Case::Reply(hex(words.next()?)?),
        b"layout" => Case::Layout {
            store: size(words.next()?, MOST_PAGES)?,
            text: hex(words.next()?)?,
        },
        b"string" => Case::Interface {
            major: number(words.next()?)?,
            minor: number(words.next()?)?,
            store: size(words.next()?, MOST_PAGES)?,
            text: hex(words.next()?)?,
        },
        b"detach" => Case::Detach,
        b"begin" => Case::Begin(begin(words)?),
        b"session" => Case::Session(session(words)?),
        _ => return None,
    };
    words.next().is_none().then_some(case)
}

fn begin<'l>(words: &mut impl Iterator<Item = &'l [u8]>) -> Option<Begin> {
    Some(Begin {
        target: target(words)?,
        length: number(words.next()?)?,
        budget: number(words.next()?)?,
        page_count: number(words.next()?)?,
    })
}

fn session<'l>(words: &mut impl Iterator<Item = &'l [u8]>) -> Option<Session> {
    let mut session = Session {
        target: target(words)?,
        tolerant: flag(words.next()?)?,
        will_detach: flag(words.next()?)?,
        length: size(words.next()?, LONGEST_FIRMWARE)?,
        budget: number(words.next()?)?,
        command: size(words.next()?, MOST_COMMAND)?,
        pages: pages(words.next()?)?,
        words: Vec::new(),
    };
    if words.next()? != b":" {
        return None;
    }
    session.words = words.map(word).collect::<Option<_>>()?;
    Some(session)
}

fn target<'l>(words: &mut impl Iterator<Item = &'l [u8]>) -> Option<Target> {
    Some(Target {
        kind: match words.next()? {
            b"plain" => Kind::Plain,
            b"dfuse" => Kind::Dfuse,
            _ => return None,
        },
        address: number(words.next()?)?,
        override_address: match words.next()? {
            b"-" => None,
            word => Some(number(word)?),
        },
        size: number(words.next()?)?,
    })
}

fn pages(word: &[u8]) -> Option<Vec<u32>> {
    let mut pages = Vec::new();
    if word == b"-" {
        return Some(pages);
    }
    for piece in word.split(|&byte| byte == b',') {
        let (count, page) = match piece.iter().position(|&byte| byte == b'x') {
            Some(at) => (size(&piece[..at], MOST_PAGES)?, &piece[at + 1..]),
            None => (1, piece),
        };
        pages.resize(pages.len() + count, number(page)?);
        if pages.len() > MOST_PAGES {
            return None;
        }
    }
    Some(pages)
}

fn word(word: &[u8]) -> Option<Word> {
    let (&letter, rest) = word.split_first()?;
    Some(match (letter, rest) {
        (b'w', b"") => Word::Tell(Told::Wait),
        (b'z', b"") => Word::Tell(Told::Reset),
        (b'f', b"") => Word::Tell(Told::Failure),
        (b'c', _) => Word::Tell(Told::Count(number(rest)?)),
        (b'r', _) => Word::Tell(Told::Reply(hex(rest)?)),
        (b'L', _) => Word::Firmware(size(rest, LONGEST_FIRMWARE)?),
        (b'P', _) => Word::Pages(size(rest, MOST_PAGES)?),
        (b'M', _) => Word::Command(size(rest, MOST_COMMAND)?),
        (b'a', _) => Word::Auto(number(rest)?),
        (b'q', _) => Word::Quiet(number(rest)?),
        (b's', _) => Word::Rounds(number(rest).filter(|&rounds| rounds <= MOST_ROUNDS)?),
        _ => return None,
    })
}

fn flag(word: &[u8]) -> Option<bool> {
    Some(size(word, 1)? == 1)
}

fn size(word: &[u8], limit: usize) -> Option<usize> {
    number(word).filter(|&size| size <= limit)
}

/// A decimal number that its type holds; leading zeros are free.
fn number<N: TryFrom<u64>>(word: &[u8]) -> Option<N> {
    if word.is_empty() {
        return None;
    }
    let value = word.iter().try_fold(0u64, |value, &byte| {
        let digit = byte.is_ascii_digit().then(|| u64::from(byte - b'0'))?;
        value.checked_mul(10)?.checked_add(digit)
    })?;
    N::try_from(value).ok()
}

fn hex(word: &[u8]) -> Option<Vec<u8>> {
    match word {
        b"-" => Some(Vec::new()),
        b"" => None,
        _ if word.len() % 2 == 1 => None,
        _ => word
            .chunks_exact(2)
            .map(|pair| Some(hex_digit(pair[0])? * 16 + hex_digit(pair[1])?))
            .collect(),
    }
}

fn hex_digit(byte: u8) -> Option<u8> {
    match byte {
        b'0'..=b'9' => Some(byte - b'0'),
        b'a'..=b'f' => Some(byte - b'a' + 10),
        _ => None,
    }
}
