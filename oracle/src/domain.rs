//! Where the comparison ends: inputs on which document 01 parts from the Rust on purpose. They are told apart before
//! dfu-core is asked, which would store up to 2^32 pages for one piece of a layout.

use crate::ask::Data;
use crate::case::{Kind, Target};

const LONGEST_TEXT: usize = 1_024;
const MOST_PAGES: usize = 4_096;
const MOST_BLOCKS: u64 = 65_533;
const REPLY: usize = 6;

/// A layout text that both sides read the same way.
pub fn layout(store: usize, text: &[u8]) -> Option<&str> {
    let text = ascii(text)?;
    fits(store, text).then_some(text)
}

/// An interface string of DfuSe that both sides read the same way.
pub fn interface(store: usize, text: &[u8]) -> Option<&str> {
    let text = ascii(text)?;
    let inside = match text.rsplit_once('/') {
        Some((_, layout)) => fits(store, layout),
        None => true,
    };
    inside.then_some(text)
}

/// A download that both sides start the same way.
pub fn start(target: &Target, length: u64, pages: usize) -> bool {
    let size = target.size == 0 || usize::from(target.size) >= REPLY;
    size && (target.kind == Kind::Plain || pages <= MOST_PAGES && is_numbered(target, length))
}

/// Whether DfuSe has a number for each block. Size 0 sends none, and a target that reaches 2^32 is refused before.
fn is_numbered(target: &Target, length: u64) -> bool {
    let address = target.override_address.unwrap_or(target.address);
    let beyond = u64::from(address).saturating_add(length) > u64::from(u32::MAX);
    target.size == 0 || beyond || length.div_ceil(target.size.into()) <= MOST_BLOCKS
}

/// A count that both sides go on with the same way: a block's is its length, any other isn't looked at.
pub fn count(data: &Data, count: u64) -> bool {
    !data.is_block() || count == data.full_count()
}

/// A reply that both sides read the same way, unless it is a session's first: it is too short, or its status is 0.
pub fn reply(bytes: &[u8]) -> bool {
    bytes.len() < REPLY || bytes[0] == 0
}

fn ascii(text: &[u8]) -> Option<&str> {
    let short = text.is_ascii() && text.len() <= LONGEST_TEXT;
    short.then(|| std::str::from_utf8(text).ok())?
}

/// Whether products stay below 2^32, pages within 4,096 and the store, and no unit is `B`, up to the first piece at fault if there is one.
fn fits(store: usize, layout: &str) -> bool {
    let mut room = store.min(MOST_PAGES) as u64;
    for piece in layout.split(',') {
        let Some((count, page)) = read_piece(piece) else {
            return true;
        };
        if page.is_none_or(|page| page > u64::from(u32::MAX)) || count > room {
            return false;
        }
        room -= count;
    }
    true
}

/// A piece's count and page size, which is none where the unit is `B`: the Rust refuses it.
fn read_piece(piece: &str) -> Option<(u64, Option<u64>)> {
    let (count, rest) = piece.split_once('*')?;
    let (size, tail) = rest.split_at(rest.len().checked_sub(2)?);
    let unit = match tail.as_bytes()[0] {
        b'K' => Some(1 << 10),
        b'M' => Some(1 << 20),
        b' ' => Some(1),
        b'B' => None,
        _ => return None,
    };
    let count: u32 = count.parse().ok()?;
    let size: u32 = size.parse().ok()?;
    Some((u64::from(count), unit.map(|unit: u64| u64::from(size) * unit)))
}
