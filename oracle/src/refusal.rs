//! dfu-core's errors as document 01's refusals.

use std::fmt;

use dfu_core::memory_layout::{Error as LayoutError, MemoryLayout};
use dfu_core::Error;

/// A refusal's number and the values that it carries.
#[derive(Clone, Debug)]
pub struct Refusal {
    number: u8,
    values: Vec<usize>,
}

impl Refusal {
    pub fn new(number: u8, values: &[usize]) -> Self {
        Self {
            number,
            values: values.to_vec(),
        }
    }
}

impl fmt::Display for Refusal {
    fn fmt(&self, f: &mut fmt::Formatter<'_>) -> fmt::Result {
        write!(f, "refused {}", self.number)?;
        self.values
            .iter()
            .try_for_each(|value| write!(f, " {value}"))
    }
}

/// The refusal of every error but a layout's.
pub fn of(error: &Error) -> Refusal {
    match *error {
        Error::OutOfCapabilities => Refusal::new(1, &[]),
        Error::InvalidState { got, expected } => {
            Refusal::new(2, &[u8::from(got).into(), u8::from(expected).into()])
        }
        Error::EraseLimitReached => Refusal::new(4, &[]),
        Error::NoSpaceLeft => Refusal::new(5, &[]),
        Error::ResponseTooShort { got, expected } => Refusal::new(6, &[got, expected]),
        Error::UnknownProtocol => Refusal::new(7, &[]),
        Error::InvalidInterfaceString => Refusal::new(8, &[]),
        Error::InvalidAddress => Refusal::new(13, &[]),
        ref other => panic!("document 01 has no number for {other:?}"),
    }
}

/// The refusal of a layout's error: its number, and offset and length of the text that it quotes.
///
/// The error doesn't say in which piece it lies. Each piece is judged by itself, so dfu-core is asked for each alone.
pub fn of_layout(layout: &str, error: &LayoutError) -> Refusal {
    let mut start = 0;
    for piece in layout.split(',') {
        if MemoryLayout::try_from(piece).is_err() {
            let (number, place, quoted) = place(piece, error);
            assert_eq!(&piece[place..place + quoted.len()], quoted);
            return Refusal::new(number, &[start + place, quoted.len()]);
        }
        start += piece.len() + 1;
    }
    panic!("a layout is refused, and none of its pieces is");
}

/// The number of an error, where in the piece its text stands, and the text.
fn place<'e>(piece: &str, error: &'e LayoutError) -> (u8, usize, &'e str) {
    let after_star = piece.find('*').map_or(0, |star| star + 1);
    match error {
        LayoutError::InvalidPageFormat(text) => (9, 0, text),
        LayoutError::ParseErrorPageCount(text) => (10, 0, text),
        LayoutError::ParseErrorPageSize(text) => (11, after_star, text),
        LayoutError::InvalidPrefix(text) => (12, piece.len() - 2, text),
    }
}
