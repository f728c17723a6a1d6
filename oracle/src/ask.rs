//! What dfu-core asks of the host and how it ends, in the words of the case format.

use std::fmt;

use crate::case::{Hex, Told};
use crate::heard::Wait;
use crate::refusal::Refusal;

const GETSTATUS: u8 = 3;

#[derive(Clone, Copy, Debug)]
pub enum Ask {
    Read { request: Request, awaited: Awaited },
    Write { request: Request, data: Data },
    Wait(Wait),
    Reset,
}

#[derive(Clone, Copy, Debug)]
pub struct Request {
    pub kind: u8,
    pub number: u8,
    pub value: u16,
}

/// The states that a reply is asked for.
#[derive(Clone, Copy, Debug)]
pub enum Awaited {
    Opening,
    After { busy: u8, target: u8 },
}

/// What a write carries.
#[derive(Clone, Copy, Debug)]
pub enum Data {
    Nothing,
    Command([u8; 5]),
    /// This part of the firmware, and whether the bytes are its own.
    Firmware {
        place: usize,
        length: usize,
        right: bool,
    },
}

/// How a download ended.
#[derive(Clone, Debug)]
pub enum End {
    Stays,
    Reset,
    Refused(Refusal),
}

impl Ask {
    pub fn is_transfer(&self) -> bool {
        matches!(self, Ask::Read { .. } | Ask::Write { .. })
    }

    /// Whether dfu-core can be told this now; a reply has to fit into the buffer of transfer size that it lends.
    pub fn awaits(&self, told: &Told, transfer_size: u16) -> bool {
        match told {
            Told::Reply(bytes) => {
                matches!(self, Ask::Read { .. }) && bytes.len() <= usize::from(transfer_size)
            }
            Told::Count(_) => matches!(self, Ask::Write { .. }),
            Told::Wait => matches!(self, Ask::Wait(_)),
            Told::Reset => matches!(self, Ask::Reset),
            Told::Failure => !matches!(self, Ask::Wait(_)),
        }
    }
}

impl Data {
    /// Whether it is a block with data, which has to be taken whole.
    pub fn is_block(&self) -> bool {
        matches!(self, Data::Firmware { length, .. } if *length > 0)
    }

    /// The count that says all of it was taken.
    pub fn full_count(&self) -> u64 {
        match *self {
            Data::Nothing => 0,
            Data::Command(bytes) => bytes.len() as u64,
            Data::Firmware { length, .. } => length as u64,
        }
    }
}

impl Request {
    /// The request as the rules have it: dfu-core sends GETSTATUS as 0x21, the rules as 0xA1. This one byte is mapped.
    fn ruled(self) -> Self {
        let kind = match (self.kind, self.number) {
            (0x21, GETSTATUS) => 0xa1,
            (kind, _) => kind,
        };
        Self { kind, ..self }
    }
}

/// The 6 bytes asked by a read are the rules': dfu-core lends its whole buffer.
impl fmt::Display for Ask {
    fn fmt(&self, f: &mut fmt::Formatter<'_>) -> fmt::Result {
        match self {
            Ask::Read { request, .. } => write!(f, "read {} 6", request.ruled()),
            Ask::Write { request, data } => write!(f, "write {request}{data}"),
            Ask::Wait(wait) => {
                let mark = if wait.slept { "" } else { " wrong-wait" };
                write!(f, "wait {}{mark}", wait.announced)
            }
            Ask::Reset => f.write_str("reset"),
        }
    }
}

impl fmt::Display for Request {
    fn fmt(&self, f: &mut fmt::Formatter<'_>) -> fmt::Result {
        write!(f, "{} {} {}", self.kind, self.number, self.value)
    }
}

impl fmt::Display for Data {
    fn fmt(&self, f: &mut fmt::Formatter<'_>) -> fmt::Result {
        match self {
            Data::Nothing => Ok(()),
            Data::Command(bytes) => write!(f, " command {}", Hex(bytes)),
            Data::Firmware {
                place,
                length,
                right,
            } => {
                let mark = if *right { "" } else { " wrong-data" };
                write!(f, " firmware {place} {length}{mark}")
            }
        }
    }
}

impl fmt::Display for End {
    fn fmt(&self, f: &mut fmt::Formatter<'_>) -> fmt::Result {
        match self {
            End::Stays => f.write_str("finished stays"),
            End::Reset => f.write_str("finished reset"),
            End::Refused(refusal) => refusal.fmt(f),
        }
    }
}
