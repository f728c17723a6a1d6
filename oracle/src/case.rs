//! The cases of the case format as values, and each written as its line.

use std::fmt;

/// The most bytes a firmware of a session has.
pub const LONGEST_FIRMWARE: usize = 1_048_576;

#[derive(Clone, Debug)]
pub enum Case {
    Descriptor(Vec<u8>),
    Reply(Vec<u8>),
    Layout {
        store: usize,
        text: Vec<u8>,
    },
    Interface {
        major: u8,
        minor: u8,
        store: usize,
        text: Vec<u8>,
    },
    Detach,
    Begin(Begin),
    Session(Session),
}

#[derive(Clone, Copy, Debug, PartialEq)]
pub enum Kind {
    Plain,
    Dfuse,
}

/// What `begin` and `session` both say of the device.
#[derive(Clone, Debug)]
pub struct Target {
    pub kind: Kind,
    pub address: u32,
    pub override_address: Option<u32>,
    pub size: u16,
}

#[derive(Clone, Debug)]
pub struct Begin {
    pub target: Target,
    pub length: u64,
    pub budget: u64,
    pub page_count: u32,
}

#[derive(Clone, Debug)]
pub struct Session {
    pub target: Target,
    pub tolerant: bool,
    pub will_detach: bool,
    pub length: usize,
    pub budget: u64,
    pub command: usize,
    pub pages: Vec<u32>,
    pub words: Vec<Word>,
}

/// One thing that the host tells.
#[derive(Clone, Debug)]
pub enum Told {
    Count(u64),
    Reply(Vec<u8>),
    Wait,
    Reset,
    Failure,
}

/// A word after a session's colon.
#[derive(Clone, Debug)]
pub enum Word {
    Tell(Told),
    /// The next call lends this many bytes of firmware, pages, command bytes.
    Firmware(usize),
    Pages(usize),
    Command(usize),
    /// Calls up to the end, with this many busy replies after each write.
    Auto(u64),
    Quiet(u64),
    /// Rounds of a count of 0, a wait and the reply that ends it.
    Rounds(u64),
}

/// Bytes in the format's HEX.
pub struct Hex<'b>(pub &'b [u8]);

impl fmt::Display for Hex<'_> {
    fn fmt(&self, f: &mut fmt::Formatter<'_>) -> fmt::Result {
        if self.0.is_empty() {
            return f.write_str("-");
        }
        self.0.iter().try_for_each(|byte| write!(f, "{byte:02x}"))
    }
}

/// Page sizes in the format's PAGES, runs of equal ones in short.
struct Pages<'p>(&'p [u32]);

impl fmt::Display for Pages<'_> {
    fn fmt(&self, f: &mut fmt::Formatter<'_>) -> fmt::Result {
        if self.0.is_empty() {
            return f.write_str("-");
        }
        let mut comma = "";
        for run in self.0.chunk_by(|a, b| a == b) {
            match run {
                [page] => write!(f, "{comma}{page}")?,
                _ => write!(f, "{comma}{}x{}", run.len(), run[0])?,
            }
            comma = ",";
        }
        Ok(())
    }
}

impl fmt::Display for Case {
    fn fmt(&self, f: &mut fmt::Formatter<'_>) -> fmt::Result {
        match self {
            Case::Descriptor(bytes) => write!(f, "descriptor {}", Hex(bytes)),
            Case::Reply(bytes) => write!(f, "reply {}", Hex(bytes)),
            Case::Layout { store, text } => write!(f, "layout {store} {}", Hex(text)),
            Case::Interface {
                major,
                minor,
                store,
                text,
            } => write!(f, "string {major} {minor} {store} {}", Hex(text)),
            Case::Detach => f.write_str("detach"),
            Case::Begin(begin) => begin.fmt(f),
            Case::Session(session) => session.fmt(f),
        }
    }
}

impl fmt::Display for Target {
    fn fmt(&self, f: &mut fmt::Formatter<'_>) -> fmt::Result {
        let kind = match self.kind {
            Kind::Plain => "plain",
            Kind::Dfuse => "dfuse",
        };
        write!(f, "{kind} {} ", self.address)?;
        match self.override_address {
            Some(address) => write!(f, "{address}")?,
            None => f.write_str("-")?,
        }
        write!(f, " {}", self.size)
    }
}

impl fmt::Display for Begin {
    fn fmt(&self, f: &mut fmt::Formatter<'_>) -> fmt::Result {
        write!(
            f,
            "begin {} {} {} {}",
            self.target, self.length, self.budget, self.page_count
        )
    }
}

impl fmt::Display for Session {
    fn fmt(&self, f: &mut fmt::Formatter<'_>) -> fmt::Result {
        write!(
            f,
            "session {} {} {} {} {} {} {} :",
            self.target,
            u8::from(self.tolerant),
            u8::from(self.will_detach),
            self.length,
            self.budget,
            self.command,
            Pages(&self.pages),
        )?;
        self.words.iter().try_for_each(|word| write!(f, " {word}"))
    }
}

impl fmt::Display for Word {
    fn fmt(&self, f: &mut fmt::Formatter<'_>) -> fmt::Result {
        match self {
            Word::Tell(told) => told.fmt(f),
            Word::Firmware(length) => write!(f, "L{length}"),
            Word::Pages(count) => write!(f, "P{count}"),
            Word::Command(count) => write!(f, "M{count}"),
            Word::Auto(busy) => write!(f, "a{busy}"),
            Word::Quiet(busy) => write!(f, "q{busy}"),
            Word::Rounds(rounds) => write!(f, "s{rounds}"),
        }
    }
}

impl fmt::Display for Told {
    fn fmt(&self, f: &mut fmt::Formatter<'_>) -> fmt::Result {
        match self {
            Told::Count(count) => write!(f, "c{count}"),
            Told::Reply(bytes) => write!(f, "r{}", Hex(bytes)),
            Told::Wait => f.write_str("w"),
            Told::Reset => f.write_str("z"),
            Told::Failure => f.write_str("f"),
        }
    }
}
