//! Plays the words of a `begin` or a `session` to dfu-core and writes down its answers.

use std::fmt::{Display, Write};
use std::mem::replace;
use std::slice::Iter;

use crate::ask::{Ask, Data, End};
use crate::case::{Begin, Hex, Kind, Session, Told, Word};
use crate::device::{self, Host};
use crate::domain;
use crate::guard::Aside;
use crate::runs::Run;

/// How many command bytes the rules ask for at each call.
const LEAST_COMMAND: usize = 5;

/// The words of a start by its numbers alone.
pub fn begin(case: &Begin) -> Result<String, Aside> {
    if !domain::start(&case.target, case.length, case.page_count as usize) {
        return Err(Aside::Outside);
    }
    let mut first = First(None);
    match (device::begin(case, &mut first)?, first.0) {
        (Some(end), None) => Ok(end.to_string()),
        (None, Some(_)) if case.budget == 0 => Err(Aside::Outside),
        (None, Some(ask)) => Ok(ask.to_string()),
        (end, ask) => panic!("a start asked {ask:?} and ended as {end:?}"),
    }
}

/// Breaks a download off at the first thing asked.
struct First(Option<Ask>);

impl Host for First {
    fn told(&mut self, ask: &Ask) -> Option<Told> {
        self.0 = Some(*ask);
        None
    }
}

/// Writes the lines of a session, as far as dfu-core can be told its words.
pub fn session(case: &Session, out: &mut String) -> Result<(), Aside> {
    if !domain::start(&case.target, case.length as u64, case.pages.len()) {
        return Err(Aside::Outside);
    }
    let mut script = Script::new(case, out);
    let end = device::download(case, &mut script)?;
    if script.outside {
        return Err(Aside::Outside);
    }
    if let Some(end) = end {
        script.close(&end);
    }
    Ok(())
}

/// How many firmware bytes, pages and command bytes a call lends.
#[derive(Clone, Copy)]
struct Lent {
    firmware: usize,
    pages: usize,
    command: usize,
}

struct Script<'a> {
    case: &'a Session,
    words: Iter<'a, Word>,
    /// The automatic word under way.
    run: Option<Run>,
    /// What the next call lends, and what the call did that is to be answered.
    lent_next: Lent,
    lent: Lent,
    /// Whether the answer is written, if the session goes on.
    shown: bool,
    started: bool,
    outside: bool,
    spent: u64,
    command: [u8; 16],
    out: &'a mut String,
}

impl Host for Script<'_> {
    fn told(&mut self, ask: &Ask) -> Option<Told> {
        self.started = true;
        if ask.is_transfer() && self.spent == self.case.budget {
            self.outside = true;
            return None;
        }
        self.note(ask);
        if self.shown {
            self.line(ask);
        }
        let told = self.next_call(ask)?;
        let awaited = ask.awaits(&told, self.case.target.size);
        self.outside = !(self.lends_enough() && awaited && self.goes_on(ask, &told));
        (!self.outside).then_some(told)
    }
}

impl<'a> Script<'a> {
    fn new(case: &'a Session, out: &'a mut String) -> Self {
        Self {
            case,
            words: case.words.iter(),
            run: None,
            lent_next: usual(case),
            lent: usual(case),
            shown: true,
            started: false,
            outside: false,
            spent: 0,
            command: [238; 16],
            out,
        }
    }

    /// Keeps what a request spends and what it fills.
    fn note(&mut self, ask: &Ask) {
        self.spent += u64::from(ask.is_transfer());
        if let Ask::Write {
            data: Data::Command(bytes),
            ..
        } = ask
        {
            self.command[..bytes.len()].copy_from_slice(bytes);
        }
    }

    fn line(&mut self, words: &impl Display) {
        let command = Hex(&self.command[..self.lent.command]);
        writeln!(self.out, "session {words} | {} {command}", self.spent)
            .expect("a string takes every line");
    }

    /// What the next call tells, or nothing after the last word.
    fn next_call(&mut self, ask: &Ask) -> Option<Told> {
        loop {
            if let Some((told, shown)) = self.run.as_mut().and_then(|run| run.tell(ask)) {
                self.make_call(shown);
                return Some(told);
            }
            let word = self.words.next()?;
            if let Word::Tell(told) = word {
                self.make_call(true);
                return Some(told.clone());
            }
            self.lend(word);
            self.run = Run::of(word);
        }
    }

    fn make_call(&mut self, shown: bool) {
        self.shown = shown;
        self.lent = replace(&mut self.lent_next, usual(self.case));
    }

    /// Takes in a word that changes what the next call lends.
    fn lend(&mut self, word: &Word) {
        match *word {
            Word::Firmware(length) => self.lent_next.firmware = length,
            Word::Pages(count) => self.lent_next.pages = count,
            Word::Command(count) => self.lent_next.command = count,
            _ => (),
        }
    }

    /// Whether the rules go on with what is lent; dfu-core is lent everything once, at the start.
    fn lends_enough(&self) -> bool {
        let pages =
            self.case.target.kind == Kind::Plain || self.lent.pages == self.case.pages.len();
        pages && self.lent.firmware == self.case.length && self.lent.command >= LEAST_COMMAND
    }

    /// Whether the rules go on with a reply's status, where the first reply of a session may have any and a later one 0,
    /// and with the count of a block.
    fn goes_on(&self, ask: &Ask, told: &Told) -> bool {
        match (ask, told) {
            (_, Told::Reply(bytes)) => self.spent == 1 || domain::reply(bytes),
            (Ask::Write { data, .. }, Told::Count(count)) => domain::count(data, *count),
            _ => true,
        }
    }

    /// Writes the end, and again for each call after it. A refused start is told nothing more.
    fn close(&mut self, end: &End) {
        self.line(end);
        if !self.started && matches!(end, End::Refused(_)) {
            return;
        }
        while let Some(word) = self.words.next() {
            match word {
                Word::Auto(_) | Word::Quiet(_) | Word::Rounds(0) => (),
                Word::Tell(_) | Word::Rounds(_) => {
                    self.make_call(true);
                    self.line(end);
                }
                _ => self.lend(word),
            }
        }
    }
}

fn usual(case: &Session) -> Lent {
    Lent {
        firmware: case.length,
        pages: case.pages.len(),
        command: case.command,
    }
}
