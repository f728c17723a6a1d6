//! The automatic words of a session: one word, many calls.

use crate::ask::{Ask, Awaited};
use crate::case::{Told, Word};

/// The most calls that a word makes which tells what is awaited.
const MOST_CALLS: u64 = 1_000_000;

/// The calls of one word that are still to be made.
pub struct Run {
    calls_left: u64,
    teller: Teller,
    shows: Shows,
}

enum Teller {
    Awaited { busy: u64, busy_told: u64 },
    Rounds,
}

/// Which answers are written while the session goes on. The one that ends it is written always.
enum Shows {
    All,
    Last,
    Nothing,
}

impl Run {
    /// The run of an automatic word.
    pub fn of(word: &Word) -> Option<Self> {
        let (calls_left, teller, shows) = match *word {
            Word::Auto(busy) => (MOST_CALLS, Teller::awaited(busy), Shows::All),
            Word::Quiet(busy) => (MOST_CALLS, Teller::awaited(busy), Shows::Last),
            Word::Rounds(rounds) => (rounds * 3, Teller::Rounds, Shows::Nothing),
            _ => return None,
        };
        Some(Self {
            calls_left,
            teller,
            shows,
        })
    }

    /// What the next call tells, and whether its answer is written.
    pub fn tell(&mut self, ask: &Ask) -> Option<(Told, bool)> {
        self.calls_left = self.calls_left.checked_sub(1)?;
        let told = match &mut self.teller {
            Teller::Awaited { busy, busy_told } => awaited(ask, *busy, busy_told),
            Teller::Rounds => match self.calls_left % 3 {
                2 => Told::Count(0),
                1 => Told::Wait,
                _ => reply(5, 0),
            },
        };
        let shown = match self.shows {
            Shows::All => true,
            Shows::Last => self.calls_left == 0,
            Shows::Nothing => false,
        };
        Some((told, shown))
    }
}

impl Teller {
    fn awaited(busy: u64) -> Self {
        Teller::Awaited { busy, busy_told: 0 }
    }
}

/// What is awaited; after a write the busy state so many times, counted anew from each count.
fn awaited(ask: &Ask, busy: u64, busy_told: &mut u64) -> Told {
    match *ask {
        Ask::Write { data, .. } => {
            *busy_told = 0;
            Told::Count(data.full_count())
        }
        Ask::Read { awaited, .. } => match awaited {
            Awaited::Opening => reply(2, 5),
            Awaited::After { busy: state, .. } if *busy_told < busy => {
                *busy_told += 1;
                reply(state, 5)
            }
            Awaited::After { target, .. } => reply(target, 5),
        },
        Ask::Wait(_) => Told::Wait,
        Ask::Reset => Told::Reset,
    }
}

fn reply(state: u8, poll: u8) -> Told {
    Told::Reply(vec![0, poll, 0, 0, state, 0])
}
