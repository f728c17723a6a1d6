//! Random sessions. Their words are made up one by one while dfu-core is asking, so each is of a kind that it awaits.

use oracle::ask::{Ask, Awaited, Data};
use oracle::case::{Kind, Session, Target, Told, Word};
use oracle::device::{self, Host};
use oracle::runs::Run;

use crate::rng::Rng;

pub fn session(rng: &mut Rng) -> Session {
    let mut session = start(rng);
    let mut inventor = Inventor {
        words: Vec::new(),
        words_left: rng.pick(&[4, 12, 24, 24, 48]),
        busy_of_ten: rng.pick(&[0, 1, 1, 3]),
        odd_one_in: rng.pick(&[8, 20, 100]),
        run: None,
        spent: 0,
        erases: 0,
        session: &session,
        rng,
    };
    let end = device::download(&session, &mut inventor);
    let mut words = inventor.words;
    let spent = inventor.spent;
    if matches!(end, Ok(Some(_))) && rng.one_in(2) {
        words.extend((0..=rng.below(3)).map(|_| any_word(rng)));
    }
    session.words = words;
    session.budget = match rng.below(3) {
        0 => spent,
        1 => spent + rng.below(3),
        _ => spent.saturating_add(rng.sized(64)),
    };
    session
}

fn start(rng: &mut Rng) -> Session {
    let size = match rng.below(40) {
        0 => 0,
        1 => 6 + rng.index(65_530) as u16,
        2..=9 => 6 + rng.index(60) as u16,
        _ => rng.pick(&[6, 7, 8, 8, 16, 64]),
    };
    let blocks = rng.index(6);
    let rest = rng.index(usize::from(size) + 1);
    let length = match rng.below(40) {
        0 => rng.index(5_000),
        _ => blocks * usize::from(size) + rest,
    };
    let start = |rng: &mut Rng| match rng.below(6) {
        // about the last address from which the firmware fits below 2^32
        0 => 0u32
            .wrapping_sub(length as u32)
            .wrapping_add(rng.below(40) as u32)
            .wrapping_sub(20),
        1 => 0u32.wrapping_sub(rng.sized(16) as u32),
        2 => rng.next() as u32,
        _ => rng.pick(&[0, 0x0800_0000, 0x0800_4000, 4_096]),
    };
    Session {
        target: Target {
            kind: rng.pick(&[Kind::Plain, Kind::Dfuse, Kind::Dfuse]),
            address: start(rng),
            override_address: rng.one_in(4).then(|| start(rng)),
            size,
        },
        tolerant: rng.one_in(2),
        will_detach: rng.one_in(3),
        length,
        budget: 0,
        command: if rng.one_in(5) { 5 + rng.index(12) } else { 5 },
        pages: pages(length as u32, rng),
        words: Vec::new(),
    }
}

/// Pages that mostly cover the firmware, now and then just so, by far, or not at all.
fn pages(length: u32, rng: &mut Rng) -> Vec<u32> {
    let count = match rng.below(60) {
        0 => 100 + rng.index(413),
        1..=6 => 0,
        _ => 1 + rng.index(5),
    };
    let share = length.div_ceil((count as u32).max(1));
    let mut page = || match rng.below(12) {
        0 => 0,
        1 => rng.sized(32) as u32,
        2 => share.saturating_sub(1),
        3 => share + 1,
        4 => 1 << rng.below(32),
        _ => share,
    };
    (0..count).map(|_| page()).collect()
}

struct Inventor<'a> {
    session: &'a Session,
    rng: &'a mut Rng,
    words: Vec<Word>,
    words_left: usize,
    busy_of_ten: u64,
    odd_one_in: u64,
    run: Option<Run>,
    spent: u64,
    /// How many erases were asked.
    erases: usize,
}

impl Host for Inventor<'_> {
    fn told(&mut self, ask: &Ask) -> Option<Told> {
        self.spent += u64::from(ask.is_transfer());
        self.erases += usize::from(erase(ask).is_some());
        if let Some((told, _)) = self.run.as_mut().and_then(|run| run.tell(ask)) {
            return Some(told);
        }
        self.words_left = self.words_left.checked_sub(1)?;
        if self.rng.one_in(30) {
            let word = self.same_lent();
            self.words.push(word);
        }
        if let Some(word) = self.automatic(ask) {
            self.run = Run::of(&word);
            self.words.push(word);
            return self.run.as_mut()?.tell(ask).map(|(told, _)| told);
        }
        let told = self.tell(ask);
        self.words.push(Word::Tell(told.clone()));
        Some(told)
    }
}

impl Inventor<'_> {
    /// A word that has the next call lend what it would lend anyway, or more command bytes.
    fn same_lent(&mut self) -> Word {
        match self.rng.below(3) {
            0 => Word::Firmware(self.session.length),
            1 => Word::Pages(self.session.pages.len()),
            _ => Word::Command(5 + self.rng.index(12)),
        }
    }

    /// At times an automatic word. A long run is a quiet one.
    fn automatic(&mut self, ask: &Ask) -> Option<Word> {
        let blocks = self.session.length / usize::from(self.session.target.size).max(1);
        let long = blocks + self.session.pages.len() > 12;
        let busy = self.rng.below(3);
        match self.rng.below(100) {
            0 | 1 if !long => Some(Word::Auto(busy)),
            0 | 1 => Some(Word::Quiet(busy)),
            2 => Some(Word::Quiet(busy)),
            3..=5 => Some(Word::Rounds(1 + self.rng.below(self.most_rounds(ask)?))),
            _ => None,
        }
    }

    /// How many rounds may begin here. They go as far as the address, since a block with data has to be taken whole.
    fn most_rounds(&self, ask: &Ask) -> Option<u64> {
        match ask {
            Ask::Write {
                data: Data::Command(_),
                ..
            } => Some(1 + erase(ask).map_or(0, |at| self.erases_from(at))),
            Ask::Write {
                data: Data::Firmware { length: 0, .. },
                ..
            } => Some(9),
            _ => None,
        }
    }

    /// How many erases are left, with the one that is asked at this position.
    fn erases_from(&self, position: u32) -> u64 {
        let Target {
            address,
            override_address,
            ..
        } = self.session.target;
        let end = u64::from(override_address.unwrap_or(address)) + self.session.length as u64;
        let mut position = u64::from(position);
        let pages = self.session.pages[self.erases - 1..].iter();
        let erased = pages.take_while(|&&page| {
            let before = position;
            position += u64::from(page);
            before < end
        });
        erased.count() as u64
    }

    fn tell(&mut self, ask: &Ask) -> Told {
        let odd = self.rng.one_in(self.odd_one_in);
        match *ask {
            Ask::Wait(_) => Told::Wait,
            _ if odd && self.rng.one_in(2) => Told::Failure,
            Ask::Reset => Told::Reset,
            Ask::Write { data, .. } if data.is_block() => Told::Count(data.full_count()),
            Ask::Write { data, .. } => Told::Count(self.count(data.full_count())),
            Ask::Read { awaited, .. } => {
                let state = self.state(awaited, odd);
                Told::Reply(self.reply(state, odd))
            }
        }
    }

    /// The count of anything but a block with data: none is looked at.
    fn count(&mut self, full: u64) -> u64 {
        match self.rng.below(10) {
            0 => 0,
            1 | 2 => self.rng.below(full + 1),
            3 => full + 1 + self.rng.below(9),
            4 => self.rng.sized(64),
            _ => full,
        }
    }

    fn state(&mut self, awaited: Awaited, odd: bool) -> u8 {
        let busy = self.rng.below(10) < self.busy_of_ten;
        match awaited {
            _ if odd && self.rng.one_in(2) => self.rng.byte(),
            _ if odd => self.rng.below(12) as u8,
            Awaited::Opening if self.spent == 1 => self.rng.pick(&[2, 2, 2, 10, 10, 5, 0]),
            Awaited::Opening => 2,
            // a device may name the state before the busy one
            Awaited::After { busy: state, .. } if busy => state - self.rng.below(2) as u8,
            Awaited::After { target, .. } => target,
        }
    }

    fn reply(&mut self, state: u8, odd: bool) -> Vec<u8> {
        let spare = usize::from(self.session.target.size) - 6;
        let mut bytes = vec![0; 6];
        if self.rng.one_in(2) {
            bytes = self.rng.bytes(6);
        }
        bytes[4] = state;
        if odd && self.rng.one_in(3) {
            bytes.truncate(self.rng.index(6));
        } else if self.rng.one_in(12) {
            bytes.resize(6 + self.rng.index(spare.min(20) + 1), 0xaa);
        }
        // only the first reply of a session may have another status
        if self.spent > 1 && bytes.len() >= 6 {
            bytes[0] = 0;
        }
        bytes
    }
}

/// The position that is to be erased, if it is an erase.
fn erase(ask: &Ask) -> Option<u32> {
    match *ask {
        Ask::Write {
            data: Data::Command([0x41, position @ ..]),
            ..
        } => Some(u32::from_le_bytes(position)),
        _ => None,
    }
}

/// Any word, for a session that has ended.
fn any_word(rng: &mut Rng) -> Word {
    match rng.below(12) {
        0 => Word::Tell(Told::Count(rng.sized(64))),
        1 => {
            let length = rng.index(12);
            Word::Tell(Told::Reply(rng.bytes(length)))
        }
        2 | 3 => Word::Tell(Told::Wait),
        4 => Word::Tell(Told::Reset),
        5 => Word::Tell(Told::Failure),
        6 => Word::Firmware(rng.index(2_000)),
        7 => Word::Pages(rng.index(600)),
        8 => Word::Command(rng.index(17)),
        9 => Word::Auto(rng.sized(64)),
        10 => Word::Quiet(rng.sized(64)),
        _ => Word::Rounds(rng.below(1_000)),
    }
}
