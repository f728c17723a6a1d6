//! Sessions with fixed words: document 01's, each awaited answer replaced by every other, starts at their edges, long
//! runs, words after the end.

use oracle::ask::Ask;
use oracle::case::{Case, Kind, Session, Target, Told, Word};
use oracle::device::{self, Host};
use oracle::grammar;
use oracle::runs::Run;

use crate::invention;
use crate::product::digit;
use crate::rng::Rng;

/// Counts above all that a small session sends at once.
const EXCESSIVE: [u64; 6] = [9, 65_536, 0xffff_ffff, 1 << 32, 1 << 63, u64::MAX];

/// What document 01 shows from both sides.
const DOCUMENT: [&[u8]; 8] = [
    b"session dfuse 4294963200 - 2048 0 0 4095 100 5 4096 : a0",
    b"session dfuse 4294963200 - 2048 0 0 4096 100 5 4096 : a0",
    b"session dfuse 0 - 2048 0 0 2048 100 5 1024,1024 : a0",
    b"session dfuse 0 - 2048 0 0 2049 100 5 1024,1024 : a0",
    b"session plain 0 - 8 0 0 10 100 5 - : r000000000200 r000000000200 c8 a0",
    b"session dfuse 134217728 - 2048 0 0 4100 14 5 4x16384,65536,7x131072 : a0",
    b"session dfuse 0 - 8 0 0 524264 1000000 5 524264 : a0",
    b"session plain 0 - 8 0 0 524296 1000000 5 - : a0",
];

pub fn fixed() -> Box<dyn Iterator<Item = Case>> {
    let document = DOCUMENT
        .into_iter()
        .map(|line| grammar::read(line).expect("it is a case"));
    let all = replaced_answers()
        .chain(edge_starts())
        .chain(long_runs())
        .chain(words_after_the_end());
    Box::new(document.chain(all.map(Case::Session)))
}

pub fn random(rng: &mut Rng) -> Case {
    Case::Session(invention::session(rng))
}

/// A session of two blocks with enough of everything, for DfuSe of two pages.
fn small(kind: Kind, tolerant: bool, will_detach: bool) -> Session {
    Session {
        target: Target {
            kind,
            address: 0x0800_0000,
            override_address: None,
            size: 8,
        },
        tolerant,
        will_detach,
        length: 10,
        budget: 1 << 40,
        command: 5,
        pages: vec![8, 4],
        words: Vec::new(),
    }
}

fn smalls() -> impl Iterator<Item = Session> {
    (0..8).map(|mut row| {
        let kind = digit(&mut row, &[Kind::Plain, Kind::Dfuse]);
        let [tolerant, will_detach] = [(); 2].map(|()| digit(&mut row, &[false, true]));
        small(kind, tolerant, will_detach)
    })
}

/// A device that answers well, and a list of what it was asked and told.
struct GoodDevice {
    run: Run,
    in_error: bool,
    past: Vec<(Ask, Told)>,
}

impl Host for GoodDevice {
    fn told(&mut self, ask: &Ask) -> Option<Told> {
        let (mut told, _) = self.run.tell(ask)?;
        if self.in_error && self.past.is_empty() {
            told = reply(10);
        }
        self.past.push((*ask, told.clone()));
        Some(told)
    }
}

fn good_past(session: &Session, busy: u64, in_error: bool) -> Vec<(Ask, Told)> {
    let mut device = GoodDevice {
        run: Run::of(&Word::Auto(busy)).expect("it is automatic"),
        in_error,
        past: Vec::new(),
    };
    let end = device::download(session, &mut device);
    assert!(
        end.is_ok_and(|end| end.is_some()),
        "a good device ends a session"
    );
    device.past
}

fn replaced_answers() -> impl Iterator<Item = Session> {
    let manners = [(0, false), (0, true), (2, false)];
    smalls().flat_map(move |session| {
        manners.into_iter().flat_map(move |(busy, in_error)| {
            let past = good_past(&session, busy, in_error);
            replaced_answers_of(&session, &past)
        })
    })
}

/// The session up to each of its answers, that answer replaced, and the rest of its own accord.
fn replaced_answers_of(session: &Session, past: &[(Ask, Told)]) -> Vec<Session> {
    let mut before = Vec::new();
    let mut sessions = Vec::new();
    for (ask, told) in past {
        for other in replacements(ask) {
            let mut words = before.clone();
            words.extend([tell(&other), Word::Auto(0), Word::Tell(Told::Wait)]);
            sessions.push(Session {
                words,
                ..session.clone()
            });
        }
        before.push(tell(told));
    }
    sessions
}

/// Every other answer that can be told where this is asked; of a block with data no other count.
fn replacements(ask: &Ask) -> Vec<Told> {
    match ask {
        Ask::Read { .. } => every_reply(),
        Ask::Write { data, .. } if data.is_block() => vec![Told::Failure],
        Ask::Write { .. } => (0..=8)
            .chain(EXCESSIVE)
            .map(Told::Count)
            .chain([Told::Failure])
            .collect(),
        Ask::Wait(_) => Vec::new(),
        Ask::Reset => vec![Told::Failure],
    }
}

/// Replies of every state, of every short length, with bytes to spare, with other times, indexes and statuses. Those
/// with another status stay in where they are a session's first.
fn every_reply() -> Vec<Told> {
    let states = (0..=255).map(|state| vec![0, 0, 0, 0, state, 0]);
    let lengths = [0, 1, 2, 3, 4, 5].map(|length| vec![4; length]);
    let longer = [7, 8].map(|length| [vec![0], vec![4; length - 1]].concat());
    let statuses = [1, 3, 0x0f, 0x10, 0xff]
        .into_iter()
        .flat_map(|status| [5, 10].map(|state| vec![status, 0, 0, 0, state, 0]));
    let busy = [4, 3, 7, 6].map(|state| vec![0, 0xff, 0xfe, 0xfd, state, 0xff]);
    states
        .chain(lengths)
        .chain(longer)
        .chain(statuses)
        .chain(busy)
        .map(Told::Reply)
        .chain([Told::Failure])
        .collect()
}

const EDGE_ADDRESSES: [u32; 9] = [
    0,
    1,
    0x0800_0000,
    0u32.wrapping_sub(4_096),
    0u32.wrapping_sub(16),
    0u32.wrapping_sub(9),
    0u32.wrapping_sub(8),
    u32::MAX - 1,
    u32::MAX,
];
const EDGE_LENGTHS: [usize; 10] = [0, 1, 6, 7, 8, 9, 15, 16, 4_095, 4_096];
const EDGE_SIZES: [u16; 7] = [0, 6, 7, 8, 16, 4_096, 65_535];
const EDGE_PAGES: [&[u32]; 16] = [
    &[],
    &[0],
    &[1],
    &[7],
    &[8],
    &[9],
    &[16],
    &[0, 0, 4, 4],
    &[8, 8],
    &[8, 0],
    &[8, 7],
    &[4_096],
    &[4_095, 1],
    &[u32::MAX],
    &[1, u32::MAX],
    &[0; 512],
];

/// Addresses, lengths, sizes and pages about their limits, the address given by the string or by the override.
fn edge_starts() -> impl Iterator<Item = Session> {
    let rows = 2 * EDGE_ADDRESSES.len() * EDGE_LENGTHS.len() * EDGE_SIZES.len() * EDGE_PAGES.len();
    (0..rows).map(|mut row| {
        let row = &mut row;
        let overridden = digit(row, &[false, true]);
        let edge = digit(row, &EDGE_ADDRESSES);
        let length = digit(row, &EDGE_LENGTHS);
        let size = digit(row, &EDGE_SIZES);
        let pages = digit(row, &EDGE_PAGES);
        let quiet = pages.len() > 16 || length > 16 * usize::from(size);
        Session {
            target: Target {
                kind: Kind::Dfuse,
                address: if overridden { 77 } else { edge },
                override_address: overridden.then_some(edge),
                size,
            },
            length,
            pages: pages.to_vec(),
            words: vec![if quiet { Word::Quiet(0) } else { Word::Auto(0) }],
            ..small(Kind::Dfuse, length % 2 == 0, false)
        }
    })
}

/// As many blocks as DfuSe has numbers for, block numbers past 65,535 and long erases.
fn long_runs() -> impl Iterator<Item = Session> {
    let whole = smalls().flat_map(|session| {
        [(524_264, 8), (393_193, 6), (524_296, 8), (1_048_576, 6)].map(|(length, size)| Session {
            words: vec![Word::Quiet(0)],
            ..with_size(&session, size, length)
        })
    });
    let numbers = [Kind::Plain, Kind::Dfuse].map(|kind| last_numbers(&small(kind, false, false)));
    let erased = smalls()
        .filter(|session| session.target.kind == Kind::Dfuse)
        .flat_map(|session| [4_093, 4_095, 4_096, 4_097].map(|rounds| erased(&session, rounds)));
    whole.chain(numbers).chain(erased)
}

fn with_size(session: &Session, size: u16, length: usize) -> Session {
    let mut session = session.clone();
    session.target.size = size;
    session.length = length;
    session.pages = vec![length as u32];
    session
}

/// The last numbers one by one: for DfuSe the empty block's, for plain DFU 65,535, 0 and the empty block's. The two quiet
/// words make a million calls each, which end in the wait after block 65,534.
fn last_numbers(session: &Session) -> Session {
    let length = match session.target.kind {
        Kind::Plain => 65_537 * 8,
        Kind::Dfuse => 65_533 * 8,
    };
    let mut session = with_size(session, 8, length);
    session.words = vec![Word::Quiet(7), Word::Quiet(73), Word::Auto(0)];
    session
}

/// Rounds over 4,096 erases and the address, or some of them; the rest is seen.
fn erased(session: &Session, rounds: u64) -> Session {
    let mut session = with_size(session, 4_096, 32_768);
    session.pages = vec![8; 4_096];
    session.words = [reply(2), reply(2)].map(Word::Tell).to_vec();
    session.words.extend([Word::Rounds(rounds), Word::Auto(0)]);
    session
}

/// Each way to end, and each word after it.
fn words_after_the_end() -> impl Iterator<Item = Session> {
    endings().flat_map(|session| {
        late_words().into_iter().map(move |late| {
            let later = [late, Word::Tell(Told::Wait), Word::Tell(Told::Count(3))];
            let mut session = session.clone();
            session.words.extend(later);
            session
        })
    })
}

fn late_words() -> Vec<Word> {
    let told = [
        Told::Count(0),
        Told::Count(u64::MAX),
        Told::Reply(Vec::new()),
        Told::Reply(vec![0; 9]),
        reply(2),
        Told::Wait,
        Told::Reset,
        Told::Failure,
    ];
    let others = [
        Word::Auto(0),
        Word::Quiet(7),
        Word::Rounds(0),
        Word::Rounds(9),
        Word::Firmware(0),
        Word::Pages(0),
        Word::Command(0),
        Word::Command(16),
    ];
    told.map(Word::Tell).into_iter().chain(others).collect()
}

fn endings() -> impl Iterator<Item = Session> {
    smalls().flat_map(|session| {
        let ending = |words: &[Word]| Session {
            words: words.to_vec(),
            ..session.clone()
        };
        let mut no_space = ending(&[]);
        no_space.target.kind = Kind::Dfuse;
        no_space.target.address = u32::MAX;
        [
            ending(&[Word::Auto(1)]),
            ending(&[tell(&reply(9)), tell(&reply(9))]),
            ending(&[Word::Tell(Told::Reply(vec![1; 5]))]),
            ending(&[Word::Tell(Told::Failure)]),
            with_size(&session, 0, 10),
            with_size(&session, 8, 0),
            no_space,
        ]
    })
}

fn tell(told: &Told) -> Word {
    Word::Tell(told.clone())
}

fn reply(state: u8) -> Told {
    Told::Reply(vec![0, 0, 0, 0, state, 0])
}
