//! `generate FAMILY COUNT SEED` writes so many cases of a family: its fixed ones first, then damaged and random ones.
//!
//! If the fixed ones are more than half of the count, so many of them are taken at even distances. Cases outside the
//! domain of the comparison are dropped and don't count: the driver's own answer says which these are.

mod begins;
mod damage;
mod descriptors;
mod invention;
mod layouts;
mod product;
mod replies;
mod rng;
mod sessions;
mod strings;
mod texts;

use std::io::{self, BufWriter, Write};
use std::process::ExitCode;

use oracle::answer::answer;
use oracle::case::Case;
use oracle::guard::Aside;

use rng::Rng;

struct Family {
    name: &'static str,
    fixed: fn() -> Box<dyn Iterator<Item = Case>>,
    random: fn(&mut Rng) -> Case,
}

const FAMILIES: [Family; 6] = [
    Family {
        name: "descriptors",
        fixed: descriptors::fixed,
        random: descriptors::random,
    },
    Family {
        name: "replies",
        fixed: replies::fixed,
        random: replies::random,
    },
    Family {
        name: "layouts",
        fixed: layouts::fixed,
        random: layouts::random,
    },
    Family {
        name: "strings",
        fixed: strings::fixed,
        random: strings::random,
    },
    Family {
        name: "sessions",
        fixed: sessions::fixed,
        random: sessions::random,
    },
    Family {
        name: "begins",
        fixed: begins::fixed,
        random: begins::random,
    },
];

fn main() -> ExitCode {
    oracle::prepare();
    let words: Vec<String> = std::env::args().skip(1).collect();
    let Some((family, count, seed)) = read_words(&words) else {
        eprintln!("usage: generate FAMILY COUNT SEED");
        for family in &FAMILIES {
            eprintln!("  {}: {} fixed", family.name, (family.fixed)().count());
        }
        return ExitCode::from(2);
    };
    match write_cases(family, count, seed) {
        Ok(()) => ExitCode::SUCCESS,
        // the reader has seen enough
        Err(error) if error.kind() == io::ErrorKind::BrokenPipe => ExitCode::SUCCESS,
        Err(error) => {
            eprintln!("generate: {error}");
            ExitCode::FAILURE
        }
    }
}

fn read_words(words: &[String]) -> Option<(&'static Family, u64, u64)> {
    let [name, count, seed] = words else {
        return None;
    };
    let family = FAMILIES.iter().find(|family| family.name == name)?;
    Some((family, count.parse().ok()?, seed.parse().ok()?))
}

fn write_cases(family: &Family, count: u64, seed: u64) -> io::Result<()> {
    let mut sink = Sink {
        output: BufWriter::with_capacity(1 << 16, io::stdout().lock()),
        room: count,
        answer: String::new(),
    };
    let fixed = (family.fixed)().count() as u64;
    let distance = fixed.div_ceil((count / 2).max(1)).max(1);
    let first = seed % distance;
    for case in (family.fixed)()
        .skip(first as usize)
        .step_by(distance as usize)
    {
        sink.offer(&case)?;
    }
    let mut rng = Rng::new(seed);
    while sink.room > 0 {
        sink.offer(&(family.random)(&mut rng))?;
    }
    sink.output.flush()
}

/// Takes cases until there is no room left.
struct Sink<W> {
    output: W,
    room: u64,
    answer: String,
}

impl<W: Write> Sink<W> {
    /// Writes a case that lies inside the domain. One at which dfu-core panics stays in, to be seen.
    fn offer(&mut self, case: &Case) -> io::Result<()> {
        self.answer.clear();
        if self.room == 0 || answer(case, &mut self.answer) == Err(Aside::Outside) {
            return Ok(());
        }
        self.room -= 1;
        writeln!(self.output, "{case}")
    }
}
