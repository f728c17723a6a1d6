//! What dfu-core lets be heard: its trace lines, and its sleeps, which take no time here.

use std::cell::RefCell;
use std::ffi::c_int;
use std::fmt::{self, Write};
use std::sync::atomic::{AtomicU64, Ordering::Relaxed};

use log::{LevelFilter, Log, Metadata, Record};

const STATUS: &str = "Device status: ";
const INDEX: &str = "Device i string: ";
const WAIT: &str = "Waiting for device state: ";
const WAIT_TIME: &str = " (poll timeout: ";

/// A wait: the milliseconds announced, and whether as many were slept.
#[derive(Clone, Copy, Debug)]
pub struct Wait {
    pub announced: u64,
    pub slept: bool,
}

#[derive(Default)]
struct Heard {
    line: Line,
    status: String,
    index: Option<u8>,
    wait: Option<u64>,
}

thread_local! {
    static HEARD: RefCell<Heard> = RefCell::default();
}

/// Begins to listen to dfu-core.
pub fn listen() {
    log::set_logger(&Ear).expect("no other logger is set");
    log::set_max_level(LevelFilter::Trace);
}

/// The status' name and the string index of the last reply that was read.
pub fn reply() -> (String, u8) {
    HEARD.with_borrow_mut(|heard| {
        let index = heard.index.take().expect("the index was announced");
        (std::mem::take(&mut heard.status), index)
    })
}

/// The wait announced since this was last asked, if there is one.
pub fn wait() -> Option<Wait> {
    let announced = HEARD.with_borrow_mut(|heard| heard.wait.take())?;
    let slept = SLEPT.swap(0, Relaxed) == announced;
    Some(Wait { announced, slept })
}

/// Forgets a wait that was announced and never came to its read, as in a run that was broken off.
pub fn forget() {
    HEARD.with_borrow_mut(|heard| heard.wait = None);
    SLEPT.store(0, Relaxed);
}

/// A trace line, written out only as long as it begins like one that is looked for.
#[derive(Default)]
struct Line(String);

impl Write for Line {
    fn write_str(&mut self, part: &str) -> fmt::Result {
        let begins = |wanted: &&str| part.starts_with(*wanted);
        if self.0.is_empty() && ![STATUS, INDEX, WAIT].iter().any(begins) {
            return Err(fmt::Error);
        }
        self.0.push_str(part);
        Ok(())
    }
}

impl Heard {
    fn hear(&mut self, words: fmt::Arguments<'_>) {
        self.line.0.clear();
        if self.line.write_fmt(words).is_err() {
            return;
        }
        let line = self.line.0.as_str();
        if let Some(name) = line.strip_prefix(STATUS) {
            self.status = name.to_owned();
        } else if let Some(index) = line.strip_prefix(INDEX) {
            self.index = u8::from_str_radix(index.trim_start_matches("0x"), 16).ok();
        } else if let Some((_, time)) = line.split_once(WAIT_TIME) {
            self.wait = time.trim_end_matches(')').parse().ok();
        }
    }
}

struct Ear;

impl Log for Ear {
    fn enabled(&self, _: &Metadata<'_>) -> bool {
        true
    }

    fn log(&self, record: &Record<'_>) {
        HEARD.with_borrow_mut(|heard| heard.hear(*record.args()));
    }

    fn flush(&self) {}
}

/// Milliseconds slept since the last wait was taken.
static SLEPT: AtomicU64 = AtomicU64::new(0);

/// C's `struct timespec` on 64-bit Linux.
#[repr(C)]
pub struct Time {
    seconds: i64,
    nanoseconds: i64,
}

/// Takes the place of the system's call: counts, and sleeps nothing.
///
/// # Safety
/// `asked` points to a time, as the system's call demands.
#[no_mangle]
pub unsafe extern "C" fn nanosleep(asked: *const Time, _left: *mut Time) -> c_int {
    let Time {
        seconds,
        nanoseconds,
    } = asked.read();
    SLEPT.fetch_add((seconds * 1_000 + nanoseconds / 1_000_000) as u64, Relaxed);
    0
}

/// As `nanosleep`, for a standard library that sleeps by this call.
///
/// # Safety
/// `asked` points to a time, as the system's call demands.
#[no_mangle]
pub unsafe extern "C" fn clock_nanosleep(
    _clock: c_int,
    _flags: c_int,
    asked: *const Time,
    left: *mut Time,
) -> c_int {
    nanosleep(asked, left)
}
