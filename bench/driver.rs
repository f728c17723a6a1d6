//! Times the proved functions of `crates/speed` against dfu-core and against routines in Rust, in one process and in turns; the least time of each counts.
//! Usage: driver [ROUNDS], or driver once LAYOUT, which calls each function once and is counted by callgrind: a layout by its number, and the file

mod crc;

use std::cell::Cell;
use std::convert::TryFrom;
use std::ffi::c_int;
use std::hint::black_box;
use std::time::Instant;

use dfu_core::functional_descriptor::FunctionalDescriptor;
use dfu_core::memory_layout::MemoryLayout;
use dfu_core::synchronous::DfuSync;
use dfu_core::{DfuIo, DfuProtocol};

// A slice of an exported Rattle function is a pointer and a count.
extern "C" {
    fn rt_layout(text: *const u8, length: usize, store: *mut u32, room: usize) -> u64;
    fn rt_verify(file: *const u8, length: usize) -> u64;
    fn rt_session(
        firmware: *const u8,
        length: usize,
        pages: *const u32,
        count: usize,
        address: u32,
        size: u16,
    ) -> u64;
}

const REFUSED: u64 = 1 << 63;
const PAGES: usize = 4096;
const BLOCKS: usize = 10_000;
const SIZE: u16 = 64;
const ADDRESS: u32 = 0x0800_0000;
const PAGE: u32 = 1 << 20;
const FILE: usize = 1 << 19;

fn rattle_layout(text: &str, store: &mut [u32]) -> u64 {
    unsafe { rt_layout(text.as_ptr(), text.len(), store.as_mut_ptr(), store.len()) }
}

fn rattle_verify(file: &[u8]) -> u64 {
    unsafe { rt_verify(file.as_ptr(), file.len()) }
}

/// How many pages dfu-core reads.
#[no_mangle]
#[inline(never)]
pub fn rust_layout(text: &str) -> usize {
    black_box(MemoryLayout::try_from(black_box(text)).expect("a good layout")).len()
}

fn rattle_session(firmware: &[u8], pages: &[u32]) -> u64 {
    unsafe {
        rt_session(
            firmware.as_ptr(),
            firmware.len(),
            pages.as_ptr(),
            pages.len(),
            ADDRESS,
            SIZE,
        )
    }
}

/// A device that answers at once: it takes all bytes, and shows the state that is waited for.
struct Device<'a> {
    protocol: DfuProtocol<&'a [u32]>,
    descriptor: FunctionalDescriptor,
    state: Cell<u8>,
    reads: Cell<u64>,
    writes: Cell<u64>,
}

#[derive(Debug)]
#[allow(dead_code)]
enum Fault {
    Refused(dfu_core::Error),
    Reader(std::io::Error),
}

impl From<dfu_core::Error> for Fault {
    fn from(error: dfu_core::Error) -> Self {
        Fault::Refused(error)
    }
}

impl From<std::io::Error> for Fault {
    fn from(error: std::io::Error) -> Self {
        Fault::Reader(error)
    }
}

impl<'a> DfuIo for Device<'a> {
    type Read = usize;
    type Write = usize;
    type Reset = ();
    type Error = Fault;
    type MemoryLayout = &'a [u32];

    fn read_control(&self, _: u8, _: u8, _: u16, buffer: &mut [u8]) -> Result<usize, Fault> {
        self.reads.set(self.reads.get() + 1);
        // What a device answers isn't known beforehand, so it must not be worked out when the program is built.
        let reply = black_box([0, 0, 0, 0, self.state.get(), 0]);
        buffer[..reply.len()].copy_from_slice(&reply);
        Ok(reply.len())
    }

    fn write_control(&self, _: u8, _: u8, _: u16, bytes: &[u8]) -> Result<usize, Fault> {
        self.writes.set(self.writes.get() + 1);
        self.state.set(if bytes.is_empty() { 2 } else { 5 });
        // A device sees the bytes, so they have to be there.
        black_box(bytes.as_ptr());
        Ok(bytes.len())
    }

    fn usb_reset(self) -> Result<(), Fault> {
        panic!("a tolerant device is not reset");
    }

    fn protocol(&self) -> &DfuProtocol<Self::MemoryLayout> {
        &self.protocol
    }

    fn functional_descriptor(&self) -> &FunctionalDescriptor {
        &self.descriptor
    }
}

/// How many reads and writes dfu-core's download asks.
fn rust_session(firmware: &[u8], pages: &[u32]) -> (u64, u64) {
    let device = Device {
        protocol: DfuProtocol::Dfuse {
            address: ADDRESS,
            memory_layout: pages,
        },
        descriptor: FunctionalDescriptor {
            can_download: true,
            can_upload: false,
            manifestation_tolerant: true,
            will_detach: false,
            detach_timeout: 0,
            transfer_size: SIZE,
            dfu_version: (1, 0x1a),
        },
        state: Cell::new(2),
        reads: Cell::new(0),
        writes: Cell::new(0),
    };
    let dfu = DfuSync::new(device)
        .download_from_slice(firmware)
        .expect("no refusal")
        .expect("the device stays");
    let device = dfu.into_inner();
    (device.reads.get(), device.writes.get())
}

/// The least seconds of one call of each of the two, which take turns.
fn least(rounds: u32, calls: u32, mut rattle: impl FnMut(), mut rust: impl FnMut()) -> (f64, f64) {
    let mut best = (f64::MAX, f64::MAX);
    for _ in 0..rounds {
        let from = Instant::now();
        (0..calls).for_each(|_| rattle());
        best.0 = best.0.min(from.elapsed().as_secs_f64());
        let from = Instant::now();
        (0..calls).for_each(|_| rust());
        best.1 = best.1.min(from.elapsed().as_secs_f64());
    }
    (best.0 / f64::from(calls), best.1 / f64::from(calls))
}

fn show(what: &str, other: &str, per: &str, parts: u64, (rattle, rust): (f64, f64)) {
    let ns = |seconds: f64| seconds * 1e9 / parts as f64;
    println!(
        "{what}: {:.3} of {other} ({:.2} and {:.2} ns {per})",
        rattle / rust,
        ns(rattle),
        ns(rust)
    );
}

fn layout(what: &str, text: &str, pages: usize, (per, parts): (&str, usize), rounds: u32) {
    let mut store = [0u32; PAGES];
    let told = rattle_layout(text, &mut store);
    let read = MemoryLayout::try_from(text).expect("a good layout");
    assert_eq!(told, pages as u64, "{what}: the number of pages");
    assert_eq!(&store[..pages], &read[..], "{what}: the pages");
    let times = least(
        rounds,
        200,
        || {
            black_box(rattle_layout(black_box(text), black_box(&mut store)));
        },
        || {
            black_box(rust_layout(black_box(text)));
        },
    );
    show(what, "dfu-core", per, parts as u64, times);
}

/// A refusal has document 01's number, and leaves the store; dfu-core refuses the same texts.
fn refusals() {
    for (text, number) in [("1*1Kg,x", 9), ("a*1Kg", 10), ("1*aKg", 11), ("1*1Gg", 12)] {
        let mut store = [7u32; 2];
        assert_eq!(rattle_layout(text, &mut store), REFUSED + number, "{text}");
        assert_eq!(store, [7, 7], "{text}");
        assert!(MemoryLayout::try_from(text).is_err(), "{text}");
    }
    assert_eq!(rattle_layout("3*1Kg", &mut [0; 2]), REFUSED + 22);
}

fn session(rounds: u32) {
    let firmware: Vec<u8> = (0..BLOCKS * SIZE as usize)
        .map(|i| (i % 251) as u8)
        .collect();
    let pages = [PAGE];
    let (reads, writes) = rust_session(&firmware, &pages);
    assert_eq!(
        rattle_session(&firmware, &pages),
        reads + writes,
        "requests"
    );
    assert_eq!(
        writes,
        BLOCKS as u64 + 3,
        "the erase, the address, the blocks, the empty block"
    );
    assert_eq!(
        rattle_session(&firmware, &[1]),
        0,
        "no page is left to erase"
    );
    // Each write is followed by one wait, since the device is never busy.
    let told = reads + 2 * writes;
    let what = format!(
        "session, {BLOCKS} blocks, {} requests, {told} told answers",
        reads + writes
    );
    let times = least(
        rounds,
        1,
        || {
            black_box(rattle_session(black_box(&firmware), black_box(&pages)));
        },
        || {
            black_box(rust_session(black_box(&firmware), black_box(&pages)));
        },
    );
    show(&what, "dfu-core", "an answer", told, times);
}

/// The texts that are read: a name, the text, its pages, and what the time is divided by.
fn texts() -> Vec<(String, String, usize, (&'static str, usize))> {
    let mut texts = vec![];
    for (pages, piece) in [(512, "8*1Kg"), (PAGES, "64*1Kg")] {
        let per = ("a page", pages);
        texts.push((format!("layout, {pages} pages in 64 pieces"), [piece; 64].join(","), pages, per));
        texts.push((format!("layout, {pages} pages in 1 piece"), format!("{pages}*1Kg"), pages, per));
    }
    // The text of bench/digits: ten-digit numbers, but for the last piece, which fills 1,024 bytes.
    let text = "0000000001*0000000001Kg,".repeat(42) + "000001*0000001Kg";
    let digits = text.bytes().filter(u8::is_ascii_digit).count();
    texts.push(("layout, 1,024 bytes with leading zeros, 853 digits".into(), text, 43, ("a digit", digits)));
    texts
}

/// A file of 512 KiB with a suffix, whose CRC is the complement of zlib's.
fn file() -> Vec<u8> {
    let mut file: Vec<u8> = (0..FILE - 16).map(|i| (i * i % 251) as u8).collect();
    file.extend([0x00, 0x01, 0x11, 0xdf, 0x83, 0x04, 0x00, 0x01]);
    file.extend(b"UFD");
    file.push(16);
    let crc = crc::rust_bytewise(&file);
    file.extend(crc.to_le_bytes());
    file
}

type Routine = fn(&[u8]) -> u32;

const ROUTINES: [(&str, Routine); 3] = [
    ("Rust bytewise", crc::rust_bytewise),
    ("Rust slicing by 16", crc::rust_by_sixteen),
    ("Rust slicing by 16, the register last", crc::rust_by_sixteen_last),
];

/// Whether a file's CRC is right, by a routine in Rust: what `rt_verify` tells, but for the suffix's other fields.
fn is_right(file: &[u8], crc: Routine) -> bool {
    let (before, stored) = file.split_at(file.len() - 4);
    crc(before).to_le_bytes() == stored
}

fn verify(rounds: u32) {
    let file = file();
    let mut damaged = file.clone();
    damaged[1000] ^= 1;
    assert_eq!(rattle_verify(&file), FILE as u64 - 16, "the firmware's length");
    assert_eq!(rattle_verify(&damaged), REFUSED + 43, "a damaged file");
    for (name, crc) in ROUTINES {
        assert!(is_right(&file, crc) && !is_right(&damaged, crc), "{name}");
        let times = least(
            rounds,
            4,
            || {
                black_box(rattle_verify(black_box(&file)));
            },
            || {
                black_box(is_right(black_box(&file), crc));
            },
        );
        show("file of 512 KiB, its CRC verified", name, "a byte", FILE as u64, times);
    }
}

/// One call of each, for callgrind to count.
fn once(layout: usize) {
    let (_, text, _, _) = &texts()[layout];
    let mut store = [0u32; PAGES];
    black_box(rattle_layout(black_box(text), black_box(&mut store)));
    black_box(rust_layout(black_box(text)));
    let file = file();
    black_box(rattle_verify(black_box(&file)));
    for (_, crc) in ROUTINES {
        black_box(is_right(black_box(&file), crc));
    }
}

fn main() {
    let words: Vec<String> = std::env::args().skip(1).collect();
    let number = |at: usize| words[at].parse().expect("a number");
    if words.first().map(String::as_str) == Some("once") {
        return once(number(1));
    }
    let rounds = if words.is_empty() { 1000 } else { number(0) } as u32;
    refusals();
    for (what, text, pages, per) in texts() {
        layout(&what, &text, pages, per, rounds);
    }
    verify(rounds);
    session(rounds);
}

/// Takes the place of the system's call, so that dfu-core's waits take no time.
#[no_mangle]
pub extern "C" fn nanosleep(_asked: *const u8, _left: *mut u8) -> c_int {
    0
}

/// As `nanosleep`, for a standard library that sleeps by this call.
#[no_mangle]
pub extern "C" fn clock_nanosleep(
    _clock: c_int,
    _flags: c_int,
    _asked: *const u8,
    _left: *mut u8,
) -> c_int {
    0
}
