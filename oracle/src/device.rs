//! dfu-core's blocking download against a host that is asked for one answer after the other.

use std::cell::{Cell, RefCell};
use std::io;
use std::sync::LazyLock;

use dfu_core::functional_descriptor::FunctionalDescriptor;
use dfu_core::synchronous::DfuSync;
use dfu_core::{DfuIo, DfuProtocol, Error};

use crate::ask::{Ask, Awaited, Data, End, Request};
use crate::case::{Begin, Kind, Session, Target, Told, LONGEST_FIRMWARE};
use crate::guard::{guarded, Aside};
use crate::heard;
use crate::refusal::{self, Refusal};

/// Whoever plays the rest of the world to dfu-core.
pub trait Host {
    /// The answer to what is asked, of the kind that is awaited; with none the download is broken off.
    fn told(&mut self, ask: &Ask) -> Option<Told>;
}

/// Runs a session's download. No end: the host broke it off.
pub fn download(session: &Session, host: &mut impl Host) -> Result<Option<End>, Aside> {
    let descriptor = FunctionalDescriptor {
        manifestation_tolerant: session.tolerant,
        will_detach: session.will_detach,
        ..descriptor(session.target.size)
    };
    let firmware = &RULED_FIRMWARE[..session.length];
    let device = Device::new(&session.target, &session.pages, descriptor, firmware, host);
    run(device, session.target.override_address)
}

/// Runs a download by its numbers alone; a firmware longer than can be lent is lent as the longest.
pub fn begin(begin: &Begin, host: &mut impl Host) -> Result<Option<End>, Aside> {
    let pages = vec![0; begin.page_count as usize];
    let length = begin.length.min(BLANK_FIRMWARE.len() as u64) as usize;
    let firmware = &BLANK_FIRMWARE[..length];
    let descriptor = descriptor(begin.target.size);
    let device = Device::new(&begin.target, &pages, descriptor, firmware, host);
    run(device, begin.target.override_address)
}

fn run<H: Host>(
    device: Device<'_, H>,
    override_address: Option<u32>,
) -> Result<Option<End>, Aside> {
    heard::forget();
    let firmware = device.firmware;
    let ended = guarded(|| {
        let mut dfu = DfuSync::new(device);
        if let Some(address) = override_address {
            dfu.override_address(address);
        }
        dfu.download_from_slice(firmware).map(|dfu| dfu.is_some())
    })?;
    Ok(match ended {
        Ok(true) => Some(End::Stays),
        Ok(false) => Some(End::Reset),
        Err(Fault::Refused(error)) => Some(End::Refused(refusal::of(&error))),
        Err(Fault::Failed) => Some(End::Refused(Refusal::new(26, &[]))),
        Err(Fault::BrokenOff) => None,
        Err(Fault::Reader(error)) => panic!("the firmware could not be read: {error}"),
    })
}

fn descriptor(transfer_size: u16) -> FunctionalDescriptor {
    FunctionalDescriptor {
        can_download: true,
        can_upload: false,
        manifestation_tolerant: false,
        will_detach: false,
        detach_timeout: 0,
        transfer_size,
        dfu_version: (1, 0x10),
    }
}

/// The longest firmware of a session, by the case format's rule.
static RULED_FIRMWARE: LazyLock<Vec<u8>> = LazyLock::new(|| {
    (0..LONGEST_FIRMWARE)
        .map(|i| ((i * 7 + i / 256) % 251) as u8)
        .collect()
});

/// The longest firmware of a start: past what 32 bits count. Its zeros take up no memory, since hardly any is read.
static BLANK_FIRMWARE: LazyLock<Vec<u8>> = LazyLock::new(|| vec![0; (1 << 32) + 1]);

/// The device as dfu-core sees it.
struct Device<'a, H> {
    host: RefCell<&'a mut H>,
    protocol: DfuProtocol<&'a [u32]>,
    descriptor: FunctionalDescriptor,
    firmware: &'a [u8],
    progress: Cell<Progress>,
}

/// How far a download has come, by the requests and answers that passed.
#[derive(Clone, Copy)]
struct Progress {
    accepted: usize,
    blocks_begun: bool,
    awaited: Awaited,
}

/// What ends a download early.
enum Fault {
    Refused(Error),
    Reader(io::Error),
    Failed,
    BrokenOff,
}

impl From<Error> for Fault {
    fn from(error: Error) -> Self {
        Fault::Refused(error)
    }
}

impl From<io::Error> for Fault {
    fn from(error: io::Error) -> Self {
        Fault::Reader(error)
    }
}

const DNLOAD: u8 = 1;

impl<'a, H: Host> Device<'a, H> {
    fn new(
        target: &Target,
        pages: &'a [u32],
        descriptor: FunctionalDescriptor,
        firmware: &'a [u8],
        host: &'a mut H,
    ) -> Self {
        Self {
            host: RefCell::new(host),
            protocol: match target.kind {
                Kind::Plain => DfuProtocol::Dfu,
                Kind::Dfuse => DfuProtocol::Dfuse {
                    address: target.address,
                    memory_layout: pages,
                },
            },
            descriptor,
            firmware,
            progress: Cell::new(Progress {
                accepted: 0,
                blocks_begun: false,
                awaited: Awaited::Opening,
            }),
        }
    }

    fn ask(&self, ask: Ask) -> Result<Told, Fault> {
        match self.host.borrow_mut().told(&ask) {
            None => Err(Fault::BrokenOff),
            Some(Told::Failure) => Err(Fault::Failed),
            Some(told) => Ok(told),
        }
    }

    /// What the bytes of a write are. DfuSe's commands have value 0 and come before its first block.
    fn data(&self, request: Request, bytes: &[u8]) -> Data {
        let progress = self.progress.get();
        let dfuse = matches!(self.protocol, DfuProtocol::Dfuse { .. });
        if request.number != DNLOAD && bytes.is_empty() {
            return Data::Nothing;
        }
        match <[u8; 5]>::try_from(bytes) {
            Ok(command) if dfuse && !progress.blocks_begun && request.value == 0 => {
                Data::Command(command)
            }
            _ => Data::Firmware {
                place: progress.accepted,
                length: bytes.len(),
                right: self.firmware[progress.accepted..].starts_with(bytes),
            },
        }
    }

    /// Notes a write that was told its count: what is accepted, and which states the rules await now. A block was taken
    /// whole: with another count it is outside the domain.
    fn written(&self, data: Data) {
        let mut progress = self.progress.get();
        let after_empty_block = match self.descriptor.manifestation_tolerant {
            true => Awaited::After { busy: 7, target: 2 },
            false => Awaited::After { busy: 7, target: 7 },
        };
        progress.awaited = match data {
            Data::Nothing => progress.awaited,
            Data::Firmware { length: 0, .. } => after_empty_block,
            _ => Awaited::After { busy: 4, target: 5 },
        };
        if let Data::Firmware { length, .. } = data {
            progress.blocks_begun = true;
            progress.accepted += length;
        }
        self.progress.set(progress);
    }
}

impl<'a, H: Host> DfuIo for Device<'a, H> {
    type Read = usize;
    type Write = usize;
    type Reset = ();
    type Error = Fault;
    type MemoryLayout = &'a [u32];

    /// A wait doesn't pass through here; it has been heard, and always comes before a read.
    fn read_control(
        &self,
        kind: u8,
        number: u8,
        value: u16,
        buffer: &mut [u8],
    ) -> Result<usize, Fault> {
        if let Some(wait) = heard::wait() {
            self.ask(Ask::Wait(wait))?;
        }
        let request = Request {
            kind,
            number,
            value,
        };
        let awaited = self.progress.get().awaited;
        match self.ask(Ask::Read { request, awaited })? {
            Told::Reply(bytes) => {
                buffer[..bytes.len()].copy_from_slice(&bytes);
                Ok(bytes.len())
            }
            told => panic!("a reply is awaited, not {told}"),
        }
    }

    fn write_control(
        &self,
        kind: u8,
        number: u8,
        value: u16,
        bytes: &[u8],
    ) -> Result<usize, Fault> {
        let request = Request {
            kind,
            number,
            value,
        };
        let data = self.data(request, bytes);
        match self.ask(Ask::Write { request, data })? {
            Told::Count(count) => {
                self.written(data);
                Ok(count as usize)
            }
            told => panic!("a count is awaited, not {told}"),
        }
    }

    fn usb_reset(self) -> Result<(), Fault> {
        self.ask(Ask::Reset).map(|_| ())
    }

    fn protocol(&self) -> &DfuProtocol<Self::MemoryLayout> {
        &self.protocol
    }

    fn functional_descriptor(&self) -> &FunctionalDescriptor {
        &self.descriptor
    }
}
