//! The answers that need no session: descriptor, reply, layout, interface string, detach.

use std::cell::Cell;
use std::collections::HashMap;
use std::fmt::Write;
use std::sync::LazyLock;

use dfu_core::functional_descriptor::{Error as DescriptorError, FunctionalDescriptor};
use dfu_core::get_status::{Step, WaitState};
use dfu_core::memory_layout::MemoryLayout;
use dfu_core::{DfuIo, DfuProtocol, DfuSansIo, Error, State, Status};

use crate::guard::{guarded, Aside};
use crate::refusal::{self, Refusal};
use crate::{domain, heard};

pub fn descriptor(bytes: &[u8]) -> Result<String, Aside> {
    let read = guarded(|| FunctionalDescriptor::from_bytes(bytes))?;
    Ok(match read {
        None => "none".to_owned(),
        Some(Err(DescriptorError::DataTooShort(got))) => Refusal::new(14, &[got]).to_string(),
        Some(Ok(d)) => format!(
            "{} {} {} {} {} {} {} {}",
            u8::from(d.can_download),
            u8::from(d.can_upload),
            u8::from(d.manifestation_tolerant),
            u8::from(d.will_detach),
            d.detach_timeout,
            d.transfer_size,
            d.dfu_version.0,
            d.dfu_version.1,
        ),
    })
}

/// dfu-core hands a reply's record to its own commands only. So it is read in two waits: one that no state but 255
/// suits, whose refusal names the state, and one that takes this state for busy and names the time. Status and index
/// are heard.
pub fn reply(bytes: &[u8]) -> Result<String, Aside> {
    if !domain::reply(bytes) {
        return Err(Aside::Outside);
    }
    let state = match judge(bytes, State::Other(255), State::Other(255))? {
        Ok(_) => State::Other(255),
        Err(Error::InvalidState { got, .. }) => got,
        Err(error) => return Ok(refusal::of(&error).to_string()),
    };
    let other = match state {
        State::DfuIdle => State::DfuError,
        _ => State::DfuIdle,
    };
    let Ok(Step::Wait(_, poll)) = judge(bytes, state, other)?.map(WaitState::next) else {
        panic!("a busy reply does not wait");
    };
    let (status, index) = heard::reply();
    let status = STATUS_NUMBERS[&status];
    Ok(format!("{status} {poll} {} {index}", u8::from(state)))
}

/// Reads a reply in a wait for the two states.
fn judge(bytes: &[u8], busy: State, target: State) -> Result<Result<WaitState<()>, Error>, Aside> {
    guarded(|| {
        let Step::Wait(query, _) = WaitState::new(busy, target, ()).next() else {
            panic!("a new wait is over");
        };
        let mut buffer = [0; 6];
        let (received, _) = query.get_status(&mut buffer);
        received.chain(bytes)?
    })
}

/// Each status by the name under which it is announced.
static STATUS_NUMBERS: LazyLock<HashMap<String, u8>> = LazyLock::new(|| {
    (0..=255)
        .map(|byte| (format!("{:?}", Status::from(byte)), byte))
        .collect()
});

pub fn layout(store: usize, text: &[u8]) -> Result<String, Aside> {
    let text = domain::layout(store, text).ok_or(Aside::Outside)?;
    let read = guarded(|| MemoryLayout::try_from(text))?;
    Ok(match read {
        Ok(pages) => format!("ok {}", counted(&pages)),
        Err(error) => refusal::of_layout(text, &error).to_string(),
    })
}

/// Only DfuSe reads its text, so that of another version may be anything.
pub fn interface(version: (u8, u8), store: usize, text: &[u8]) -> Result<String, Aside> {
    let text = match version {
        (1, 0x1a) => domain::interface(store, text).ok_or(Aside::Outside)?.into(),
        _ => String::from_utf8_lossy(text),
    };
    let read = guarded(|| DfuProtocol::new(&text, version))?;
    Ok(match read {
        Ok(DfuProtocol::Dfu) => "plain".to_owned(),
        Ok(DfuProtocol::Dfuse {
            address,
            memory_layout,
        }) => format!("dfuse {address} {}", counted(&memory_layout)),
        Err(Error::MemoryLayout(error)) => {
            let (_, layout) = text.rsplit_once('/').expect("a layout was read");
            refusal::of_layout(layout, &error).to_string()
        }
        Err(error) => refusal::of(&error).to_string(),
    })
}

/// The number of pages, and each page.
fn counted(pages: &[u32]) -> String {
    let mut words = pages.len().to_string();
    for page in pages {
        write!(words, " {page}").expect("a string takes every word");
    }
    words
}

pub fn detach() -> Result<String, Aside> {
    let recorder = Recorder {
        request: Cell::new(None),
    };
    let sent = guarded(|| DfuSansIo::new(NO_DEVICE).detach().execute(&recorder))?;
    sent.expect("the recorder takes every request");
    let (kind, request, value) = recorder.request.get().expect("a request was made");
    Ok(format!("{kind} {request} {value}"))
}

const NO_DEVICE: FunctionalDescriptor = FunctionalDescriptor {
    can_download: false,
    can_upload: false,
    manifestation_tolerant: false,
    will_detach: false,
    detach_timeout: 0,
    transfer_size: 0,
    dfu_version: (0, 0),
};

/// Keeps the one request without data that it is given.
struct Recorder {
    request: Cell<Option<(u8, u8, u16)>>,
}

impl DfuIo for Recorder {
    type Read = usize;
    type Write = usize;
    type Reset = ();
    type Error = Error;
    type MemoryLayout = MemoryLayout;

    fn read_control(&self, _: u8, _: u8, _: u16, _: &mut [u8]) -> Result<usize, Error> {
        unreachable!("a detach reads nothing")
    }

    fn write_control(
        &self,
        kind: u8,
        request: u8,
        value: u16,
        data: &[u8],
    ) -> Result<usize, Error> {
        assert!(data.is_empty());
        self.request.set(Some((kind, request, value)));
        Ok(0)
    }

    fn usb_reset(self) -> Result<(), Error> {
        unreachable!("a detach resets nothing")
    }

    fn protocol(&self) -> &DfuProtocol<MemoryLayout> {
        &DfuProtocol::Dfu
    }

    fn functional_descriptor(&self) -> &FunctionalDescriptor {
        &NO_DEVICE
    }
}
