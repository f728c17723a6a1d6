//! dfu-core's answer to a case.

use std::fmt::Write;

use crate::case::Case;
use crate::guard::Aside;
use crate::{leaves, script};

/// Writes the answer's lines. The last one says `outside` if dfu-core has none that could be compared.
pub fn answer(case: &Case, out: &mut String) -> Result<(), Aside> {
    let (name, words) = match case {
        Case::Descriptor(bytes) => ("descriptor", leaves::descriptor(bytes)),
        Case::Reply(bytes) => ("reply", leaves::reply(bytes)),
        Case::Layout { store, text } => ("layout", leaves::layout(*store, text)),
        Case::Interface {
            major,
            minor,
            store,
            text,
        } => ("string", leaves::interface((*major, *minor), *store, text)),
        Case::Detach => ("detach", leaves::detach()),
        Case::Begin(begin) => ("begin", script::begin(begin)),
        Case::Session(session) => match script::session(session, out) {
            Ok(()) => return Ok(()),
            Err(aside) => ("session", Err(aside)),
        },
    };
    let shown = words.as_deref().unwrap_or("outside");
    writeln!(out, "{name} {shown}").expect("a string takes every line");
    words.map(|_| ())
}
