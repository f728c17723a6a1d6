//! dfu-core as the oracle: cases are read, dfu-core is asked, and its answers are written in the case format's words.

pub mod answer;
pub mod ask;
pub mod case;
pub mod device;
mod domain;
pub mod grammar;
pub mod guard;
mod heard;
mod leaves;
mod refusal;
pub mod runs;
mod script;

/// To be called once, before the first case: dfu-core is listened to, and its panics make no noise.
pub fn prepare() {
    guard::hush();
    heard::listen();
}
