//! Hosts that use the peripheral on a bus with others, and traces of what they do; scripts for several units.
pub mod bench;
pub mod exact;
pub mod host;
pub mod random;
mod script;
mod spoil;
pub mod trace;
