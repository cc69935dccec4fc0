//! The Rust of docs/src as it stands, with what it lacks made up for, and a bridge that answers calls in words. The crate
//! `checked` is this one built once more, with overflow checks.
mod bridge;
pub mod error;
mod rates;
include!(concat!(env!("OUT_DIR"), "/rust/root.rs"));

pub use bridge::{Bridge, Rated};
pub use devices::bma150::Bma150;
pub use error::Error;
pub use time::Time;
