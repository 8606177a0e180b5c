//! What `./namakviz bench` times: the proved runtime, and the peer that it is timed against.

pub mod plain;
pub mod stack;
pub mod texts;
pub mod timing;
#[cfg(feature = "proved")]
pub mod written;
