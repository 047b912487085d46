//! An independent second implementation of the cycle schedules of document 01
//! and the writer of document 02, made to be compared with the proved one.

pub mod draft;
#[cfg(all(feature = "proved", target_arch = "x86_64"))]
pub mod ffi;
#[cfg(all(feature = "proved", not(target_arch = "x86_64")))]
#[path = "peer.rs"]
pub mod ffi;
pub mod generate;
pub mod lent;
pub mod listing;
pub mod oracle;

use oracle::{Answer, Content, Reading, Writing};
use std::ops::Range;

/// The five public functions of one implementation, so that a test can put
/// the same question to each.
pub struct Implementation {
    pub name: &'static str,
    pub read: fn(&[u8]) -> Reading,
    pub schedule: fn(&[u8], &mut [u64], &mut [u8]) -> Answer,
    pub check: fn(&[u8], &[u8]) -> Answer,
    pub rows_of: fn(&[u8], &[u8], u32) -> Range<usize>,
    pub write: fn(&Content, &mut [u8]) -> Writing,
}

const ORACLE: Implementation = Implementation {
    name: "oracle",
    read: oracle::read,
    schedule: oracle::schedule,
    check: oracle::check,
    rows_of: oracle::rows_of,
    write: oracle::write,
};

#[cfg(feature = "proved")]
const PROVED: Implementation = Implementation {
    name: "proved library",
    read: ffi::read,
    schedule: ffi::schedule,
    check: ffi::check,
    rows_of: ffi::rows_of,
    write: ffi::write,
};

/// Every implementation that this build can run.
pub fn implementations() -> Vec<Implementation> {
    vec![
        ORACLE,
        #[cfg(feature = "proved")]
        PROVED,
    ]
}
