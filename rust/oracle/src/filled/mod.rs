//! What the Rust's text leans on and does not hold, filled in from the proposal. README.md lists each item.

#[allow(dead_code)]
pub(crate) mod error;
#[allow(dead_code)]
pub(crate) mod ixdtf;
#[allow(dead_code)]
pub(crate) mod num_traits;
#[allow(dead_code)]
pub(crate) mod plain;
#[allow(dead_code)]
pub(crate) mod root;
pub(crate) mod timezone_provider;
#[allow(dead_code)]
pub(crate) mod writeable;
