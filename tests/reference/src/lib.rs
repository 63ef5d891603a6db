//! The reference: document 01 in Rust, written from the paper; and what compares the library with it.
pub mod check;
pub mod ffi;
pub mod frame;
pub mod ladder;
pub mod read_initiator;
pub mod read_target;
pub mod receiver;
pub mod records;
pub mod response;
pub mod sender;
pub mod write_initiator;
pub mod write_target;
