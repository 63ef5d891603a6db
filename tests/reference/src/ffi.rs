//! The library's functions, as its C header declares them.
use crate::records::*;
use std::mem::{offset_of, size_of};

/// A part of a buffer that was lent: `len` bytes from `at`.
#[repr(C)]
#[derive(Clone, Copy, Debug)]
pub struct Part {
    pub at: *const u8,
    pub len: usize,
}

// The answer as the end of the header lays it out: K9 gave it three fields more.
const _: () = assert!(size_of::<Answer>() == 40 && offset_of!(Answer, kind) == 2 && offset_of!(Answer, status) == 3);
const _: () = assert!(offset_of!(Answer, frames) == 8 && offset_of!(Answer, len) == 24 && offset_of!(Answer, sense) == 32);
const _: () = assert!(size_of::<Part>() == 16 && offset_of!(Part, len) == 8);
// The records that K7, K4 and K5 moved.
const _: () = assert!(size_of::<Transfer>() == 40 && offset_of!(Transfer, write) == 30);
const _: () = assert!(offset_of!(Transfer, sas2) == 31 && offset_of!(Transfer, value) == 32 && offset_of!(Transfer, irt) == 34);
const _: () = assert!(offset_of!(Transfer, start) == 36);
const _: () = assert!(size_of::<Sender>() == 88 && offset_of!(Sender, burst) == 40 && offset_of!(Sender, next) == 56);
const _: () = assert!(offset_of!(Sender, nak) == 68 && offset_of!(Sender, retries) == 72 && offset_of!(Sender, frames) == 80);
const _: () = assert!(size_of::<Receiver>() == 60 && offset_of!(Receiver, base) == 40 && offset_of!(Receiver, ended) == 57);
const _: () = assert!(size_of::<Writer>() == 112 && offset_of!(Writer, reached) == 88 && offset_of!(Writer, taken) == 96);
const _: () = assert!(size_of::<Target>() == 76 && offset_of!(Target, retries) == 60 && offset_of!(Target, stored) == 71);
const _: () = assert!(offset_of!(Target, elapsed) == 72);
const _: () = assert!(size_of::<Responder>() == 52 && offset_of!(Responder, len) == 40 && offset_of!(Responder, ended) == 49);

#[rustfmt::skip]
extern "C" {
    pub fn ssp_interface_4() -> u32;

    pub fn ssp_read_target_set_up(s: *mut Sender, t: Transfer) -> Answer;
    pub fn ssp_read_target_next_frame(s: *mut Sender, data: *const u8, data_len: usize, out: *mut u8, out_len: usize) -> Answer;
    pub fn ssp_read_target_ack_received(s: *mut Sender) -> Answer;
    pub fn ssp_read_target_nak_received(s: *mut Sender) -> Answer;
    pub fn ssp_read_target_ack_nak_timeout(s: *mut Sender) -> Answer;
    pub fn ssp_read_target_connection_lost(s: *mut Sender) -> Answer;
    pub fn ssp_read_target_nexus_lost(s: *mut Sender) -> Answer;
    pub fn ssp_read_target_frame_received(s: *mut Sender, bytes: *const u8, bytes_len: usize) -> Answer;

    pub fn ssp_read_initiator_set_up(r: *mut Receiver, t: Transfer) -> Answer;
    pub fn ssp_read_initiator_frame_received(r: *mut Receiver, bytes: *const u8, bytes_len: usize, data: *mut u8, data_len: usize) -> Answer;
    pub fn ssp_read_initiator_nexus_lost(r: *mut Receiver) -> Answer;

    pub fn ssp_write_initiator_set_up(w: *mut Writer, t: Transfer) -> Answer;
    pub fn ssp_write_initiator_next_frame(w: *mut Writer, data: *const u8, data_len: usize, out: *mut u8, out_len: usize) -> Answer;
    pub fn ssp_write_initiator_ack_received(w: *mut Writer) -> Answer;
    pub fn ssp_write_initiator_nak_received(w: *mut Writer) -> Answer;
    pub fn ssp_write_initiator_ack_nak_timeout(w: *mut Writer) -> Answer;
    pub fn ssp_write_initiator_connection_lost(w: *mut Writer) -> Answer;
    pub fn ssp_write_initiator_nexus_lost(w: *mut Writer) -> Answer;
    pub fn ssp_write_initiator_frame_received(w: *mut Writer, bytes: *const u8, bytes_len: usize) -> Answer;

    pub fn ssp_write_target_set_up(t: *mut Target, transfer: Transfer) -> Answer;
    pub fn ssp_write_target_next_frame(t: *mut Target, out: *mut u8, out_len: usize) -> Answer;
    pub fn ssp_write_target_ack_received(t: *mut Target) -> Answer;
    pub fn ssp_write_target_nak_received(t: *mut Target) -> Answer;
    pub fn ssp_write_target_ack_nak_timeout(t: *mut Target) -> Answer;
    pub fn ssp_write_target_connection_lost(t: *mut Target) -> Answer;
    pub fn ssp_write_target_nexus_lost(t: *mut Target) -> Answer;
    pub fn ssp_write_target_time_reported(t: *mut Target, milliseconds: u16) -> Answer;
    pub fn ssp_write_target_frame_received(t: *mut Target, bytes: *const u8, bytes_len: usize, data: *mut u8, data_len: usize) -> Answer;

    pub fn ssp_response_set_up(r: *mut Responder, t: Transfer, len: usize) -> Answer;
    pub fn ssp_response_next_frame(r: *mut Responder, iu: *const u8, iu_len: usize, out: *mut u8, out_len: usize) -> Answer;
    pub fn ssp_response_ack_received(r: *mut Responder) -> Answer;
    pub fn ssp_response_nak_received(r: *mut Responder) -> Answer;
    pub fn ssp_response_ack_nak_timeout(r: *mut Responder) -> Answer;
    pub fn ssp_response_connection_lost(r: *mut Responder) -> Answer;
    pub fn ssp_response_nexus_lost(r: *mut Responder) -> Answer;

    pub fn ssp_frame_write(h: Header, iu: *const u8, iu_len: usize, out: *mut u8, out_len: usize) -> Answer;
    pub fn ssp_frame_write_data(h: Header, iu: *const u8, iu_len: usize, out: *mut u8, out_len: usize) -> Answer;
    pub fn ssp_frame_write_header(h: Header, iu: *const u8, iu_len: usize, out: *mut u8, out_len: usize) -> Answer;
    pub fn ssp_frame_read(h: *mut Header, bytes: *const u8, bytes_len: usize) -> Answer;
    pub fn ssp_xfer_rdy_write(x: XferRdy, out: *mut u8, out_len: usize) -> Answer;
    pub fn ssp_xfer_rdy_read(x: *mut XferRdy, iu: *const u8, iu_len: usize) -> Answer;
    pub fn ssp_response_iu_read(iu: *const u8, iu_len: usize) -> Answer;
    pub fn ssp_sense_data(part: *mut Part, answer: Answer, bytes: *const u8, bytes_len: usize) -> usize;
}
