//! What is timed: the calls of library and reference, and plain copies. All go through pointers that the compiler cannot see behind, so that with
//! link-time optimisation too each call is a real one through the C boundary, on every side.
use reference::ffi::*;
use reference::records::*;
use reference::{read_initiator, read_target, write_initiator, write_target};
use std::hint::black_box;

type Ask<S> = unsafe extern "C" fn(*mut S, *const u8, usize, *mut u8, usize) -> Answer;
type Take<R> = unsafe extern "C" fn(*mut R, *const u8, usize, *mut u8, usize) -> Answer;
/// An ACK or a NAK.
pub type Confirm<S> = unsafe extern "C" fn(*mut S) -> Answer;
pub type Copies = unsafe extern "C" fn(*mut u8, *const u8, usize) -> *mut u8;

extern "C" {
    fn memcpy(to: *mut u8, from: *const u8, n: usize) -> *mut u8;
}

/// The three calls of a faultless transfer, of one side: a frame is asked for, it arrives, its ACK arrives. And that of a NAK.
pub struct Calls<S, R> {
    pub ask: Ask<S>,
    pub take: Take<R>,
    pub ack: Confirm<S>,
    pub nak: Confirm<S>,
}

/// A command before its first frame, and the calls of library and reference.
pub struct Command<S, R> {
    pub sender: S,
    pub receiver: R,
    pub sides: [Calls<S, R>; 2],
}

/// The reference behind the same boundary as the library.
macro_rules! boundary {
    ($ask:ident, $take:ident, $ack:ident, $nak:ident, $s:ty, $r:ty, $send:ident, $receive:ident) => {
        unsafe extern "C" fn $ask(s: *mut $s, data: *const u8, n: usize, out: *mut u8, m: usize) -> Answer {
            $send::next_frame(&mut *s, std::slice::from_raw_parts(data, n), std::slice::from_raw_parts_mut(out, m))
        }
        unsafe extern "C" fn $take(r: *mut $r, bytes: *const u8, n: usize, data: *mut u8, m: usize) -> Answer {
            $receive::frame_received(&mut *r, std::slice::from_raw_parts(bytes, n), std::slice::from_raw_parts_mut(data, m))
        }
        unsafe extern "C" fn $ack(s: *mut $s) -> Answer {
            $send::ack_received(&mut *s)
        }
        unsafe extern "C" fn $nak(s: *mut $s) -> Answer {
            $send::nak_received(&mut *s)
        }
    };
}
boundary!(read_ask, read_take, read_ack, read_nak, Sender, Receiver, read_target, read_initiator);
boundary!(write_ask, write_take, write_ack, write_nak, Writer, Target, write_initiator, write_target);

fn calls<S, R>(ask: Ask<S>, take: Take<R>, [ack, nak]: [Confirm<S>; 2]) -> Calls<S, R> {
    Calls { ask: black_box(ask), take: black_box(take), ack: black_box(ack), nak: black_box(nak) }
}

pub fn copies() -> Copies {
    black_box(memcpy)
}

/// A transfer at the port that sends the data.
pub fn transfer(write: bool, count: usize, size: usize, window: usize) -> Transfer {
    let count = count as u32;
    Transfer {
        count,
        size: size as u32,
        window: window as u32,
        limit: 3,
        burst: count,
        local: 0x12_3456,
        remote: 0xab_cdef,
        tag: 0x12,
        write,
        ..Transfer::default()
    }
}

/// The same transfer at the other end.
fn other(t: Transfer) -> Transfer {
    Transfer { local: t.remote, remote: t.local, ..t }
}

pub fn read(t: Transfer) -> Command<Sender, Receiver> {
    let (mut sender, mut receiver) = (Sender::default(), Receiver::default());
    assert!(read_target::set_up(&mut sender, t).what == READY && read_initiator::set_up(&mut receiver, other(t)).what == READY);
    let confirmed: [Confirm<Sender>; 2] = [ssp_read_target_ack_received, ssp_read_target_nak_received];
    let library = calls(ssp_read_target_next_frame, ssp_read_initiator_frame_received, confirmed);
    Command { sender, receiver, sides: [library, calls(read_ask, read_take, [read_ack, read_nak])] }
}

/// A write of one burst: its XFER_RDY was handed out, taken and acknowledged.
pub fn write(t: Transfer) -> Command<Writer, Target> {
    let (mut sender, mut receiver) = (Writer::default(), Target::default());
    let mut out = [0; 36];
    assert!(write_initiator::set_up(&mut sender, t).what == READY && write_target::set_up(&mut receiver, other(t)).what == READY);
    let n = write_target::next_frame(&mut receiver, &mut out).len;
    assert!(write_initiator::frame_received(&mut sender, &out[..n]).what == NEXT_BURST);
    assert!(write_target::ack_received(&mut receiver).what == ACKNOWLEDGED);
    let confirmed: [Confirm<Writer>; 2] = [ssp_write_initiator_ack_received, ssp_write_initiator_nak_received];
    let library = calls(ssp_write_initiator_next_frame, ssp_write_target_frame_received, confirmed);
    Command { sender, receiver, sides: [library, calls(write_ask, write_take, [write_ack, write_nak])] }
}
