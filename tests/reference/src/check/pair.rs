//! One record at both sides; each call goes to both, and all that it may touch is compared.
use super::opened;
use crate::ffi::*;
use crate::records::*;
use crate::{read_initiator, read_target, response, write_initiator, write_target};
use std::sync::atomic::{AtomicU64, Ordering::Relaxed};

/// How often each record gave each answer: by record, what, number.
pub static SEEN: [[[AtomicU64; 35]; 18]; 5] = [const { [const { [const { AtomicU64::new(0) }; 35] }; 18] }; 5];

/// Calls that the library has had: of records, of the RESPONSE's IU reader and for the sense data.
pub static CALLS: AtomicU64 = AtomicU64::new(0);

fn seen(rec: &Rec, a: &Answer) {
    let i = match rec {
        Rec::Sender(_) => 0,
        Rec::Receiver(_) => 1,
        Rec::Writer(_) => 2,
        Rec::Target(_) => 3,
        Rec::Responder(_) => 4,
    };
    SEEN[i][usize::from(a.what)][usize::from(a.number)].fetch_add(1, Relaxed);
}

#[derive(Clone, Copy, PartialEq, Eq, Hash, Debug)]
pub enum Rec {
    Sender(Sender),
    Receiver(Receiver),
    Writer(Writer),
    Target(Target),
    Responder(Responder),
}

#[derive(Clone, PartialEq, Eq, Debug)]
pub enum Call {
    SetUp(Transfer, usize),
    /// Lengths of the data buffer (or IU) and of the output buffer.
    Next(usize, usize),
    Ack,
    Nak,
    Timeout,
    Cut,
    Loss,
    /// K4: milliseconds since the last report.
    Time(u16),
    /// Bytes that arrive, and the length of the data buffer.
    Frame(Vec<u8>, usize),
}

pub fn reference(rec: &mut Rec, call: &Call, data: &mut [u8], out: &mut [u8]) -> Option<Answer> {
    use Call::*;
    Some(match (rec, call) {
        (Rec::Sender(r), SetUp(t, _)) => read_target::set_up(r, *t),
        (Rec::Sender(r), Next(d, o)) => read_target::next_frame(r, &data[..*d], &mut out[..*o]),
        (Rec::Sender(r), Ack) => read_target::ack_received(r),
        (Rec::Sender(r), Nak) => read_target::nak_received(r),
        (Rec::Sender(r), Timeout) => read_target::ack_nak_timeout(r),
        (Rec::Sender(r), Cut) => read_target::connection_lost(r),
        (Rec::Sender(r), Loss) => read_target::nexus_lost(r),
        (Rec::Sender(r), Frame(b, _)) => read_target::frame_received(r, b),
        (Rec::Receiver(r), SetUp(t, _)) => read_initiator::set_up(r, *t),
        (Rec::Receiver(r), Loss) => read_initiator::nexus_lost(r),
        (Rec::Receiver(r), Frame(b, d)) => read_initiator::frame_received(r, b, &mut data[..*d]),
        (Rec::Receiver(_), _) => return None,
        (Rec::Writer(r), SetUp(t, _)) => write_initiator::set_up(r, *t),
        (Rec::Writer(r), Next(d, o)) => write_initiator::next_frame(r, &data[..*d], &mut out[..*o]),
        (Rec::Writer(r), Ack) => write_initiator::ack_received(r),
        (Rec::Writer(r), Nak) => write_initiator::nak_received(r),
        (Rec::Writer(r), Timeout) => write_initiator::ack_nak_timeout(r),
        (Rec::Writer(r), Cut) => write_initiator::connection_lost(r),
        (Rec::Writer(r), Loss) => write_initiator::nexus_lost(r),
        (Rec::Writer(r), Frame(b, _)) => write_initiator::frame_received(r, b),
        (Rec::Target(r), SetUp(t, _)) => write_target::set_up(r, *t),
        (Rec::Target(r), Next(_, o)) => write_target::next_frame(r, &mut out[..*o]),
        (Rec::Target(r), Ack) => write_target::ack_received(r),
        (Rec::Target(r), Nak) => write_target::nak_received(r),
        (Rec::Target(r), Timeout) => write_target::ack_nak_timeout(r),
        (Rec::Target(r), Cut) => write_target::connection_lost(r),
        (Rec::Target(r), Loss) => write_target::nexus_lost(r),
        (Rec::Target(r), Time(ms)) => write_target::time_reported(r, *ms),
        (_, Time(_)) => return None,
        (Rec::Target(r), Frame(b, d)) => write_target::frame_received(r, b, &mut data[..*d]),
        (Rec::Responder(r), SetUp(t, n)) => response::set_up(r, *t, *n),
        (Rec::Responder(r), Next(d, o)) => response::next_frame(r, &data[..*d], &mut out[..*o]),
        (Rec::Responder(r), Ack) => response::ack_received(r),
        (Rec::Responder(r), Nak) => response::nak_received(r),
        (Rec::Responder(r), Timeout) => response::ack_nak_timeout(r),
        (Rec::Responder(r), Cut) => response::connection_lost(r),
        (Rec::Responder(r), Loss) => response::nexus_lost(r),
        (Rec::Responder(_), Frame(..)) => return None,
    })
}

/// `sent`: a copy of the bytes that arrive.
pub fn lib(rec: &mut Rec, call: &Call, sent: &mut [u8], data: &mut [u8], out: &mut [u8]) -> Option<Answer> {
    use Call::*;
    let (b, len) = (sent.as_mut_ptr(), sent.len());
    let (d, o) = (data.as_mut_ptr(), out.as_mut_ptr());
    CALLS.fetch_add(1, Relaxed);
    // Lengths were tested by the reference's own slices of the same buffers.
    Some(unsafe {
        match (rec, call) {
            (Rec::Sender(r), SetUp(t, _)) => ssp_read_target_set_up(r, *t),
            (Rec::Sender(r), Next(n, m)) => ssp_read_target_next_frame(r, d, *n, o, *m),
            (Rec::Sender(r), Ack) => ssp_read_target_ack_received(r),
            (Rec::Sender(r), Nak) => ssp_read_target_nak_received(r),
            (Rec::Sender(r), Timeout) => ssp_read_target_ack_nak_timeout(r),
            (Rec::Sender(r), Cut) => ssp_read_target_connection_lost(r),
            (Rec::Sender(r), Loss) => ssp_read_target_nexus_lost(r),
            (Rec::Sender(r), Frame(..)) => ssp_read_target_frame_received(r, b, len),
            (Rec::Receiver(r), SetUp(t, _)) => ssp_read_initiator_set_up(r, *t),
            (Rec::Receiver(r), Loss) => ssp_read_initiator_nexus_lost(r),
            (Rec::Receiver(r), Frame(_, n)) => ssp_read_initiator_frame_received(r, b, len, d, *n),
            (Rec::Receiver(_), _) => return None,
            (Rec::Writer(r), SetUp(t, _)) => ssp_write_initiator_set_up(r, *t),
            (Rec::Writer(r), Next(n, m)) => ssp_write_initiator_next_frame(r, d, *n, o, *m),
            (Rec::Writer(r), Ack) => ssp_write_initiator_ack_received(r),
            (Rec::Writer(r), Nak) => ssp_write_initiator_nak_received(r),
            (Rec::Writer(r), Timeout) => ssp_write_initiator_ack_nak_timeout(r),
            (Rec::Writer(r), Cut) => ssp_write_initiator_connection_lost(r),
            (Rec::Writer(r), Loss) => ssp_write_initiator_nexus_lost(r),
            (Rec::Writer(r), Frame(..)) => ssp_write_initiator_frame_received(r, b, len),
            (Rec::Target(r), SetUp(t, _)) => ssp_write_target_set_up(r, *t),
            (Rec::Target(r), Next(_, m)) => ssp_write_target_next_frame(r, o, *m),
            (Rec::Target(r), Ack) => ssp_write_target_ack_received(r),
            (Rec::Target(r), Nak) => ssp_write_target_nak_received(r),
            (Rec::Target(r), Timeout) => ssp_write_target_ack_nak_timeout(r),
            (Rec::Target(r), Cut) => ssp_write_target_connection_lost(r),
            (Rec::Target(r), Loss) => ssp_write_target_nexus_lost(r),
            (Rec::Target(r), Time(ms)) => ssp_write_target_time_reported(r, *ms),
            (_, Time(_)) => return None,
            (Rec::Target(r), Frame(_, n)) => ssp_write_target_frame_received(r, b, len, d, *n),
            (Rec::Responder(r), SetUp(t, n)) => ssp_response_set_up(r, *t, *n),
            (Rec::Responder(r), Next(n, m)) => ssp_response_next_frame(r, d, *n, o, *m),
            (Rec::Responder(r), Ack) => ssp_response_ack_received(r),
            (Rec::Responder(r), Nak) => ssp_response_nak_received(r),
            (Rec::Responder(r), Timeout) => ssp_response_ack_nak_timeout(r),
            (Rec::Responder(r), Cut) => ssp_response_connection_lost(r),
            (Rec::Responder(r), Loss) => ssp_response_nexus_lost(r),
            (Rec::Responder(_), Frame(..)) => return None,
        }
    })
}

#[derive(Clone)]
pub struct Pair {
    pub rec: [Rec; 2],
    pub data: [Vec<u8>; 2],
    pub out: [Vec<u8>; 2],
}

impl Pair {
    pub fn new(rec: Rec, data: Vec<u8>, out: usize) -> Pair {
        let out = vec![0xa5; out];
        Pair { rec: [rec, rec], data: [data.clone(), data], out: [out.clone(), out] }
    }

    /// The call at both sides; the reference's answer, or what differs. None where the record has no such entry point.
    pub fn call(&mut self, call: &Call) -> Result<Option<Answer>, String> {
        let before = self.rec[0];
        let [d0, d1] = &mut self.data;
        let [o0, o1] = &mut self.out;
        let a = reference(&mut self.rec[0], call, d0, o0);
        let bytes: &[u8] = if let Call::Frame(bytes, _) = call { bytes } else { &[] };
        // With others before and after them, which must stay too.
        let mut lent = opened::Lent::new(bytes);
        let b = lib(&mut self.rec[1], call, lent.bytes(), d1, o1);
        // K9: after each arrival the part too, set before to all of the bytes, so that one left as it was shows.
        let parts = match (&a, &b, call) {
            (Some(a), Some(b), Call::Frame(..)) => [opened::reference_place(a, bytes), opened::lib_place(b, lent.bytes(), 0..bytes.len())],
            _ => [Ok(None), Ok(None)],
        };
        let kept = lent.kept(bytes);
        let alike = a == b && self.rec[0] == self.rec[1] && self.data[0] == self.data[1] && self.out[0] == self.out[1];
        if alike && kept && parts[0] == parts[1] {
            if let Some(a) = &a {
                seen(&before, a);
            }
            return Ok(a);
        }
        let mut s = format!("{call:?}\n  before    {before:?}\n  reference {a:?}\n  library   {b:?}");
        if self.rec[0] != self.rec[1] {
            s += &format!("\n  reference {:?}\n  library   {:?}", self.rec[0], self.rec[1]);
        }
        if !kept {
            s += "\n  the library changed the bytes that arrived or some beside them";
        }
        if parts[0] != parts[1] {
            s += &format!("\n  sense data: offset, length\n  reference {:?}\n  library   {:?}", parts[0], parts[1]);
        }
        if self.data[0] != self.data[1] {
            s += "\n  data buffers differ";
        }
        if self.out[0] != self.out[1] {
            let n = self.out[0].len().min(40);
            s += &format!("\n  output differs\n  reference {:02x?}\n  library   {:02x?}", &self.out[0][..n], &self.out[1][..n]);
        }
        Err(s)
    }
}
