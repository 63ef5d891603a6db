//! The rungs of document 01 and the error cases of the source papers, each with the answer that is due.
use super::pair::{Call, Pair, Rec};
use crate::frame;
use crate::records::*;

/// (what, number) that is due.
type Due = (u8, u8);

pub struct Script {
    pub(super) name: &'static str,
    pub pair: Pair,
    calls: u64,
}

pub fn transfer(write: bool, count: u32, window: u32, limit: u32, burst: u32) -> Transfer {
    let (local, remote) = (0xab_cdef, 0x12_3456);
    Transfer { write, count, size: 4, window, limit, burst, local, remote, tag: 0x12, sas2: false, value: 0, irt: 0, start: 0 }
}

impl Script {
    pub fn new(name: &'static str, rec: Rec, t: Transfer) -> Result<Script, String> {
        let n = match rec {
            Rec::Responder(_) => 24,
            // K5: the host's buffer reaches to the end of the read.
            Rec::Receiver(_) => (t.start + t.count) as usize,
            _ => t.count as usize,
        };
        let mut s = Script { name, pair: Pair::new(rec, (0..n).map(|i| i as u8).collect(), 1048), calls: 0 };
        s.call(Call::SetUp(t, 24), (READY, 0))?;
        Ok(s)
    }
    pub fn call(&mut self, call: Call, due: Due) -> Result<Answer, String> {
        let a = self.pair.call(&call).map_err(|e| format!("{}: {e}", self.name))?.unwrap();
        self.calls += 1;
        if (a.what, a.number) != due {
            return Err(format!("{}: {call:?} gave {a:?} at both sides, due {due:?}", self.name));
        }
        Ok(a)
    }
    /// A frame is due: its offset (of an XFER_RDY, the requested one), all of byte 10, TPTT.
    pub fn frame(&mut self, offset: u32, flags: u8, tptt: u16) -> Result<Vec<u8>, String> {
        let a = self.call(Call::Next(self.pair.data[0].len(), 1048), (FRAME, 0))?;
        let f = self.pair.out[0][..a.len].to_vec();
        let h = frame::header_of(&f);
        let at = if f[0] == frame::XFER_RDY { u32::from_be_bytes([f[24], f[25], f[26], f[27]]) } else { h.offset };
        if (at, f[10], h.tptt) != (offset, flags, tptt) {
            return Err(format!("{}: frame {f:02x?} at both sides, due offset {offset}, byte 10 {flags}, tag {tptt}", self.name));
        }
        Ok(f)
    }
    pub fn waits(&mut self) -> Result<(), String> {
        self.call(Call::Next(self.pair.data[0].len(), 1048), (WAIT, 0)).map(|_| ())
    }
    pub fn arrives(&mut self, f: Vec<u8>, due: Due) -> Result<Answer, String> {
        self.call(Call::Frame(f, self.pair.data[0].len()), due)
    }
    pub fn holds(&self, what: bool) -> Result<u64, String> {
        if what {
            Ok(self.calls)
        } else {
            Err(format!("{}: bytes or record not as due at both sides: {:?}", self.name, self.pair.rec[0]))
        }
    }
}

/// A frame for the port with `transfer`'s addresses; `flags` are bits 4 to 0 of byte 10.
pub fn bytes(kind: u8, offset: u32, flags: u8, tptt: u16, iu: &[u8]) -> Vec<u8> {
    let h = Header {
        kind,
        dest: 0xab_cdef,
        source: 0x12_3456,
        retry: flags & 4 != 0,
        retransmit: flags & 2 != 0,
        cdp: flags & 1 != 0,
        tlr: flags >> 3,
        tag: 0x12,
        tptt,
        offset,
    };
    let mut f = vec![0; 1048];
    let n = frame::write(&h, iu, &mut f).len;
    f.truncate(n);
    f
}

/// A RESPONSE's IU that K9 takes: no data in 24 bytes, sense data in more. All else, also the reserved bits of byte 10, is `byte`.
pub fn response_iu(byte: u8, len: usize) -> Vec<u8> {
    let mut iu = vec![byte; len];
    iu[10] = byte & 0xfc;
    if len > 24 {
        iu[10] |= SENSE_DATA;
        iu[16..20].copy_from_slice(&(len as u32 - 24).to_be_bytes());
    }
    iu
}

pub fn ready(offset: u32, len: u32, flags: u8, tptt: u16) -> Vec<u8> {
    let mut iu = [0; 12];
    frame::xfer_rdy_write(&XferRdy { offset, len }, &mut iu);
    bytes(frame::XFER_RDY, 0, flags, tptt, &iu)
}

pub fn read_sender(name: &'static str, count: u32, window: u32, limit: u32) -> Result<Script, String> {
    Script::new(name, Rec::Sender(Sender::default()), transfer(false, count, window, limit, count))
}

pub fn read_receiver(name: &'static str, count: u32, limit: u32) -> Result<Script, String> {
    Script::new(name, Rec::Receiver(Receiver::default()), transfer(false, count, 4, limit, count))
}

pub fn writer(name: &'static str, count: u32, window: u32, limit: u32) -> Result<Script, String> {
    Script::new(name, Rec::Writer(Writer::default()), transfer(true, count, window, limit, count))
}

pub fn target(name: &'static str, count: u32, limit: u32, burst: u32) -> Result<Script, String> {
    Script::new(name, Rec::Target(Target::default()), transfer(true, count, 4, limit, burst))
}

pub fn responder(name: &'static str, limit: u32) -> Result<Script, String> {
    Script::new(name, Rec::Responder(Responder::default()), transfer(false, 4, 4, limit, 4))
}

fn rungs() -> Result<u64, String> {
    let mut n = 0;
    // R1: the header of a read DATA frame at offset 4.
    let mut s = read_sender("R1", 8, 2, 1)?;
    s.frame(0, 0, 0)?;
    let f = s.frame(4, 0, 0)?;
    let due = [1, 0x12, 0x34, 0x56, 0, 0xab, 0xcd, 0xef, 0, 0, 0, 0, 0, 0, 0, 0, 0, 0x12, 0, 0, 0, 0, 0, 4, 4, 5, 6, 7];
    n += s.holds(f == due)?;
    // R2: two data bytes.
    let mut s = read_sender("R2", 2, 2, 1)?;
    let f = s.frame(0, 0, 0)?;
    n += s.holds(f.len() == 28 && f[11] == 2)?;
    // R3: counts at and past the limit.
    let mut s = read_sender("R3", 4, 2, 1)?;
    for (count, due) in [(0, (REFUSED, 1)), (16_777_217, (REFUSED, 1)), (1, (READY, 0)), (16_777_216, (READY, 0))] {
        s.call(Call::SetUp(transfer(false, count, 2, 1, 1), 0), due)?;
    }
    n += s.holds(true)?;
    // R4: ACK at once.
    let mut s = read_sender("R4", 4, 2, 1)?;
    s.call(Call::Ack, (REFUSED, 4))?;
    n += s.holds(true)?;
    // R5: three sent, two ACKs, timeout.
    let mut s = read_sender("R5", 12, 3, 1)?;
    for at in [0, 4, 8] {
        s.frame(at, 0, 0)?;
    }
    s.call(Call::Ack, (TAKEN, 0))?;
    s.call(Call::Ack, (TAKEN, 0))?;
    s.call(Call::Timeout, (RETRY, 0))?;
    s.frame(0, 1, 0)?;
    s.frame(4, 0, 0)?;
    n += s.holds(true)?;
    // R6: three sent, NAK, two ACKs.
    let mut s = read_sender("R6", 16, 3, 1)?;
    for at in [0, 4, 8] {
        s.frame(at, 0, 0)?;
    }
    s.call(Call::Nak, (TAKEN, 0))?;
    s.waits()?;
    s.call(Call::Ack, (TAKEN, 0))?;
    s.call(Call::Ack, (RETRY, 0))?;
    s.frame(0, 1, 0)?;
    n += s.holds(true)?;
    // R7: limit 1, timed out twice.
    let mut s = read_sender("R7", 4, 1, 1)?;
    s.frame(0, 0, 0)?;
    s.call(Call::Timeout, (RETRY, 0))?;
    s.frame(0, 1, 0)?;
    s.call(Call::Timeout, (FAILED, 29))?;
    n += s.holds(true)?;
    // R8: offset 10 of ten bytes; eleven bytes at 0.
    let mut s = read_receiver("R8", 10, 1)?;
    s.arrives(bytes(1, 10, 0, 0, &[1; 4]), (FAILED, 20))?;
    n += s.holds(true)?;
    let mut s = read_receiver("R8", 10, 1)?;
    s.arrives(bytes(1, 0, 0, 0, &[1; 11]), (FAILED, 21))?;
    n += s.holds(true)?;
    // R9: filled 8, CDP one, offset 4.
    let mut s = read_receiver("R9", 10, 1)?;
    s.arrives(bytes(1, 0, 0, 0, &[1; 8]), (STORED, 0))?;
    s.arrives(bytes(1, 4, 1, 0, &[2; 4]), (STORED, 0))?;
    n += s.holds(s.pair.data[0] == [1, 1, 1, 1, 2, 2, 2, 2, 8, 9])?;
    // R10: an XFER_RDY IU of 11 and of 13 bytes; 24 in a read, where 12 would be 27.
    for (len, number) in [(11, 23), (13, 24)] {
        let mut s = writer("R10", 10, 2, 1)?;
        s.arrives(bytes(5, 0, 0, 0, &vec![0; len]), (FAILED, number))?;
        n += s.holds(true)?;
    }
    for (len, number) in [(11, 23), (13, 24), (12, 27)] {
        let mut s = read_receiver("R10 in a read", 10, 1)?;
        s.arrives(bytes(5, 0, 0, 0, &vec![0; len]), (FAILED, number))?;
        n += s.holds(true)?;
    }
    Ok(n)
}

/// The last frame of the greatest transfer, at both ends.
fn greatest() -> Result<u64, String> {
    const MOST: u32 = 16_777_216;
    let mut s = read_sender("greatest read", MOST, 1, 1)?;
    for rec in &mut s.pair.rec {
        if let Rec::Sender(r) = rec {
            (r.next, r.balance, r.frames) = (MOST - 2, MOST - 2, (1 << 60) - 2);
        }
    }
    let f = s.frame(MOST - 2, 0, 0)?;
    let a = s.call(Call::Ack, (DELIVERED, 0))?;
    let mut n = s.holds(f[11] == 2 && a.frames == (1 << 60) - 1)?;
    let mut s = read_receiver("greatest read", MOST, 1)?;
    for rec in &mut s.pair.rec {
        if let Rec::Receiver(r) = rec {
            (r.expected, r.filled) = (MOST - 4, MOST - 4);
        }
    }
    s.arrives(bytes(1, MOST - 4, 0, 0, &[7; 2]), (STORED, 0))?;
    s.arrives(bytes(1, MOST - 2, 0, 0, &[7; 2]), (RECEIVED, 0))?;
    n += s.holds(s.pair.data[0].ends_with(&[7; 4]))?;
    Ok(n)
}

/// 3: "a frame is due, the output buffer is shorter", by one byte; the frame of 4 data bytes takes 28, an XFER_RDY 36, a RESPONSE of 24 bytes 48.
fn space() -> Result<u64, String> {
    let mut n = 0;
    let sending = writer("space, write", 4, 1, 1).and_then(|mut s| s.arrives(ready(0, 4, 4, 0), (NEXT_BURST, 0)).map(|_| s));
    let read = read_sender("space, read", 4, 1, 1);
    for (s, room) in [(read, 28), (sending, 28), (target("space, XFER_RDY", 4, 1, 4), 36), (responder("space, RESPONSE", 1), 48)] {
        let mut s = s?;
        let lent = s.pair.data[0].len();
        let before = s.pair.rec[0];
        for out in [0, 24, room - 1] {
            s.call(Call::Next(lent, out), (REFUSED, 3))?;
        }
        n += s.holds(s.pair.rec[0] == before && s.pair.out[0].iter().all(|b| *b == 0xa5))?;
        let a = s.call(Call::Next(lent, room), (FRAME, 0))?;
        n += s.holds(a.len == room && s.pair.out[0][room..].iter().all(|b| *b == 0xa5))?;
        // none is due any more: "wait" comes first
        s.call(Call::Next(lent, 0), (WAIT, 0))?;
    }
    Ok(n)
}

pub fn all() -> Result<u64, String> {
    Ok(rungs()?
        + greatest()?
        + space()?
        + super::steps::vectors()?
        + super::tlr::vectors()?
        + super::resent::vectors()?
        + super::opened_vectors::all()?
        + super::sources::all()?
        + super::states::all()?
        + super::bursts::all()?
        + super::headers::all()?)
}
