//! K7 with each of the 65,536 values: set-ups of every role under both editions, frames first and resent, the TPTT of what arrives, and
//! records that have a nonzero value under SAS-1.1.
use super::editions::*;
use super::pair::{Call, Pair, Rec};
use super::vectors::{bytes, ready, response_iu, transfer};
use crate::records::*;

/// A record before its set-up, its data or IU, and a transfer that it takes.
pub(super) struct Role {
    pub(super) pair: Pair,
    pub(super) t: Transfer,
    pub(super) calls: u64,
}

fn role(rec: Rec, data: usize, write: bool) -> Role {
    // Ones, so that a byte left as it was shows.
    let mut pair = Pair::new(rec, (0..data).map(|i| i as u8).collect(), 48);
    pair.out = [vec![0xff; 48], vec![0xff; 48]];
    Role { pair, t: transfer(write, 4, 1, 2, 4), calls: 0 }
}

/// Read target, read initiator, write initiator, write target, RESPONSE of a read and of a write.
pub(super) fn roles() -> [Role; 6] {
    let responder = |write| role(Rec::Responder(Responder::default()), 24, write);
    [
        role(Rec::Sender(Sender::default()), 4, false),
        role(Rec::Receiver(Receiver::default()), 4, false),
        role(Rec::Writer(Writer::default()), 4, true),
        role(Rec::Target(Target::default()), 4, true),
        responder(false),
        responder(true),
    ]
}

/// The whole record after its set-up, field by field.
pub(super) fn fresh(rec: &Rec, transfer: Transfer) -> Rec {
    // K5: a read begins at its start; a write's is 0.
    let [start, end] = [transfer.start, transfer.start + transfer.count];
    let burst = Burst { base: 0, end: 0, limit: 2, tptt: 0 };
    let sender =
        Sender { transfer, burst, next: 0, balance: 0, unanswered: 0, nak: false, cdp: false, ended: false, retries: 0, frames: 0 };
    let receiver = Receiver { transfer, base: 0, end: 0, expected: 0, filled: 0, waiting: false, ended: false };
    match rec {
        Rec::Sender(_) => Rec::Sender(Sender { burst: Burst { base: start, end, ..burst }, next: start, balance: start, ..sender }),
        Rec::Receiver(_) => Rec::Receiver(Receiver { base: start, end, expected: start, filled: start, ..receiver }),
        Rec::Writer(_) => Rec::Writer(Writer { sender, reached: 0, pending: false, taken: Burst { limit: 0, ..burst } }),
        Rec::Target(_) => {
            Rec::Target(Target { receiver, retries: 0, tptt: 0, under: 0, since: 0, state: STATE_NONE, stored: false, elapsed: 0 })
        }
        Rec::Responder(_) => Rec::Responder(Responder { transfer, len: 24, retries: 0, unanswered: false, ended: false }),
    }
}

impl Role {
    pub(super) fn gets(&mut self, call: Call, due: Answer) -> Result<(), String> {
        let a = self.pair.call(&call)?.unwrap();
        self.calls += 1;
        if a == due {
            return Ok(());
        }
        Err(format!("{call:?} gave {a:?} at both sides, due {due:?}\n  {:?}", self.pair.rec[1]))
    }

    /// A set-up that is taken, over whatever was there.
    pub(super) fn set_up(&mut self, sas2: bool, value: u16) -> Result<(), String> {
        let t = Transfer { sas2, value, ..self.t };
        self.gets(Call::SetUp(t, 24), Answer::is(READY))?;
        self.is(fresh(&self.pair.rec[1], t))
    }

    pub(super) fn is(&self, rec: Rec) -> Result<(), String> {
        if self.pair.rec[1] == rec {
            return Ok(());
        }
        Err(format!("at both sides {:?}\n  due {rec:?}", self.pair.rec[1]))
    }

    /// A frame is due, whole: type, byte 10, TPTT, IU. Offset 0, addresses and tag as `transfer` has them.
    fn hands(&mut self, kind: u8, byte_10: u8, tptt: [u8; 2], iu: &[u8]) -> Result<(), String> {
        let head = [kind, 0x12, 0x34, 0x56, 0, 0xab, 0xcd, 0xef, 0, 0, byte_10, 0, 0, 0, 0, 0, 0, 0x12, tptt[0], tptt[1], 0, 0, 0, 0];
        let len = 24 + iu.len();
        self.gets(Call::Next(self.pair.data[0].len(), 48), Answer::length(len))?;
        let out = &self.pair.out[1];
        if out[..24] == head && out[24..len] == *iu {
            return Ok(());
        }
        Err(format!("handed out at both sides {out:02x?}\n  due {head:02x?} {iu:02x?}"))
    }

    fn arrives(&mut self, f: Vec<u8>, due: Answer) -> Result<(), String> {
        self.gets(Call::Frame(f, self.pair.data[0].len()), due)
    }

    /// Set-ups with this value: "a nonzero value under SAS-1.1 is 1", and nothing changes; all else is taken.
    fn set_ups(&mut self, value: u16) -> Result<(), String> {
        self.set_up(true, value)?;
        if value == 0 {
            return self.set_up(false, 0);
        }
        let before = self.pair.rec[1];
        self.gets(Call::SetUp(Transfer { value, ..self.t }, 24), Answer::refused(1))?;
        self.is(before)
    }

    /// A record with this value under SAS-1.1.
    fn broken(&mut self, value: u16) -> Result<(), String> {
        self.refuses(|rec| named(rec, (false, value)))
    }

    /// A record that was changed so, fresh and ended: 1 goes before 2 and all else, at every call.
    pub(super) fn refuses(&mut self, change: impl Fn(Rec) -> Rec) -> Result<(), String> {
        for ended in [false, true] {
            self.set_up(false, 0)?;
            self.pair.rec = self.pair.rec.map(&change);
            if ended {
                self.pair.rec.iter_mut().for_each(end);
            }
            let before = self.pair.clone();
            let lent = before.data[0].len();
            let mut calls = vec![Call::Loss];
            if !matches!(before.rec[0], Rec::Responder(_)) {
                calls.extend([Call::Frame(bytes(1, 0, 0, 0, &[7; 4]), lent), Call::Frame(vec![7; 5], lent)]);
            }
            if !matches!(before.rec[0], Rec::Receiver(_)) {
                calls.extend([Call::Ack, Call::Nak, Call::Timeout, Call::Cut, Call::Next(lent, 48), Call::Next(lent, 0)]);
            }
            for call in calls {
                self.gets(call, Answer::refused(1))?;
            }
            self.is(before.rec[1])?;
            if self.pair.data != before.data || self.pair.out != before.out {
                return Err("a buffer changed at both sides".into());
            }
        }
        Ok(())
    }
}

fn end(rec: &mut Rec) {
    match rec {
        Rec::Sender(s) => s.ended = true,
        Rec::Receiver(r) => r.ended = true,
        Rec::Writer(w) => w.sender.ended = true,
        Rec::Target(t) => t.receiver.ended = true,
        Rec::Responder(r) => r.ended = true,
    }
}

/// One value, at each role.
fn one(roles: &mut [Role; 6], value: u16) -> Result<(), String> {
    for role in roles.iter_mut() {
        role.set_ups(value)?;
        if value != 0 {
            role.broken(value)?;
        }
    }
    let [read_target, read_initiator, write_initiator, write_target, responders @ ..] = roles;
    let tptt = value.to_be_bytes();
    // "Every read DATA and RESPONSE of the command carries it, resent ones too"; limit 2.
    read_target.set_up(true, value)?;
    read_target.hands(1, 0, tptt, &[0, 1, 2, 3])?;
    for call in [Call::Timeout, Call::Nak] {
        read_target.gets(call, Answer::is(RETRY))?;
        read_target.hands(1, 1, tptt, &[0, 1, 2, 3])?;
    }
    read_target.gets(Call::Cut, Answer::failed(30, 3))?;
    for responder in responders {
        let iu: Vec<u8> = (0..24).collect();
        responder.set_up(true, value)?;
        responder.hands(7, 0, tptt, &iu)?;
        for call in [Call::Cut, Call::Timeout] {
            responder.gets(call, Answer::is(RETRY))?;
            responder.hands(7, 2, tptt, &iu)?;
        }
        responder.gets(Call::Ack, Answer::is(DELIVERED))?;
    }
    // "Receivers of both ignore it."
    let response = bytes(7, 0, 0, value, &response_iu(5, 24));
    let ends = Answer { what: RESPONSE, status: 5, start: 24, len: 24, ..Answer::default() };
    for (sas2, own) in [TODAY, (true, value), (true, !value)] {
        read_initiator.set_up(sas2, own)?;
        read_initiator.arrives(bytes(1, 0, 0, value, &[7; 2]), Answer::is(STORED))?;
        read_initiator.arrives(bytes(1, 2, 0, !value, &[8; 2]), Answer::is(RECEIVED))?;
        read_initiator.arrives(response.clone(), ends)?;
        if read_initiator.pair.data[1] != [7, 7, 8, 8] {
            return Err(format!("stored at both sides {:02x?}", read_initiator.pair.data[1]));
        }
        // A write's initiator: its DATA has the tag of the XFER_RDY and not the value.
        write_initiator.set_up(sas2, own)?;
        write_initiator.arrives(ready(0, 4, 4, value ^ 1), Answer::is(NEXT_BURST))?;
        write_initiator.hands(1, 0, (value ^ 1).to_be_bytes(), &[0, 1, 2, 3])?;
        write_initiator.gets(Call::Nak, Answer::is(RETRY))?;
        write_initiator.hands(1, 1, (value ^ 1).to_be_bytes(), &[0, 1, 2, 3])?;
        write_initiator.arrives(response.clone(), Answer { frames: 2, ..ends })?;
        // A write's target: tags 0 and 1, whatever the value; the value is no tag of its own.
        let xfer_rdy = [0, 0, 0, 0, 0, 0, 0, 4, 0, 0, 0, 0];
        write_target.set_up(sas2, own)?;
        write_target.hands(5, 4, [0, 0], &xfer_rdy)?;
        write_target.gets(Call::Nak, Answer::is(RETRY))?;
        write_target.hands(5, 6, [0, 1], &xfer_rdy)?;
        write_target.gets(Call::Ack, Answer::is(ACKNOWLEDGED))?;
        let due = if value == 1 { Answer::is(STORED) } else { Answer::refused(8) };
        write_target.arrives(bytes(1, 0, 0, value, &[9; 2]), due)?;
        write_target
            .arrives(bytes(1, if value == 1 { 2 } else { 0 }, 0, 1, &vec![9; if value == 1 { 2 } else { 4 }]), Answer::is(RECEIVED))?;
    }
    Ok(())
}

/// Calls compared, or the first difference.
pub(super) fn all() -> Result<u64, String> {
    let mut roles = roles();
    for value in 0..=65_535 {
        one(&mut roles, value).map_err(|e| format!("value {value}: {e}"))?;
    }
    Ok(roles.iter().map(|role| role.calls).sum())
}
