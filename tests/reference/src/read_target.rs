//! A read at the target.
use crate::records::*;
use crate::{frame, sender};

fn gate(s: &Sender) -> Result<(), Answer> {
    if !s.fits() || s.transfer.write {
        return Err(Answer::refused(1));
    }
    if s.ended {
        return Err(Answer::refused(2));
    }
    Ok(())
}

fn with(s: &mut Sender, step: impl FnOnce(&mut Sender) -> Answer) -> Answer {
    match gate(s) {
        Err(a) => a,
        Ok(()) => step(s),
    }
}

pub fn set_up(s: &mut Sender, t: Transfer) -> Answer {
    if !t.fits() || t.write {
        return Answer::refused(1);
    }
    let burst = Burst { base: t.start, end: t.end() as u32, tptt: 0, limit: t.limit };
    *s = Sender { transfer: t, burst, next: t.start, balance: t.start, ..Sender::default() };
    Answer::is(READY)
}

pub fn next_frame(s: &mut Sender, data: &[u8], out: &mut [u8]) -> Answer {
    if data.len() != s.transfer.count as usize {
        return Answer::refused(1);
    }
    with(s, |s| sender::next_frame(s, data, out))
}

pub fn ack_received(s: &mut Sender) -> Answer {
    with(s, sender::ack_received)
}

pub fn nak_received(s: &mut Sender) -> Answer {
    with(s, sender::nak_received)
}

pub fn ack_nak_timeout(s: &mut Sender) -> Answer {
    with(s, |s| sender::bad(s, sender::Bad::Timeout))
}

pub fn connection_lost(s: &mut Sender) -> Answer {
    with(s, |s| sender::bad(s, sender::Bad::Cut))
}

pub fn nexus_lost(s: &mut Sender) -> Answer {
    with(s, |s| sender::fail(s, 31))
}

/// The target of a read takes no frame.
pub fn frame_received(s: &mut Sender, bytes: &[u8]) -> Answer {
    with(s, |_| Answer::refused(if frame::shape(bytes).is_err() { 5 } else { 6 }))
}
