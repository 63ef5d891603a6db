//! A write at the target.
use crate::records::*;
use crate::{frame, receiver};

fn with(t: &mut Target, step: impl FnOnce(&mut Target) -> Answer) -> Answer {
    if !t.fits() {
        return Answer::refused(1);
    }
    if t.receiver.ended {
        return Answer::refused(2);
    }
    step(t)
}

pub fn set_up(t: &mut Target, transfer: Transfer) -> Answer {
    if !transfer.fits() || !transfer.write {
        return Answer::refused(1);
    }
    *t = Target { receiver: Receiver { transfer, ..Receiver::default() }, ..Target::default() };
    Answer::is(READY)
}

/// The lowest number from 0 that is neither `under` nor one of those handed out since.
fn new_tag(t: &Target) -> u16 {
    let mut used: Vec<u16> = if t.stored { vec![t.under] } else { vec![] };
    loop {
        let tag = (0..).find(|n| !used.contains(n)).unwrap();
        if used.len() == usize::from(t.since) + usize::from(t.stored) {
            return tag;
        }
        used.push(tag);
    }
}

pub fn next_frame(t: &mut Target, out: &mut [u8]) -> Answer {
    with(t, |t| {
        let r = &t.receiver;
        let again = t.state == STATE_AGAIN;
        let next = (t.state == STATE_NONE || t.state == STATE_READY) && r.filled == r.end && r.end < r.transfer.count;
        if !again && !next {
            return Answer::is(WAIT);
        }
        if out.len() < 36 {
            return Answer::refused(3);
        }
        let (base, end) = if again { (r.base, r.end) } else { (r.end, r.end + r.transfer.burst.min(r.transfer.count - r.end)) };
        let tptt = new_tag(t);
        let header = Header {
            kind: frame::XFER_RDY,
            dest: r.transfer.remote,
            source: r.transfer.local,
            retry: r.transfer.limit > 0,
            retransmit: again,
            tag: r.transfer.tag,
            tptt,
            ..Header::default()
        };
        let mut iu = [0; 12];
        frame::xfer_rdy_write(&XferRdy { offset: base, len: end - base }, &mut iu);
        let answer = frame::write(&header, &iu, out);
        if !again {
            t.receiver.base = base;
            t.receiver.end = end;
            t.receiver.expected = base;
            t.receiver.filled = base;
            t.receiver.waiting = false;
            t.retries = 0;
        }
        t.tptt = tptt;
        t.since += 1;
        t.state = STATE_UNANSWERED;
        answer
    })
}

pub fn ack_received(t: &mut Target) -> Answer {
    with(t, |t| {
        if t.state != STATE_UNANSWERED {
            return Answer::refused(4);
        }
        t.state = STATE_READY;
        t.receiver.expected = t.receiver.base;
        t.receiver.filled = t.receiver.base;
        t.receiver.waiting = false;
        t.elapsed = 0;
        Answer::is(ACKNOWLEDGED)
    })
}

fn fail(t: &mut Target, number: u8) -> Answer {
    if t.state == STATE_UNANSWERED {
        t.state = STATE_AGAIN;
    }
    receiver::fail(&mut t.receiver, number)
}

fn bad(t: &mut Target, idle: Answer, number: u8) -> Answer {
    with(t, |t| {
        if t.state != STATE_UNANSWERED {
            return idle;
        }
        if t.retries >= t.receiver.transfer.limit {
            return fail(t, number);
        }
        t.retries += 1;
        t.state = STATE_AGAIN;
        Answer::is(RETRY)
    })
}

pub fn nak_received(t: &mut Target) -> Answer {
    bad(t, Answer::refused(4), 28)
}

pub fn ack_nak_timeout(t: &mut Target) -> Answer {
    bad(t, Answer::refused(4), 29)
}

pub fn connection_lost(t: &mut Target) -> Answer {
    bad(t, Answer::is(UNCHANGED), 30)
}

pub fn nexus_lost(t: &mut Target) -> Answer {
    with(t, |t| fail(t, 31))
}

/// K4: the sum grows here. It starts from zero in `ack_received` and in `frame_received`.
pub fn time_reported(t: &mut Target, milliseconds: u16) -> Answer {
    with(t, |t| {
        let value = u32::from(t.receiver.transfer.irt);
        let acknowledged = t.state == STATE_READY;
        let filled = t.receiver.filled == t.receiver.end;
        if value == 0 || !acknowledged || filled {
            return Answer::is(UNCHANGED);
        }
        let sum = u32::from(t.elapsed) + u32::from(milliseconds);
        if sum >= value {
            return fail(t, 33);
        }
        t.elapsed = sum as u16;
        Answer::is(TAKEN)
    })
}

pub fn frame_received(t: &mut Target, bytes: &[u8], data: &mut [u8]) -> Answer {
    if data.len() != t.receiver.transfer.count as usize {
        return Answer::refused(1);
    }
    with(t, |t| {
        let (header, iu) = match frame::arrive(&t.receiver.transfer, bytes, &[frame::DATA]) {
            Ok(x) => x,
            Err(n) => return Answer::refused(n),
        };
        if t.state == STATE_NONE || header.tptt != t.tptt {
            return Answer::refused(8);
        }
        if t.state != STATE_READY {
            return Answer::is(DISCARDED);
        }
        let answer = receiver::data(&mut t.receiver, &header, iu, data);
        if answer.what == STORED || answer.what == RECEIVED {
            t.stored = true;
            t.under = t.tptt;
            t.since = 0;
            t.elapsed = 0;
        }
        answer
    })
}
