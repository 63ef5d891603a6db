//! A write at the initiator.
use crate::records::*;
use crate::{frame, sender};

fn with(w: &mut Writer, step: impl FnOnce(&mut Writer) -> Answer) -> Answer {
    if !w.fits() {
        return Answer::refused(1);
    }
    if w.sender.ended {
        return Answer::refused(2);
    }
    step(w)
}

pub fn set_up(w: &mut Writer, t: Transfer) -> Answer {
    if !t.fits() || !t.write {
        return Answer::refused(1);
    }
    // Before any XFER_RDY the limit in force is the transfer's.
    let burst = Burst { limit: t.limit, ..Burst::default() };
    *w = Writer { sender: Sender { transfer: t, burst, ..Sender::default() }, ..Writer::default() };
    Answer::is(READY)
}

/// The burst that was taken is now the one in service.
fn start(w: &mut Writer, b: Burst) {
    w.sender.burst = b;
    w.sender.next = b.base;
    w.sender.balance = b.base;
    w.sender.nak = false;
    w.sender.cdp = false;
    w.sender.retries = 0;
    w.sender.frames = 0;
    w.reached = b.base;
    w.pending = false;
    w.taken = Burst::default();
}

pub fn next_frame(w: &mut Writer, data: &[u8], out: &mut [u8]) -> Answer {
    if data.len() != w.sender.transfer.count as usize {
        return Answer::refused(1);
    }
    with(w, |w| {
        if w.pending && w.sender.unanswered > 0 {
            return Answer::is(WAIT);
        }
        let before = *w;
        if w.pending {
            let b = w.taken;
            start(w, b);
        }
        let answer = sender::next_frame(&mut w.sender, data, out);
        if answer.what == REFUSED {
            *w = before;
        } else {
            w.reached = w.reached.max(w.sender.next);
        }
        answer
    })
}

/// An answer, timeout or cut: `left` is the count after it where a taken burst waits.
fn event(w: &mut Writer, left: impl Fn(u32) -> u32, step: impl FnOnce(&mut Sender) -> Answer) -> Answer {
    with(w, |w| {
        if !w.pending || w.sender.unanswered == 0 {
            return step(&mut w.sender);
        }
        w.sender.unanswered = left(w.sender.unanswered);
        if w.sender.unanswered == 0 {
            let b = w.taken;
            start(w, b);
        }
        Answer::is(TAKEN)
    })
}

pub fn ack_received(w: &mut Writer) -> Answer {
    event(w, |n| n - 1, sender::ack_received)
}

pub fn nak_received(w: &mut Writer) -> Answer {
    event(w, |n| n - 1, sender::nak_received)
}

pub fn ack_nak_timeout(w: &mut Writer) -> Answer {
    event(w, |_| 0, |s| sender::bad(s, sender::Bad::Timeout))
}

pub fn connection_lost(w: &mut Writer) -> Answer {
    event(w, |_| 0, |s| sender::bad(s, sender::Bad::Cut))
}

pub fn nexus_lost(w: &mut Writer) -> Answer {
    with(w, |w| sender::fail(&mut w.sender, 31))
}

fn xfer_rdy(w: &mut Writer, header: &Header, iu: &[u8]) -> Answer {
    let mut x = XferRdy::default();
    let read = frame::xfer_rdy_read(&mut x, iu);
    if read.what != PARSED {
        return sender::fail(&mut w.sender, read.number);
    }
    let s = &w.sender;
    let previous = if w.pending { w.taken } else { s.burst };
    let all_out = if w.pending { w.taken.base == w.taken.end } else { w.reached == s.burst.end };
    let told = s.unanswered == 0 && s.next == s.burst.end;
    // Before any burst base and end are 0: then there is none to repeat.
    let none = previous.base == previous.end;
    let answer = if header.retransmit && x.offset == previous.base && !none {
        Answer::is(REPEATED)
    } else if x.offset == previous.end {
        if !all_out {
            return sender::fail(&mut w.sender, 27);
        }
        if told {
            Answer::is(NEXT_BURST)
        } else {
            Answer::count(NEXT_BURST_DELIVERS, s.frames)
        }
    } else {
        return sender::fail(&mut w.sender, 26);
    };
    let end = u64::from(x.offset) + u64::from(x.len);
    // K3: a repeat asks for the burst that it repeats, no more and no less.
    let another = answer.what == REPEATED && end != u64::from(previous.end);
    if x.len == 0 || end > u64::from(s.transfer.count) || another {
        return sender::fail(&mut w.sender, 25);
    }
    let limit = if header.retry { s.transfer.limit } else { 0 };
    let burst = Burst { base: x.offset, end: end as u32, tptt: header.tptt, limit };
    if s.unanswered == 0 {
        start(w, burst);
    } else {
        w.pending = true;
        w.taken = burst;
    }
    answer
}

pub fn frame_received(w: &mut Writer, bytes: &[u8]) -> Answer {
    with(w, |w| {
        let takes = [frame::XFER_RDY, frame::RESPONSE_TYPE];
        let (header, iu) = match frame::arrive(&w.sender.transfer, bytes, &takes) {
            Ok(x) => x,
            Err(n) => return Answer::refused(n),
        };
        if header.kind == frame::XFER_RDY {
            return xfer_rdy(w, &header, iu);
        }
        let opened = frame::response_read(iu);
        if opened.what != PARSED {
            return sender::fail(&mut w.sender, opened.number);
        }
        sender::end(&mut w.sender);
        Answer { what: RESPONSE, frames: w.sender.frames, start: 24, ..opened }
    })
}
