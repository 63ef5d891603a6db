//! RESPONSE at the target.
use crate::frame;
use crate::records::*;

fn with(r: &mut Responder, step: impl FnOnce(&mut Responder) -> Answer) -> Answer {
    if !r.fits() {
        return Answer::refused(1);
    }
    if r.ended {
        return Answer::refused(2);
    }
    step(r)
}

pub fn set_up(r: &mut Responder, transfer: Transfer, len: usize) -> Answer {
    if !transfer.fits() || !(24..=1024).contains(&len) {
        return Answer::refused(1);
    }
    *r = Responder { transfer, len: len as u32, ..Responder::default() };
    Answer::is(READY)
}

pub fn next_frame(r: &mut Responder, iu: &[u8], out: &mut [u8]) -> Answer {
    if iu.len() != r.len as usize {
        return Answer::refused(1);
    }
    with(r, |r| {
        if r.unanswered {
            return Answer::is(WAIT);
        }
        let header = Header {
            kind: frame::RESPONSE_TYPE,
            dest: r.transfer.remote,
            source: r.transfer.local,
            // "It is resent likewise": RETRANSMIT one.
            retransmit: r.retries > 0,
            tag: r.transfer.tag,
            tptt: r.transfer.carried(),
            ..Header::default()
        };
        let answer = frame::write(&header, iu, out);
        r.unanswered |= answer.what == FRAME;
        answer
    })
}

fn end(r: &mut Responder) {
    r.unanswered = false;
    r.ended = true;
}

pub fn ack_received(r: &mut Responder) -> Answer {
    with(r, |r| {
        if !r.unanswered {
            return Answer::refused(4);
        }
        end(r);
        Answer::is(DELIVERED)
    })
}

fn bad(r: &mut Responder, idle: Answer, number: u8) -> Answer {
    with(r, |r| {
        if !r.unanswered {
            return idle;
        }
        if r.retries >= r.most() {
            end(r);
            return Answer::failed(number, 0);
        }
        r.unanswered = false;
        r.retries += 1;
        Answer::is(RETRY)
    })
}

pub fn nak_received(r: &mut Responder) -> Answer {
    bad(r, Answer::refused(4), 28)
}

pub fn ack_nak_timeout(r: &mut Responder) -> Answer {
    bad(r, Answer::refused(4), 29)
}

pub fn connection_lost(r: &mut Responder) -> Answer {
    bad(r, Answer::is(UNCHANGED), 30)
}

pub fn nexus_lost(r: &mut Responder) -> Answer {
    with(r, |r| {
        end(r);
        Answer::failed(31, 0)
    })
}
