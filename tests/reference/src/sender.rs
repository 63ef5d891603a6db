//! The sending port's steps, for a read and for a write burst. The callers test 1 and 2.
use crate::frame;
use crate::records::*;

#[derive(Clone, Copy, PartialEq, Eq, Debug)]
pub enum Bad {
    Timeout,
    Cut,
}

pub fn end(s: &mut Sender) {
    s.unanswered = 0;
    s.nak = false;
    s.ended = true;
}

pub fn fail(s: &mut Sender, number: u8) -> Answer {
    end(s);
    Answer::failed(number, s.frames)
}

pub fn next_frame(s: &mut Sender, data: &[u8], out: &mut [u8]) -> Answer {
    if s.nak || s.unanswered == s.transfer.window || s.next == s.burst.end {
        return Answer::is(WAIT);
    }
    let len = s.transfer.size.min(s.burst.end - s.next);
    // K5: the offset is a place in the initiator's buffer; this buffer begins at the read's start. A write's start is 0.
    let at = (s.next - s.transfer.start) as usize;
    let part = &data[at..at + len as usize];
    let header = Header {
        kind: frame::DATA,
        dest: s.transfer.remote,
        source: s.transfer.local,
        cdp: s.cdp,
        tag: s.transfer.tag,
        tptt: if s.transfer.write { s.burst.tptt } else { s.transfer.carried() },
        offset: s.next,
        ..Default::default()
    };
    let answer = frame::write(&header, part, out);
    if answer.what == FRAME {
        s.next += len;
        s.unanswered += 1;
        s.cdp = false;
        s.frames += 1;
    }
    answer
}

fn retry(s: &mut Sender, own: u8) -> Answer {
    let cause = if s.nak { 28 } else { own };
    if s.retries >= s.burst.limit {
        return fail(s, cause);
    }
    s.unanswered = 0;
    s.nak = false;
    s.retries += 1;
    if s.transfer.write {
        s.balance = s.burst.base;
    }
    s.next = s.balance;
    s.cdp = true;
    Answer::is(RETRY)
}

pub fn ack_received(s: &mut Sender) -> Answer {
    if s.unanswered == 0 {
        return Answer::refused(4);
    }
    s.unanswered -= 1;
    if s.unanswered > 0 {
        return Answer::is(TAKEN);
    }
    if s.nak {
        return retry(s, 28);
    }
    if !s.transfer.write {
        s.balance = s.next;
        s.retries = 0;
    }
    if s.next == s.burst.end {
        if !s.transfer.write {
            end(s);
        }
        return Answer::count(DELIVERED, s.frames);
    }
    Answer::is(TAKEN)
}

pub fn nak_received(s: &mut Sender) -> Answer {
    if s.unanswered == 0 {
        return Answer::refused(4);
    }
    s.unanswered -= 1;
    s.nak = true;
    if s.unanswered > 0 {
        return Answer::is(TAKEN);
    }
    retry(s, 28)
}

pub fn bad(s: &mut Sender, bad: Bad) -> Answer {
    if s.unanswered == 0 {
        return if bad == Bad::Timeout { Answer::refused(4) } else { Answer::is(UNCHANGED) };
    }
    retry(s, if bad == Bad::Timeout { 29 } else { 30 })
}
