//! Rules and error cases of the T10 papers 001 to 003 as vectors, by frame type and end, where they fall inside document 01. Paper 001 has
//! the target's states of SAS-2, 002 those of SAS-1.0 with a timer, 003 is 03-186r2. "01:" marks what document 01 decides, or does in
//! another way. Here DATA that is sent and read DATA that arrives; `bursts` has XFER_RDY and write DATA that arrives, `headers` the rest.
use super::pair::{Call, Rec};
use super::vectors::*;
use crate::records::*;

/// What comes instead of an ACK, and its failure. 001, table 3, and 002 have one failure for the last two; 01: two.
pub const BAD: [(Call, u8); 3] = [(Call::Nak, 28), (Call::Timeout, 29), (Call::Cut, 30)];

/// Frames are due at these offsets, byte 10 zero.
pub fn sends(s: &mut Script, tptt: u16, at: &[u32]) -> Result<(), String> {
    at.iter().try_for_each(|offset| s.frame(*offset, 0, tptt).map(|_| ()))
}

/// Answers with which nothing more happens.
pub fn taken(s: &mut Script, calls: &[Call]) -> Result<(), String> {
    calls.iter().try_for_each(|call| s.call(call.clone(), (TAKEN, 0)).map(|_| ()))
}

/// The record has ended.
pub fn ended(s: &mut Script) -> Result<(), String> {
    let frame = Call::Next(s.pair.data[0].len(), 1048);
    let call = if matches!(s.pair.rec[0], Rec::Receiver(_)) { Call::Loss } else { frame };
    s.call(call, (REFUSED, 2)).map(|_| ())
}

/// An initiator that has its first XFER_RDY, tag 0, RETRY DATA FRAMES one.
pub fn asked(name: &'static str, count: u32, window: u32, limit: u32, len: u32) -> Result<Script, String> {
    let mut s = writer(name, count, window, limit)?;
    s.arrives(ready(0, len, 4, 0), (NEXT_BURST, 0))?;
    Ok(s)
}

/// A target whose first XFER_RDY, tag 0, had its ACK.
pub fn open(name: &'static str, count: u32, limit: u32, burst: u32) -> Result<Script, String> {
    let mut s = target(name, count, limit, burst)?;
    s.frame(0, if limit > 0 { 4 } else { 0 }, 0)?;
    s.call(Call::Ack, (ACKNOWLEDGED, 0))?;
    Ok(s)
}

fn read_data_sent() -> Result<u64, String> {
    let mut n = 0;
    // 001, 9.2.6.3.3.2.1 a) to d): at first offset and balance point are the buffer's (K5: the start, here 0), and the counts zero.
    let s = read_sender("001 start", 10, 3, 1)?;
    n += s.holds(matches!(s.pair.rec[0], Rec::Sender(r) if (r.next, r.balance, r.unanswered, r.frames) == (0, 0, 0, 0)))?;
    // 001, NOTE 1: all go out before an answer comes; table 3: delivered once each has its ACK; that ends it.
    let mut s = read_sender("001 delivered", 10, 3, 1)?;
    sends(&mut s, 0, &[0, 4])?;
    let f = s.frame(8, 0, 0)?;
    s.waits()?;
    taken(&mut s, &[Call::Ack, Call::Ack])?;
    let a = s.call(Call::Ack, (DELIVERED, 0))?;
    ended(&mut s)?;
    n += s.holds(f[24..] == [8, 9, 0, 0] && a.frames == 3)?;
    // 001, NOTE 1 has no bound; 01: the window is one.
    let mut s = read_sender("001 window", 16, 2, 1)?;
    sends(&mut s, 0, &[0, 4])?;
    s.waits()?;
    taken(&mut s, &[Call::Ack])?;
    sends(&mut s, 0, &[8])?;
    s.waits()?;
    n += s.holds(true)?;
    // 001, table 1: the balance point is where there were as many ACKs as frames, and no ACK before that moves it.
    let mut s = read_sender("001 no balance", 20, 2, 1)?;
    sends(&mut s, 0, &[0, 4])?;
    taken(&mut s, &[Call::Ack])?;
    sends(&mut s, 0, &[8])?;
    taken(&mut s, &[Call::Ack])?;
    s.call(Call::Timeout, (RETRY, 0))?;
    s.frame(0, 1, 0)?;
    n += s.holds(true)?;
    // 001, 9.2.6.3.3.3.1: at balance the point may stay or move; 01: it moves.
    let mut s = read_sender("001 balance", 20, 2, 1)?;
    sends(&mut s, 0, &[0, 4])?;
    taken(&mut s, &[Call::Ack])?;
    sends(&mut s, 0, &[8])?;
    taken(&mut s, &[Call::Ack, Call::Ack])?;
    sends(&mut s, 0, &[12])?;
    s.call(Call::Cut, (RETRY, 0))?;
    s.frame(12, 1, 0)?;
    sends(&mut s, 0, &[16])?;
    n += s.holds(true)?;
    // The same: with a NAK among the answers there are fewer ACKs than frames, so no balance.
    let mut s = read_sender("001 NAK last", 12, 2, 1)?;
    sends(&mut s, 0, &[0, 4])?;
    taken(&mut s, &[Call::Ack])?;
    s.call(Call::Nak, (RETRY, 0))?;
    s.frame(0, 1, 0)?;
    n += s.holds(true)?;
    // 001, table 3: the failure comes when the number of retries has been reached, here 2.
    for (call, number) in BAD {
        let mut s = read_sender("001 table 3 read DATA", 4, 1, 2)?;
        s.frame(0, 0, 0)?;
        s.call(call.clone(), (RETRY, 0))?;
        s.frame(0, 1, 0)?;
        s.call(call.clone(), (RETRY, 0))?;
        s.frame(0, 1, 0)?;
        let a = s.call(call, (FAILED, number))?;
        ended(&mut s)?;
        n += s.holds(a.frames == 3)?;
    }
    // 001, 9.2.6.3.3.3, to ST_TTS3: the number is "for the read DATA frame"; 01: it counts from the last move of the balance point.
    let mut s = read_sender("001 retries", 8, 1, 1)?;
    for (at, last) in [(0, Call::Ack), (4, Call::Timeout)] {
        s.frame(at, 0, 0)?;
        s.call(Call::Timeout, (RETRY, 0))?;
        s.frame(at, 1, 0)?;
        s.call(last, if at == 0 { (TAKEN, 0) } else { (FAILED, 29) })?;
    }
    n += s.holds(true)?;
    // 001, table 3 goes by the confirmation received; 01: by the first bad one, and not before all answers are in or given up.
    for call in [Call::Ack, Call::Nak, Call::Timeout, Call::Cut] {
        let mut s = read_sender("001 first bad", 12, 2, 0)?;
        sends(&mut s, 0, &[0, 4])?;
        taken(&mut s, &[Call::Nak])?;
        s.waits()?;
        s.call(call, (FAILED, 28))?;
        n += s.holds(true)?;
    }
    // 001, 9.2.6.3.3.4.1, with Retry d), e): both counts go to zero, so that late answers have no frame and as many new ACKs deliver.
    let mut s = read_sender("001 retry d e", 8, 2, 1)?;
    sends(&mut s, 0, &[0, 4])?;
    s.call(Call::Timeout, (RETRY, 0))?;
    for call in [Call::Ack, Call::Nak, Call::Timeout] {
        s.call(call, (REFUSED, 4))?;
    }
    s.call(Call::Cut, (UNCHANGED, 0))?;
    s.frame(0, 1, 0)?;
    sends(&mut s, 0, &[4])?;
    taken(&mut s, &[Call::Ack])?;
    let a = s.call(Call::Ack, (DELIVERED, 0))?;
    n += s.holds(a.frames == 4)?;
    // 001, with Retry f) A): the resent frame has the lesser of the size and what remains from the balance point.
    let mut s = read_sender("001 retry f", 6, 1, 1)?;
    s.frame(0, 0, 0)?;
    taken(&mut s, &[Call::Ack])?;
    s.frame(4, 0, 0)?;
    s.call(Call::Nak, (RETRY, 0))?;
    let f = s.frame(4, 1, 0)?;
    s.call(Call::Ack, (DELIVERED, 0))?;
    n += s.holds(f[11] == 2 && f[24..] == [4, 5, 0, 0])?;
    // 003, read DATA, NAK: after a lost ACK the NAK is matched with another frame; all since the balance point go again.
    let mut s = read_sender("003 read DATA NAK", 12, 3, 1)?;
    sends(&mut s, 0, &[0, 4, 8])?;
    taken(&mut s, &[Call::Nak, Call::Ack])?;
    s.call(Call::Timeout, (RETRY, 0))?;
    s.frame(0, 1, 0)?;
    sends(&mut s, 0, &[4, 8])?;
    n += s.holds(true)?;
    // 003, table 1, read DATA row 3: the first ACK is lost; later ones are misassigned, then the timeout ends the command.
    let mut s = read_sender("003 table 1 row 3", 12, 3, 0)?;
    sends(&mut s, 0, &[0, 4, 8])?;
    taken(&mut s, &[Call::Ack, Call::Ack])?;
    let a = s.call(Call::Timeout, (FAILED, 29))?;
    n += s.holds(a.frames == 3)?;
    Ok(n)
}

fn read_data_received() -> Result<u64, String> {
    let mut n = 0;
    // 003, table 1, read DATA rows 4 and 5: without retries the initiator aborts at the gap; so also at a step back.
    for offset in [0, 5, 8] {
        let mut s = read_receiver("003 table 1 gap", 12, 0)?;
        s.arrives(bytes(1, 0, 0, 0, &[7; 4]), (STORED, 0))?;
        s.arrives(bytes(1, offset, 0, 0, &[7; 4]), (FAILED, 20))?;
        ended(&mut s)?;
        n += s.holds(s.pair.data[0] == [7, 7, 7, 7, 4, 5, 6, 7, 8, 9, 10, 11])?;
    }
    // 001, table 5, is the target's; 01: the initiator has the same tests in the same order, before a discard. Here 4 is expected of 12.
    for (limit, offset, len, number) in [
        (1, 12, 1, 20),
        (1, 12, 0, 20),
        (1, 4, 9, 21),
        (1, 8, 5, 21),
        (1, 4, 0, 22),
        (1, 8, 0, 22),
        (0, 5, 9, 20),
        (0, 5, 0, 20),
        (0, 4, 9, 21),
        (0, 4, 0, 22),
    ] {
        let mut s = read_receiver("001 table 5, read", 12, limit)?;
        s.arrives(bytes(1, 0, 0, 0, &[7; 4]), (STORED, 0))?;
        s.arrives(bytes(1, offset, 0, 0, &vec![9; len]), (FAILED, number))?;
        ended(&mut s)?;
        n += s.holds(s.pair.data[0] == [7, 7, 7, 7, 4, 5, 6, 7, 8, 9, 10, 11])?;
    }
    // 003, "Transition": without retries CDP is not looked at; a relative offset error aborts.
    let mut s = read_receiver("003 transition", 12, 0)?;
    s.arrives(bytes(1, 0, 1, 0, &[7; 4]), (STORED, 0))?;
    s.arrives(bytes(1, 4, 1, 0, &[7; 4]), (STORED, 0))?;
    s.arrives(bytes(1, 0, 1, 0, &[7; 4]), (FAILED, 20))?;
    n += s.holds(true)?;
    // 003, new bits: with CDP the offset "must always go backwards"; 01: up to the filled mark, here 4, and that one too.
    for (offset, due) in [(0, (STORED, 0)), (2, (STORED, 0)), (4, (STORED, 0)), (5, (FAILED, 20)), (8, (FAILED, 20))] {
        let mut s = read_receiver("003 CDP back", 12, 1)?;
        s.arrives(bytes(1, 0, 0, 0, &[7; 4]), (STORED, 0))?;
        s.arrives(bytes(1, offset, 1, 0, &[8; 4]), due)?;
        n += s.holds(true)?;
    }
    // The same where the expected offset, 4, is below the filled mark, 8, since a CDP frame went back: it is the mark that counts.
    for (offset, due) in [(0, (STORED, 0)), (6, (STORED, 0)), (8, (RECEIVED, 0)), (9, (FAILED, 20))] {
        let mut s = read_receiver("003 CDP, filled", 12, 1)?;
        s.arrives(bytes(1, 0, 0, 0, &[7; 8]), (STORED, 0))?;
        s.arrives(bytes(1, 0, 1, 0, &[7; 4]), (STORED, 0))?;
        s.arrives(bytes(1, offset, 1, 0, &vec![8; if offset == 9 { 3 } else { 4 }]), due)?;
        n += s.holds(true)?;
    }
    // 003, read DATA, gap: the initiator may discard, or store at either offset; 01: discards. Resent data it may drop; 01: overwrites.
    let mut s = read_receiver("003 read DATA gap", 16, 1)?;
    s.arrives(bytes(1, 0, 0, 0, &[1; 8]), (STORED, 0))?;
    s.arrives(bytes(1, 12, 0, 0, &[9; 4]), (DISCARDED, 0))?;
    s.arrives(bytes(1, 0, 1, 0, &[2; 4]), (STORED, 0))?;
    s.arrives(bytes(1, 4, 0, 0, &[3; 4]), (STORED, 0))?;
    s.arrives(bytes(1, 8, 0, 0, &[4; 8]), (RECEIVED, 0))?;
    n += s.holds(s.pair.data[0] == [2, 2, 2, 2, 3, 3, 3, 3, 4, 4, 4, 4, 4, 4, 4, 4])?;
    // 003, read DATA: after CDP one offsets increase; a frame past the expected one is a gap though its data stood there before.
    let mut s = read_receiver("003 second gap", 12, 1)?;
    s.arrives(bytes(1, 0, 0, 0, &[1; 8]), (STORED, 0))?;
    s.arrives(bytes(1, 0, 1, 0, &[2; 4]), (STORED, 0))?;
    s.arrives(bytes(1, 8, 0, 0, &[9; 4]), (DISCARDED, 0))?;
    s.arrives(bytes(1, 4, 0, 0, &[9; 4]), (DISCARDED, 0))?;
    s.arrives(bytes(1, 4, 1, 0, &[3; 8]), (RECEIVED, 0))?;
    n += s.holds(s.pair.data[0] == [2, 2, 2, 2, 3, 3, 3, 3, 3, 3, 3, 3])?;
    // 003, figure 1 case 3: a resent read that the initiator has whole is dropped whatever it holds; then comes the RESPONSE.
    let mut s = read_receiver("003 read DATA whole", 4, 1)?;
    s.arrives(bytes(1, 0, 0, 0, &[7; 4]), (RECEIVED, 0))?;
    for (offset, len) in [(0, 4), (0, 5), (4, 4), (0, 0)] {
        s.arrives(bytes(1, offset, 1, 0, &vec![9; len]), (DISCARDED, 0))?;
    }
    s.arrives(bytes(7, 0, 0, 0, &[0; 24]), (RESPONSE, 0))?;
    n += s.holds(s.pair.data[0] == [7; 4])?;
    Ok(n)
}

fn write_data_sent() -> Result<u64, String> {
    let mut n = 0;
    // 003, write DATA, NAK: back to "the last XFER_RDY base offset", here 8, each with its offset, none with RETRANSMIT.
    for call in [Call::Nak, Call::Timeout, Call::Cut] {
        let mut s = asked("003 base", 16, 2, 1, 8)?;
        sends(&mut s, 0, &[0, 4])?;
        taken(&mut s, &[Call::Ack])?;
        let a = s.call(Call::Ack, (DELIVERED, 0))?;
        s.waits()?;
        s.arrives(ready(8, 8, 4, 1), (NEXT_BURST, 0))?;
        sends(&mut s, 1, &[8, 12])?;
        taken(&mut s, &[Call::Ack])?;
        s.call(call, (RETRY, 0))?;
        s.frame(8, 1, 1)?;
        sends(&mut s, 1, &[12])?;
        taken(&mut s, &[Call::Ack])?;
        let b = s.call(Call::Ack, (DELIVERED, 0))?;
        n += s.holds(a.frames == 2 && b.frames == 4)?;
    }
    // 003, table 1, write DATA; "Transition" b): an initiator without retries never retries, RETRY DATA FRAMES one or not.
    for (call, number) in BAD {
        let mut s = asked("003 table 1 write DATA", 8, 1, 0, 8)?;
        sends(&mut s, 0, &[0])?;
        s.call(call, (FAILED, number))?;
        ended(&mut s)?;
        n += s.holds(true)?;
    }
    // 003, 9.2.4.0: at its retry limit it aborts; 01: a write counts from the start of the burst, an ACK between changes nothing.
    let mut s = asked("003 retry limit", 8, 1, 1, 8)?;
    sends(&mut s, 0, &[0])?;
    s.call(Call::Nak, (RETRY, 0))?;
    s.frame(0, 1, 0)?;
    taken(&mut s, &[Call::Ack])?;
    sends(&mut s, 0, &[4])?;
    let a = s.call(Call::Nak, (FAILED, 28))?;
    n += s.holds(a.frames == 3)?;
    // The same: the next burst starts at zero.
    let mut s = asked("003 retry limit, next", 8, 1, 1, 4)?;
    sends(&mut s, 0, &[0])?;
    s.call(Call::Timeout, (RETRY, 0))?;
    s.frame(0, 1, 0)?;
    s.call(Call::Ack, (DELIVERED, 0))?;
    s.arrives(ready(4, 4, 4, 1), (NEXT_BURST, 0))?;
    sends(&mut s, 1, &[4])?;
    s.call(Call::Timeout, (RETRY, 0))?;
    s.frame(4, 1, 1)?;
    s.call(Call::Timeout, (FAILED, 29))?;
    n += s.holds(true)?;
    // 003, 9.2.4.34, write DATA: an XFER_RDY while DATA is resent is processed and should stop it (01: does), and none of the old follows.
    let mut s = asked("003 crossed", 12, 2, 1, 8)?;
    sends(&mut s, 0, &[0, 4])?;
    s.call(Call::Timeout, (RETRY, 0))?;
    s.frame(0, 1, 0)?;
    let a = s.arrives(ready(8, 4, 4, 1), (NEXT_BURST_DELIVERS, 0))?;
    s.waits()?;
    taken(&mut s, &[Call::Ack])?;
    sends(&mut s, 1, &[8])?;
    let b = s.call(Call::Ack, (DELIVERED, 0))?;
    n += s.holds(a.frames == 3 && b.frames == 1)?;
    // The same before the first resent frame: its CDP does not pass to the new burst.
    let mut s = asked("003 crossed at once", 12, 2, 1, 8)?;
    sends(&mut s, 0, &[0, 4])?;
    s.call(Call::Timeout, (RETRY, 0))?;
    let a = s.arrives(ready(8, 4, 4, 1), (NEXT_BURST_DELIVERS, 0))?;
    sends(&mut s, 1, &[8])?;
    n += s.holds(a.frames == 2)?;
    // The same with a RESPONSE: the command ends, frames for it stop.
    let mut s = asked("003 crossed RESPONSE", 12, 2, 1, 8)?;
    sends(&mut s, 0, &[0, 4])?;
    s.call(Call::Timeout, (RETRY, 0))?;
    s.frame(0, 1, 0)?;
    let a = s.arrives(bytes(7, 0, 0, 0, &[0; 24]), (RESPONSE, 0))?;
    ended(&mut s)?;
    n += s.holds(a.frames == 3)?;
    // 003, write DATA: an XFER_RDY is no ACK, the timeout must still occur; 01: nothing of the old burst fails then, even without retries.
    for (call, _) in BAD {
        let mut s = asked("003 no ACK", 8, 2, 0, 4)?;
        sends(&mut s, 0, &[0])?;
        s.arrives(ready(4, 4, 4, 1), (NEXT_BURST_DELIVERS, 0))?;
        s.waits()?;
        taken(&mut s, &[call])?;
        sends(&mut s, 1, &[4])?;
        n += s.holds(true)?;
    }
    Ok(n)
}

pub fn all() -> Result<u64, String> {
    Ok(read_data_sent()? + read_data_received()? + write_data_sent()?)
}

// No vector:
// - 001, HARD_RESET, Cancel, Break Received, table 4: no entry point; connections are left to others.
// - 001, 9.2.6.3.3.2, Enable First Burst, and all of first burst in 002: left to others.
// - 001, 9.2.6.3.3.3.1, arguments for the OPEN address frame; destination, tag in messages: connections; a record is one command.
// - 001, 9.2.6.3.3.6, 002, 1.0.0.1.3.3.1, "ACK Transmitted" for each DATA frame before more goes out: the link's.
// - 001, 9.2.6.3.3.7.1, table 6, DATAPRES to SENSE DATA; 002, tables 2 and 3: at the target the RESPONSE's IU is the caller's. At the
//   initiator K9 opens it, see `opened_vectors`.
// - 001 and 002, Initiator Response Timeout, 002, table 4, its mode page: no entry point.
// - 002, 1.0.0.1.2, Accept_Reject OPENs, unsuccessful or not balanced frames: the link's; a damaged frame is kept from the port.
// - 002, 1.0.0.1.2, IU, tag, TPTT and logical unit of COMMAND and TASK: their contents are left to others.
// - 002, services of the SCSI application layer: the caller's.
// - 003, COMMAND or TASK problems, 9.2.4.3.1, 9.2.4.3.2, QUERY TASK: left to others.
// - 003, DONE (ACK/NAK TIMEOUT), "in a new connection": connections are left to others.
// - 003, CHECK CONDITION, ABORTED COMMAND, Optimized Recovery bit: the caller's; here the numbers and the retry limit.
// - 003, "Transition", ports that test reserved fields: 01 ignores them, see `headers`.
// - 003, storing after a gap at wrong or right offsets, writing on for the old XFER_RDY: choices that 01 does not take.
