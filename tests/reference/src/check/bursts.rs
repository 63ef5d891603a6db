//! Rules and error cases of the T10 papers 001 to 003 as vectors: XFER_RDY at both ends, write DATA at the target, and its timer. Papers and
//! marks as in `states`.
use super::pair::{Call, Rec};
use super::silent_vectors;
use super::states::{asked, ended, open, sends, taken, BAD};
use super::vectors::*;
use crate::records::*;

fn data(offset: u32, flags: u8, tptt: u16, byte: u8, len: usize) -> Vec<u8> {
    bytes(1, offset, flags, tptt, &vec![byte; len])
}

/// A target of twelve bytes whose second XFER_RDY, for 4 to 8 under tag 1, had its ACK.
pub(super) fn second(name: &'static str, limit: u32) -> Result<Script, String> {
    let mut s = open(name, 12, limit, 4)?;
    s.arrives(data(0, 0, 0, 7, 4), (RECEIVED, 0))?;
    s.frame(4, if limit > 0 { 4 } else { 0 }, 1)?;
    s.call(Call::Ack, (ACKNOWLEDGED, 0))?;
    Ok(s)
}

fn write_data_received() -> Result<u64, String> {
    let mut n = 0;
    // 001, table 5; 002, 1.0.0.1.3.5.1 b) to d). Each: retry limit, offset, byte 10, bytes, number.
    let table = [
        // Less than the requested offset, or not less than that plus the length.
        (1, 0, 0, 4, 20),
        (1, 3, 1, 1, 20),
        (1, 8, 0, 1, 20),
        (1, 8, 1, 1, 20),
        (1, u32::MAX, 0, 4, 20),
        (0, 8, 0, 4, 20),
        // Without retries, another than the expected one.
        (0, 5, 0, 1, 20),
        (0, 5, 1, 1, 20),
        // 01: CDP one above the filled mark; in 001 it has no test of its own.
        (1, 5, 1, 1, 20),
        // Too much: 001 compares with the whole byte count, 002 b) with the XFER_RDY's length; 01: passes the burst's end.
        (1, 4, 0, 5, 21),
        (1, 4, 1, 8, 21),
        (0, 4, 0, 1024, 21),
        // 001 adds the bytes to those received; 01: to the offset, also where the frame would be discarded for a gap.
        (1, 6, 0, 3, 21),
        // No data bytes; likewise before the discard.
        (1, 4, 0, 0, 22),
        (0, 4, 0, 0, 22),
        (1, 6, 0, 0, 22),
        // 001, table 5, note a: the offset goes first, then too much; 002 has the offset last.
        (1, 8, 0, 0, 20),
        (1, 3, 0, 9, 20),
        (0, 5, 0, 9, 20),
        (0, 5, 0, 0, 20),
    ];
    for (limit, offset, flags, len, number) in table {
        let mut s = second("001 table 5", limit)?;
        s.arrives(data(offset, flags, 1, 9, len), (FAILED, number))?;
        s.arrives(data(4, 0, 1, 9, 4), (REFUSED, 2))?;
        ended(&mut s)?;
        n += s.holds(s.pair.data[0] == [7, 7, 7, 7, 4, 5, 6, 7, 8, 9, 10, 11])?;
    }
    // 001, "should discard all until CDP one": also the frame at the expected offset; table 5 (01) still holds meanwhile.
    let mut s = second("001 discards", 1)?;
    s.arrives(data(6, 0, 1, 9, 2), (DISCARDED, 0))?;
    s.arrives(data(4, 0, 1, 9, 4), (DISCARDED, 0))?;
    s.arrives(data(4, 1, 1, 8, 2), (STORED, 0))?;
    s.arrives(data(6, 0, 1, 8, 2), (RECEIVED, 0))?;
    n += s.holds(s.pair.data[0] == [7, 7, 7, 7, 8, 8, 8, 8, 8, 9, 10, 11])?;
    let mut s = second("001 discards, table 5", 1)?;
    s.arrives(data(6, 0, 1, 9, 2), (DISCARDED, 0))?;
    s.arrives(data(8, 0, 1, 9, 2), (FAILED, 20))?;
    n += s.holds(true)?;
    // 001: at CDP one the received count becomes the requested offset; 01: the end of that frame, so the frame at 8 is the expected one.
    // 001: overlapping data may be dropped or replace; 01: it replaces.
    let mut s = open("001 CDP", 12, 1, 12)?;
    s.arrives(data(0, 0, 0, 1, 8), (STORED, 0))?;
    s.arrives(data(4, 1, 0, 2, 4), (STORED, 0))?;
    s.arrives(data(8, 0, 0, 3, 4), (RECEIVED, 0))?;
    n += s.holds(s.pair.data[0] == [1, 1, 1, 1, 2, 2, 2, 2, 3, 3, 3, 3])?;
    // The same at the requested offset: 4 is expected then, 8 a gap though all below it was received.
    let mut s = open("001 CDP at base", 12, 1, 12)?;
    s.arrives(data(0, 0, 0, 1, 8), (STORED, 0))?;
    s.arrives(data(0, 1, 0, 2, 4), (STORED, 0))?;
    s.arrives(data(8, 0, 0, 9, 4), (DISCARDED, 0))?;
    s.arrives(data(0, 1, 0, 3, 12), (RECEIVED, 0))?;
    n += s.holds(s.pair.data[0] == [3; 12])?;
    // 001: all of the byte count received is told, and no XFER_RDY is due; 003, figure 1 case 3: what is resent then is dropped, any of it.
    let mut s = open("001 received", 4, 1, 4)?;
    s.arrives(data(0, 0, 0, 1, 4), (RECEIVED, 0))?;
    s.waits()?;
    for (offset, len) in [(0, 4), (0, 5), (4, 4), (0, 0)] {
        s.arrives(data(offset, 1, 0, 9, len), (DISCARDED, 0))?;
    }
    n += s.holds(s.pair.data[0] == [1; 4])?;
    // 003, XFER_RDY: DATA before the ACK is discarded; 01: without table 5's tests, also between a timeout and the resend.
    let mut s = target("003 before the ACK", 8, 1, 8)?;
    s.frame(0, 4, 0)?;
    for (offset, len) in [(0, 4), (0, 9), (8, 4), (4, 0)] {
        s.arrives(data(offset, 0, 0, 9, len), (DISCARDED, 0))?;
    }
    s.call(Call::Timeout, (RETRY, 0))?;
    s.arrives(data(0, 0, 0, 9, 4), (DISCARDED, 0))?;
    // 003, table 1, XFER_RDY row 3, with retries: the XFER_RDY goes again, old DATA has an unknown tag, the new is stored.
    s.frame(0, 6, 1)?;
    s.call(Call::Ack, (ACKNOWLEDGED, 0))?;
    s.arrives(data(4, 0, 0, 9, 4), (REFUSED, 8))?;
    s.arrives(data(0, 0, 1, 5, 4), (STORED, 0))?;
    s.arrives(data(0, 1, 0, 9, 4), (REFUSED, 8))?;
    s.arrives(data(4, 0, 1, 5, 4), (RECEIVED, 0))?;
    n += s.holds(s.pair.data[0] == [5; 8])?;
    // 003, write DATA: resent DATA that crosses the next XFER_RDY is told by its TPTT. 002 a): a wrong TPTT ends the transfer; 01: it is
    // refused, and the transfer goes on. Before any XFER_RDY no TPTT is right.
    let mut s = target("002 TPTT", 8, 1, 4)?;
    s.arrives(data(0, 0, 0, 9, 4), (REFUSED, 8))?;
    s.frame(0, 4, 0)?;
    s.call(Call::Ack, (ACKNOWLEDGED, 0))?;
    s.arrives(data(0, 0, 1, 9, 4), (REFUSED, 8))?;
    s.arrives(data(0, 0, 0x100, 9, 4), (REFUSED, 8))?;
    s.arrives(data(0, 0, 0, 5, 4), (RECEIVED, 0))?;
    s.frame(4, 4, 1)?;
    s.arrives(data(0, 1, 0, 9, 4), (REFUSED, 8))?;
    s.call(Call::Ack, (ACKNOWLEDGED, 0))?;
    s.arrives(data(0, 1, 0, 9, 4), (REFUSED, 8))?;
    s.arrives(data(4, 0, 1, 5, 4), (RECEIVED, 0))?;
    n += s.holds(s.pair.data[0] == [5; 8])?;
    Ok(n)
}

fn xfer_rdy_sent() -> Result<u64, String> {
    let mut n = 0;
    // 001, 9.2.6.3.3.5.1 a) to n): every byte. The length is what there is room for (01: the burst), at last what remains (9.2.6.3.3.6.3,
    // step 3, subtracts the old offset; 01: the new one). RETRY DATA FRAMES says if there are retries. TPTT differs from the one before
    // (003: also in one that is not resent; 01: also without retries).
    for limit in [0, 1] {
        let mut s = target("001 XFER_RDY", 10, limit, 4)?;
        let mut alike = true;
        for (offset, len, tptt) in [(0u8, 4u8, 0u8), (4, 4, 1), (8, 2, 0)] {
            let f = s.frame(offset.into(), 4 * limit as u8, tptt.into())?;
            let mut due = [0; 36];
            due[..8].copy_from_slice(&[5, 0x12, 0x34, 0x56, 0, 0xab, 0xcd, 0xef]);
            (due[10], due[17], due[19]) = (4 * limit as u8, 0x12, tptt);
            (due[27], due[31]) = (offset, len);
            alike &= f == due;
            // 001, 9.2.6.3.3.3.1: it is interlocked, nothing follows before its answer, nor before the burst is filled.
            s.waits()?;
            s.call(Call::Ack, (ACKNOWLEDGED, 0))?;
            s.waits()?;
            s.arrives(data(offset.into(), 0, tptt.into(), 7, len.into()), (RECEIVED, 0))?;
        }
        s.waits()?;
        n += s.holds(alike && s.pair.data[0] == [7; 10])?;
    }
    // 001, 9.2.6.3.3.3.1, XFER_RDY a) to d): resent with RETRANSMIT one, another TPTT and the rest the same, until the number of retries
    // has been reached; the failure is by the last answer.
    for (last, number) in BAD {
        let mut s = target("001 XFER_RDY again", 8, 3, 8)?;
        let first = s.frame(0, 4, 0)?;
        let mut alike = true;
        for (tptt, (call, _)) in (1u8..).zip(BAD) {
            s.call(call, (RETRY, 0))?;
            let mut f = s.frame(0, 6, tptt.into())?;
            s.waits()?;
            (f[10], f[19]) = (4, 0);
            alike &= f == first;
        }
        s.call(last, (FAILED, number))?;
        ended(&mut s)?;
        n += s.holds(alike)?;
    }
    // 001, b): earlier tags leave use when write data comes for a later XFER_RDY; the one it came under is still in use.
    let mut s = target("001 XFER_RDY b", 8, 15, 4)?;
    for (base, tags) in [(0, [0, 1, 2, 3]), (4, [0, 1, 2, 4])] {
        s.frame(base, 4, tags[0])?;
        for tag in &tags[1..] {
            s.call(Call::Nak, (RETRY, 0))?;
            s.frame(base, 6, *tag)?;
        }
        s.call(Call::Ack, (ACKNOWLEDGED, 0))?;
        s.arrives(data(base, 0, tags[3], 7, 4), (RECEIVED, 0))?;
    }
    n += s.holds(s.pair.data[0] == [7; 8])?;
    // 001, b) says "received"; 01: stored. What is discarded frees no tag.
    let mut s = target("001 XFER_RDY b, discarded", 4, 3, 4)?;
    s.frame(0, 4, 0)?;
    s.call(Call::Timeout, (RETRY, 0))?;
    s.frame(0, 6, 1)?;
    s.arrives(data(0, 0, 1, 9, 4), (DISCARDED, 0))?;
    s.call(Call::Cut, (RETRY, 0))?;
    s.frame(0, 6, 2)?;
    n += s.holds(true)?;
    // 003, 9.2.4.3.3 without retries; table 1 row 3: DATA may come before; no ACK or NAK ends the command, as a NAK does.
    for (call, number) in BAD {
        let mut s = target("003 XFER_RDY off", 4, 0, 4)?;
        s.frame(0, 0, 0)?;
        s.arrives(data(0, 0, 0, 9, 4), (DISCARDED, 0))?;
        s.call(call, (FAILED, number))?;
        ended(&mut s)?;
        n += s.holds(s.pair.data[0] == [0, 1, 2, 3])?;
    }
    Ok(n)
}

fn xfer_rdy_taken() -> Result<u64, String> {
    let mut n = 0;
    // 003, figure 1 cases 4 and 5: the first XFER_RDY never came; the resent one starts the burst. Its DATA has no RETRANSMIT, any TPTT.
    let mut s = writer("003 first lost", 8, 2, 1)?;
    s.arrives(ready(0, 4, 6, 0xfffe), (NEXT_BURST, 0))?;
    sends(&mut s, 0xfffe, &[0])?;
    s.call(Call::Ack, (DELIVERED, 0))?;
    s.arrives(ready(4, 4, 6, 3), (NEXT_BURST, 0))?;
    sends(&mut s, 3, &[4])?;
    n += s.holds(true)?;
    // 003, case 3: the ACK was lost, all DATA went out and was discarded; the resent XFER_RDY has it all sent again, CDP zero.
    let mut s = asked("003 ACK lost", 8, 2, 1, 8)?;
    sends(&mut s, 0, &[0, 4])?;
    taken(&mut s, &[Call::Ack])?;
    s.call(Call::Ack, (DELIVERED, 0))?;
    s.arrives(ready(0, 8, 6, 1), (REPEATED, 0))?;
    sends(&mut s, 1, &[0, 4])?;
    taken(&mut s, &[Call::Ack])?;
    let a = s.call(Call::Ack, (DELIVERED, 0))?;
    n += s.holds(a.frames == 2)?;
    // The same, but the next XFER_RDY comes before all of the repeated burst went out: 01: 27, what went out before does not count.
    let mut s = asked("003 repeated, next", 12, 2, 1, 8)?;
    sends(&mut s, 0, &[0, 4])?;
    taken(&mut s, &[Call::Ack])?;
    s.call(Call::Ack, (DELIVERED, 0))?;
    s.arrives(ready(0, 8, 6, 1), (REPEATED, 0))?;
    sends(&mut s, 1, &[0])?;
    s.arrives(ready(8, 4, 4, 2), (FAILED, 27))?;
    n += s.holds(true)?;
    // 003, 9.2.4.3.3: while the first is in service; no DATA of the old one after it. What is resent later has CDP and no RETRANSMIT.
    let mut s = asked("003 RETRANSMIT", 8, 1, 1, 8)?;
    sends(&mut s, 0, &[0])?;
    taken(&mut s, &[Call::Ack])?;
    s.arrives(ready(0, 8, 6, 1), (REPEATED, 0))?;
    sends(&mut s, 1, &[0])?;
    s.call(Call::Nak, (RETRY, 0))?;
    s.frame(0, 1, 1)?;
    taken(&mut s, &[Call::Ack])?;
    sends(&mut s, 1, &[4])?;
    n += s.holds(true)?;
    // The same with a NAK pending: 01: the old burst has no retry, the new one starts clean when the last answer is in.
    let mut s = asked("003 RETRANSMIT, NAK", 8, 2, 0, 8)?;
    sends(&mut s, 0, &[0, 4])?;
    taken(&mut s, &[Call::Nak])?;
    s.arrives(ready(0, 8, 6, 1), (REPEATED, 0))?;
    s.waits()?;
    taken(&mut s, &[Call::Ack])?;
    sends(&mut s, 1, &[0, 4])?;
    n += s.holds(true)?;
    // 003, XFER_RDY: the new one waits for the old; 01: then it is the previous one, and may itself be resent, before it started.
    let mut s = asked("003 resent while it waits", 12, 2, 1, 4)?;
    sends(&mut s, 0, &[0])?;
    s.arrives(ready(4, 4, 4, 1), (NEXT_BURST_DELIVERS, 0))?;
    s.arrives(ready(4, 4, 6, 2), (REPEATED, 0))?;
    s.waits()?;
    taken(&mut s, &[Call::Timeout])?;
    sends(&mut s, 2, &[4])?;
    n += s.holds(true)?;
    // 003, 9.2.1: RETRY DATA FRAMES is of its own XFER_RDY, be it the next one or the same again.
    for (first, offset, flags, what, due) in [
        (4, 4, 0, NEXT_BURST, (FAILED, 28)),
        (0, 4, 4, NEXT_BURST, (RETRY, 0)),
        (4, 0, 2, REPEATED, (FAILED, 28)),
        (0, 0, 6, REPEATED, (RETRY, 0)),
    ] {
        let mut s = writer("003 RETRY DATA FRAMES", 8, 1, 1)?;
        s.arrives(ready(0, 4, first, 0), (NEXT_BURST, 0))?;
        sends(&mut s, 0, &[0])?;
        s.call(Call::Ack, (DELIVERED, 0))?;
        s.arrives(ready(offset, 4, flags, 1), (what, 0))?;
        sends(&mut s, 1, &[offset])?;
        s.call(Call::Nak, due)?;
        n += s.holds(true)?;
    }
    // 003, XFER_RDY with RETRANSMIT zero while one is in service ends the command; 01: 27 at its end, with RETRANSMIT too; 26 at another
    // offset, also at the base of the burst before; these before 25, which K3 has for a repeat of another length.
    let at_other = [(8, 4, 6, 27), (8, 0, 4, 27), (4, 4, 4, 26), (4, 0, 4, 26), (4, 3, 4, 26), (0, 4, 6, 26), (0, 3, 6, 26), (6, 2, 6, 26)];
    let at_base = [0, 1, 3, 5, 8, 9].map(|len| (4, len, 6, 25));
    for (offset, len, flags, number) in at_other.into_iter().chain(at_base) {
        let mut s = asked("003 in service", 12, 2, 1, 4)?;
        sends(&mut s, 0, &[0])?;
        s.arrives(ready(4, 4, 4, 1), (NEXT_BURST_DELIVERS, 0))?;
        s.arrives(ready(offset, len, flags, 2), (FAILED, number))?;
        ended(&mut s)?;
        n += s.holds(matches!(s.pair.rec[0], Rec::Writer(w) if w.sender.ended))?;
    }
    Ok(n)
}

/// The Initiator Response Timeout timer. In 001 and 002 it runs by itself; K4: by reports of time.
fn timer() -> Result<u64, String> {
    let mut n = 0;
    let time = |s: &mut Script, ms, due: (u8, u8)| s.call(Call::Time(ms), due).map(|_| ());
    // 002, 1.0.0.1.3.5.1 b) and 001, 9.2.6.3.3.6.1 a): it starts when the state is entered, at the XFER_RDY's ACK, and expires at its value.
    // 002: that ends the state machine.
    let mut s = silent_vectors::open("002 timer b", 2000, 8, 1, 8)?;
    time(&mut s, 1999, (TAKEN, 0))?;
    time(&mut s, 1, (FAILED, 33))?;
    ended(&mut s)?;
    n += s.holds(true)?;
    // 002, c) and 001, b): it starts again when data was processed, also where that replaces what was received before.
    let mut s = silent_vectors::open("002 timer c", 2000, 8, 1, 8)?;
    for (offset, flags) in [(0, 0), (2, 0), (0, 1), (2, 0), (4, 0)] {
        time(&mut s, 1999, (TAKEN, 0))?;
        s.arrives(data(offset, flags, 0, 7, 2), (STORED, 0))?;
    }
    time(&mut s, 2000, (FAILED, 33))?;
    n += s.holds(s.pair.data[0] == [7, 7, 7, 7, 7, 7, 6, 7])?;
    // 002, a): at any DATA that arrives; K4: not at one that is discarded. Nor, 001, b), at one of another tag, which is not verified.
    for (f, due) in [(data(4, 0, 0, 9, 4), (DISCARDED, 0)), (data(0, 0, 1, 9, 4), (REFUSED, 8))] {
        let mut s = silent_vectors::open("002 timer a", 2000, 8, 1, 8)?;
        time(&mut s, 1000, (TAKEN, 0))?;
        s.arrives(f, due)?;
        time(&mut s, 1000, (FAILED, 33))?;
        n += s.holds(true)?;
    }
    // 001: it is stopped when the state is left, at a burst's end; neither paper starts it while an XFER_RDY goes out.
    let mut s = silent_vectors::fresh("001 timer stopped", 2000, 8, 1, 4)?;
    for base in [0, 4] {
        time(&mut s, 65_535, (UNCHANGED, 0))?;
        s.frame(base, 4, base as u16 / 4)?;
        time(&mut s, 65_535, (UNCHANGED, 0))?;
        s.call(Call::Ack, (ACKNOWLEDGED, 0))?;
        time(&mut s, 1999, (TAKEN, 0))?;
        s.arrives(data(base, 0, base as u16 / 4, 7, 4), (RECEIVED, 0))?;
    }
    time(&mut s, 65_535, (UNCHANGED, 0))?;
    n += s.holds(s.pair.data[0] == [7; 8])?;
    // 002, table 4: "An initiator response timeout of zero indicates that the SSP target port shall disable" it.
    let mut s = silent_vectors::open("002 timer off", 0, 8, 1, 8)?;
    time(&mut s, 65_535, (UNCHANGED, 0))?;
    s.arrives(data(0, 0, 0, 7, 8), (RECEIVED, 0))?;
    n += s.holds(true)?;
    Ok(n)
}

pub fn all() -> Result<u64, String> {
    Ok(write_data_received()? + xfer_rdy_sent()? + xfer_rdy_taken()? + timer()?)
}
