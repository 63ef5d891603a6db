//! The error cases of the T10 papers as vectors. Paper 000 is 03-186r5, 004 is 07-166r0. The five cases are those of 000, figure 1:
//! frame and ACK arrive; NAK arrives; ACK lost; NAK lost; frame lost. To the sender the last three are a timeout.
use super::pair::{Call, Rec};
use super::vectors::*;
use crate::records::*;

fn read_data() -> Result<u64, String> {
    let mut n = 0;
    // 000, "Read DATA problems" a), c), e): NAK, go back to the balance point, CDP one; stop sending at the NAK.
    let mut s = read_sender("000 read DATA a", 16, 2, 1)?;
    s.frame(0, 0, 0)?;
    s.call(Call::Ack, (TAKEN, 0))?;
    s.frame(4, 0, 0)?;
    s.frame(8, 0, 0)?;
    s.call(Call::Nak, (TAKEN, 0))?;
    s.waits()?;
    s.call(Call::Ack, (RETRY, 0))?;
    s.frame(4, 1, 0)?;
    // f): offsets only grow after it, CDP zero.
    s.frame(8, 0, 0)?;
    n += s.holds(true)?;
    // 000, "Read DATA problems" b): timeout, all since the last balance point; d) RETRANSMIT is not used.
    let mut s = read_sender("000 read DATA b", 12, 3, 1)?;
    s.frame(0, 0, 0)?;
    s.call(Call::Ack, (TAKEN, 0))?;
    s.frame(4, 0, 0)?;
    s.call(Call::Timeout, (RETRY, 0))?;
    s.frame(4, 1, 0)?;
    s.frame(8, 0, 0)?;
    s.call(Call::Ack, (TAKEN, 0))?;
    let a = s.call(Call::Ack, (DELIVERED, 0))?;
    n += s.holds(a.frames == 4)?;
    // 000, table 1 row 2: without retries the target terminates the command at a NAK; rows 3 to 5 at a timeout.
    for (call, number) in [(Call::Nak, 28), (Call::Timeout, 29), (Call::Cut, 30)] {
        let mut s = read_sender("000 table 1 read DATA", 4, 1, 0)?;
        s.frame(0, 0, 0)?;
        s.call(call, (FAILED, number))?;
        s.call(Call::Ack, (REFUSED, 2))?;
        n += s.holds(true)?;
    }
    // 000, "Read DATA problems" g): after a gap the initiator discards until CDP one, and does not abort.
    let mut s = read_receiver("000 read DATA g", 12, 1)?;
    s.arrives(bytes(1, 4, 0, 0, &[7; 4]), (DISCARDED, 0))?;
    s.arrives(bytes(1, 0, 0, 0, &[7; 4]), (DISCARDED, 0))?;
    s.arrives(bytes(1, 0, 1, 0, &[7; 4]), (STORED, 0))?;
    s.arrives(bytes(1, 4, 0, 0, &[7; 4]), (STORED, 0))?;
    s.arrives(bytes(1, 8, 0, 0, &[7; 4]), (RECEIVED, 0))?;
    n += s.holds(s.pair.data[0] == [7; 12])?;
    // An ACK was lost (case 3): all of it comes again and is discarded, as it is filled.
    s.arrives(bytes(1, 0, 1, 0, &[9; 4]), (DISCARDED, 0))?;
    n += s.holds(s.pair.data[0] == [7; 12])?;
    Ok(n)
}

fn write_data() -> Result<u64, String> {
    let mut n = 0;
    // 000, "Write DATA problems" b), f): NAK, back to the XFER_RDY's base, not the balance point; only the first has CDP one.
    for (call, name) in [(Call::Nak, "000 write DATA b"), (Call::Timeout, "000 write DATA c"), (Call::Cut, "000 write DATA cut")] {
        let mut s = writer(name, 12, 1, 1)?;
        s.arrives(ready(0, 12, 4, 7), (NEXT_BURST, 0))?;
        s.frame(0, 0, 7)?;
        s.call(Call::Ack, (TAKEN, 0))?;
        s.frame(4, 0, 7)?;
        s.call(call, (RETRY, 0))?;
        s.frame(0, 1, 7)?;
        s.call(Call::Ack, (TAKEN, 0))?;
        s.frame(4, 0, 7)?;
        n += s.holds(true)?;
    }
    // 000, "Write DATA problems" a): RETRY DATA FRAMES zero, no retry.
    for (call, number) in [(Call::Nak, 28), (Call::Timeout, 29), (Call::Cut, 30)] {
        let mut s = writer("000 write DATA a", 8, 2, 3)?;
        s.arrives(ready(0, 8, 0, 0), (NEXT_BURST, 0))?;
        s.frame(0, 0, 0)?;
        s.call(call, (FAILED, number))?;
        n += s.holds(true)?;
    }
    // 000, "Write DATA problems" g) A): a RESPONSE crosses resent DATA; the initiator takes it and stops.
    let mut s = writer("000 write DATA g A", 8, 2, 1)?;
    s.arrives(ready(0, 8, 4, 0), (NEXT_BURST, 0))?;
    s.frame(0, 0, 0)?;
    s.frame(4, 0, 0)?;
    s.arrives(bytes(7, 0, 0, 0, &[0; 24]), (RESPONSE, 0))?;
    s.call(Call::Timeout, (REFUSED, 2))?;
    n += s.holds(true)?;
    // 000, "Write DATA problems" g) B), h): an XFER_RDY crosses; no DATA of the new one till the old one's answers are done.
    let mut s = writer("000 write DATA g B", 8, 2, 1)?;
    s.arrives(ready(0, 4, 4, 0), (NEXT_BURST, 0))?;
    s.frame(0, 0, 0)?;
    let a = s.arrives(ready(4, 4, 4, 1), (NEXT_BURST_DELIVERS, 0))?;
    s.waits()?;
    s.call(Call::Timeout, (TAKEN, 0))?;
    s.frame(4, 0, 1)?;
    n += s.holds(a.frames == 1)?;
    // 000, "Write DATA problems" i): the target discards after a gap until CDP one.
    let mut s = target("000 write DATA i", 12, 1, 12)?;
    s.frame(0, 4, 0)?;
    s.call(Call::Ack, (ACKNOWLEDGED, 0))?;
    s.arrives(bytes(1, 8, 0, 0, &[7; 4]), (DISCARDED, 0))?;
    s.arrives(bytes(1, 0, 1, 0, &[7; 4]), (STORED, 0))?;
    s.arrives(bytes(1, 4, 0, 0, &[7; 8]), (RECEIVED, 0))?;
    n += s.holds(s.pair.data[0] == [7; 12])?;
    Ok(n)
}

fn xfer_rdy() -> Result<u64, String> {
    let mut n = 0;
    // 000, "XFER RDY problems" a), b), c); 004, 9.2.4.4.2: sent again with RETRANSMIT one and another TPTT.
    for (call, number) in [(Call::Nak, 28), (Call::Timeout, 29), (Call::Cut, 30)] {
        let mut s = target("000 XFER_RDY a b c", 8, 1, 4)?;
        s.frame(0, 4, 0)?;
        s.call(call.clone(), (RETRY, 0))?;
        s.frame(0, 6, 1)?;
        // 000, "XFER RDY problems" d): DATA before the ACK is discarded; under the old tag it is unknown.
        s.arrives(bytes(1, 0, 0, 1, &[7; 4]), (DISCARDED, 0))?;
        s.arrives(bytes(1, 0, 0, 0, &[7; 4]), (REFUSED, 8))?;
        s.call(call, (FAILED, number))?;
        n += s.holds(true)?;
    }
    // 000, "XFER RDY problems" f), h); 004: the first TPTT is free again once DATA came under the second.
    let mut s = target("000 XFER_RDY h", 12, 1, 4)?;
    s.frame(0, 4, 0)?;
    s.call(Call::Nak, (RETRY, 0))?;
    s.frame(0, 6, 1)?;
    s.call(Call::Ack, (ACKNOWLEDGED, 0))?;
    s.waits()?;
    s.arrives(bytes(1, 0, 0, 1, &[7; 4]), (RECEIVED, 0))?;
    s.frame(4, 4, 0)?;
    s.call(Call::Timeout, (RETRY, 0))?;
    s.frame(4, 6, 2)?;
    n += s.holds(true)?;
    // 000, table 1, XFER_RDY, row 2: without retries the target terminates the command.
    let mut s = target("000 table 1 XFER_RDY", 4, 0, 4)?;
    s.frame(0, 0, 0)?;
    s.call(Call::Nak, (FAILED, 28))?;
    n += s.holds(true)?;
    // 004, 9.2.4.4.2: RETRANSMIT one while the previous one is in service: it stops that one; DATA has the new tag, CDP zero.
    let mut s = writer("004 RETRANSMIT", 8, 2, 1)?;
    s.arrives(ready(0, 8, 4, 0), (NEXT_BURST, 0))?;
    s.frame(0, 0, 0)?;
    s.arrives(ready(0, 8, 6, 1), (REPEATED, 0))?;
    s.waits()?;
    s.call(Call::Nak, (TAKEN, 0))?;
    s.frame(0, 0, 1)?;
    n += s.holds(true)?;
    // 004, overview: it "corresponds to the immediately preceding" one; K3: so its length is that of the burst that it repeats.
    for len in [4, 7, 9, 12] {
        let mut s = writer("004 RETRANSMIT, another length", 12, 2, 1)?;
        s.arrives(ready(0, 8, 4, 0), (NEXT_BURST, 0))?;
        s.frame(0, 0, 0)?;
        s.arrives(ready(0, len, 6, 1), (FAILED, 25))?;
        n += s.holds(true)?;
    }
    // 000, "XFER RDY problems" i): RETRANSMIT zero while one is in service ends the command; a wrong offset likewise.
    for (offset, flags, number) in [(8, 4, 27), (0, 4, 26), (4, 6, 26)] {
        let mut s = writer("000 XFER_RDY i", 12, 2, 1)?;
        s.arrives(ready(0, 8, 4, 0), (NEXT_BURST, 0))?;
        s.frame(0, 0, 0)?;
        s.arrives(ready(offset, 4, flags, 1), (FAILED, number))?;
        n += s.holds(true)?;
    }
    // Length 0, and past the count.
    for len in [0, 13, u32::MAX] {
        let mut s = writer("XFER_RDY length", 12, 2, 1)?;
        s.arrives(ready(0, len, 4, 0), (FAILED, 25))?;
        n += s.holds(true)?;
    }
    Ok(n)
}

fn response() -> Result<u64, String> {
    let mut n = 0;
    // 000, "RESPONSE problems" a), b), c): sent again with RETRANSMIT one, once even with retries off.
    for limit in [0, 1] {
        for (call, number) in [(Call::Nak, 28), (Call::Timeout, 29), (Call::Cut, 30)] {
            let mut s = responder("000 RESPONSE", limit)?;
            s.frame(0, 0, 0)?;
            s.waits()?;
            s.call(call.clone(), (RETRY, 0))?;
            s.frame(0, 2, 0)?;
            s.call(call, (FAILED, number))?;
            n += s.holds(true)?;
        }
    }
    let mut s = responder("000 RESPONSE ACK", 0)?;
    let f = s.frame(0, 0, 0)?;
    s.call(Call::Ack, (DELIVERED, 0))?;
    s.call(Call::Ack, (REFUSED, 2))?;
    n += s.holds(f.len() == 48 && matches!(s.pair.rec[0], Rec::Responder(r) if r.ended))?;
    // An IU under 24 bytes at the initiator.
    let mut s = read_receiver("RESPONSE short", 4, 1)?;
    s.arrives(bytes(7, 0, 0, 0, &[0; 23]), (FAILED, 32))?;
    n += s.holds(true)?;
    Ok(n)
}

pub fn all() -> Result<u64, String> {
    Ok(read_data()? + write_data()? + xfer_rdy()? + response()?)
}
