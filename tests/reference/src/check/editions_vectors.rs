//! K7 by hand: whole frames in hexadecimal, as the paper lays them out, with R1's addresses and tag; what is refused; whole records.
use super::editions::{named, transfer_of, EDGES};
use super::pair::{Call, Rec};
use super::vectors::*;
use crate::records::*;

fn hex(text: &str) -> Vec<u8> {
    text.split_whitespace().map(|byte| u8::from_str_radix(byte, 16).unwrap()).collect()
}

/// A record set up with this edition and value.
fn new(name: &'static str, rec: Rec, t: Transfer, sas2: bool, value: u16) -> Result<Script, String> {
    Script::new(name, rec, Transfer { sas2, value, ..t })
}

fn read(name: &'static str, count: u32, window: u32, limit: u32, (sas2, value): (bool, u16)) -> Result<Script, String> {
    new(name, Rec::Sender(Sender::default()), transfer(false, count, window, limit, count), sas2, value)
}

fn reader(name: &'static str, count: u32, limit: u32, (sas2, value): (bool, u16)) -> Result<Script, String> {
    new(name, Rec::Receiver(Receiver::default()), transfer(false, count, 4, limit, count), sas2, value)
}

fn write(name: &'static str, count: u32, window: u32, limit: u32, (sas2, value): (bool, u16)) -> Result<Script, String> {
    new(name, Rec::Writer(Writer::default()), transfer(true, count, window, limit, count), sas2, value)
}

fn written(name: &'static str, count: u32, limit: u32, burst: u32, (sas2, value): (bool, u16)) -> Result<Script, String> {
    new(name, Rec::Target(Target::default()), transfer(true, count, 4, limit, burst), sas2, value)
}

fn response(name: &'static str, write: bool, limit: u32, (sas2, value): (bool, u16)) -> Result<Script, String> {
    new(name, Rec::Responder(Responder::default()), transfer(write, 4, 4, limit, 4), sas2, value)
}

/// This frame, whole, is handed out.
fn hands(s: &mut Script, due: &str) -> Result<(), String> {
    let a = s.call(Call::Next(s.pair.data[0].len(), 1048), (FRAME, 0))?;
    let f = &s.pair.out[1][..a.len];
    if *f == hex(due) {
        return Ok(());
    }
    Err(format!("{}: handed out at both sides\n  {f:02x?}\n  due\n  {:02x?}", s.name, hex(due)))
}

/// Read DATA: R1 and R2 under both editions, with values at the edges.
fn data() -> Result<u64, String> {
    let mut n = 0;
    let table = [
        ((false, 0x0000), "00 00"),
        ((true, 0x0000), "00 00"),
        ((true, 0x0001), "00 01"),
        ((true, 0x00ff), "00 FF"),
        ((true, 0x0100), "01 00"),
        ((true, 0x1234), "12 34"),
        ((true, 0xfffe), "FF FE"),
        ((true, 0xffff), "FF FF"),
    ];
    for (edition, tptt) in table {
        let mut s = read("K7 R1", 8, 2, 1, edition)?;
        hands(&mut s, &format!("01 12 34 56 00 AB CD EF 00 00 00 00 00 00 00 00 00 12 {tptt} 00 00 00 00  00 01 02 03"))?;
        hands(&mut s, &format!("01 12 34 56 00 AB CD EF 00 00 00 00 00 00 00 00 00 12 {tptt} 00 00 00 04  04 05 06 07"))?;
        s.waits()?;
        s.call(Call::Ack, (TAKEN, 0))?;
        let a = s.call(Call::Ack, (DELIVERED, 0))?;
        n += s.holds(a.frames == 2)?;
        let mut s = read("K7 R2", 2, 2, 1, edition)?;
        hands(&mut s, &format!("01 12 34 56 00 AB CD EF 00 00 00 02 00 00 00 00 00 12 {tptt} 00 00 00 00  00 01 00 00"))?;
        n += s.holds(true)?;
    }
    // R5, three sent, two ACKs, timeout: "resent ones too", the first with CDP one; and those that never went out before.
    let mut s = read("K7 R5", 10, 3, 1, (true, 0xbeef))?;
    hands(&mut s, "01 12 34 56 00 AB CD EF 00 00 00 00 00 00 00 00 00 12 BE EF 00 00 00 00  00 01 02 03")?;
    hands(&mut s, "01 12 34 56 00 AB CD EF 00 00 00 00 00 00 00 00 00 12 BE EF 00 00 00 04  04 05 06 07")?;
    hands(&mut s, "01 12 34 56 00 AB CD EF 00 00 00 02 00 00 00 00 00 12 BE EF 00 00 00 08  08 09 00 00")?;
    s.call(Call::Ack, (TAKEN, 0))?;
    s.call(Call::Ack, (TAKEN, 0))?;
    s.call(Call::Timeout, (RETRY, 0))?;
    hands(&mut s, "01 12 34 56 00 AB CD EF 00 00 01 00 00 00 00 00 00 12 BE EF 00 00 00 00  00 01 02 03")?;
    hands(&mut s, "01 12 34 56 00 AB CD EF 00 00 00 00 00 00 00 00 00 12 BE EF 00 00 00 04  04 05 06 07")?;
    hands(&mut s, "01 12 34 56 00 AB CD EF 00 00 00 02 00 00 00 00 00 12 BE EF 00 00 00 08  08 09 00 00")?;
    s.call(Call::Ack, (TAKEN, 0))?;
    s.call(Call::Ack, (TAKEN, 0))?;
    let a = s.call(Call::Ack, (DELIVERED, 0))?;
    n += s.holds(a.frames == 6)?;
    // R6 and a cut; the balance point moves in between, and the value stays.
    let mut s = read("K7 R6", 12, 2, 1, (true, 0x0100))?;
    hands(&mut s, "01 12 34 56 00 AB CD EF 00 00 00 00 00 00 00 00 00 12 01 00 00 00 00 00  00 01 02 03")?;
    hands(&mut s, "01 12 34 56 00 AB CD EF 00 00 00 00 00 00 00 00 00 12 01 00 00 00 00 04  04 05 06 07")?;
    s.call(Call::Nak, (TAKEN, 0))?;
    s.waits()?;
    s.call(Call::Ack, (RETRY, 0))?;
    hands(&mut s, "01 12 34 56 00 AB CD EF 00 00 01 00 00 00 00 00 00 12 01 00 00 00 00 00  00 01 02 03")?;
    s.call(Call::Ack, (TAKEN, 0))?;
    hands(&mut s, "01 12 34 56 00 AB CD EF 00 00 00 00 00 00 00 00 00 12 01 00 00 00 00 04  04 05 06 07")?;
    s.call(Call::Cut, (RETRY, 0))?;
    hands(&mut s, "01 12 34 56 00 AB CD EF 00 00 01 00 00 00 00 00 00 12 01 00 00 00 00 04  04 05 06 07")?;
    hands(&mut s, "01 12 34 56 00 AB CD EF 00 00 00 00 00 00 00 00 00 12 01 00 00 00 00 08  08 09 0A 0B")?;
    let a = s.call(Call::Timeout, (FAILED, 29))?;
    n += s.holds(a.frames == 6)?;
    // Under SAS-1.1 the same, with zero.
    let mut s = read("K7 R6, SAS-1.1", 4, 1, 1, (false, 0))?;
    hands(&mut s, "01 12 34 56 00 AB CD EF 00 00 00 00 00 00 00 00 00 12 00 00 00 00 00 00  00 01 02 03")?;
    s.call(Call::Nak, (RETRY, 0))?;
    hands(&mut s, "01 12 34 56 00 AB CD EF 00 00 01 00 00 00 00 00 00 12 00 00 00 00 00 00  00 01 02 03")?;
    n += s.holds(true)?;
    // A made-up record: the tag in a read's burst is that of no XFER_RDY, and no frame carries it.
    for (edition, tptt) in [((false, 0), "00 00"), ((true, 0), "00 00"), ((true, 0x0901), "09 01")] {
        let mut s = read("K7 burst", 4, 1, 1, edition)?;
        for rec in &mut s.pair.rec {
            let Rec::Sender(r) = rec else { unreachable!() };
            r.burst.tptt = 0x0707;
        }
        hands(&mut s, &format!("01 12 34 56 00 AB CD EF 00 00 00 00 00 00 00 00 00 12 {tptt} 00 00 00 00  00 01 02 03"))?;
        n += s.holds(true)?;
    }
    // The target of a read takes no frame, also with its own value.
    let mut s = read("K7 no arrival", 4, 1, 1, (true, 0x0901))?;
    s.arrives(hex("01 AB CD EF 00 12 34 56 00 00 00 00 00 00 00 00 00 12 09 01 00 00 00 00  00 01 02 03"), (REFUSED, 6))?;
    n += s.holds(true)?;
    Ok(n)
}

/// RESPONSE of a read and of a write, first and resent.
fn responses() -> Result<u64, String> {
    const IU: &str = "00 01 02 03 04 05 06 07 08 09 0A 0B 0C 0D 0E 0F 10 11 12 13 14 15 16 17";
    let mut n = 0;
    let table = [
        ((false, 0x0000), "00 00"),
        ((true, 0x0000), "00 00"),
        ((true, 0x0001), "00 01"),
        ((true, 0x00ff), "00 FF"),
        ((true, 0x0100), "01 00"),
        ((true, 0xabcd), "AB CD"),
        ((true, 0xfffe), "FF FE"),
        ((true, 0xffff), "FF FF"),
    ];
    for write in [false, true] {
        for (edition, tptt) in table {
            let mut s = response("K7 RESPONSE", write, 3, edition)?;
            hands(&mut s, &format!("07 12 34 56 00 AB CD EF 00 00 00 00 00 00 00 00 00 12 {tptt} 00 00 00 00  {IU}"))?;
            s.waits()?;
            for call in [Call::Nak, Call::Timeout, Call::Cut] {
                s.call(call, (RETRY, 0))?;
                hands(&mut s, &format!("07 12 34 56 00 AB CD EF 00 00 02 00 00 00 00 00 00 12 {tptt} 00 00 00 00  {IU}"))?;
            }
            s.call(Call::Nak, (FAILED, 28))?;
            n += s.holds(true)?;
            // "Once even with retries off."
            let mut s = response("K7 RESPONSE, retries off", write, 0, edition)?;
            hands(&mut s, &format!("07 12 34 56 00 AB CD EF 00 00 00 00 00 00 00 00 00 12 {tptt} 00 00 00 00  {IU}"))?;
            s.call(Call::Timeout, (RETRY, 0))?;
            hands(&mut s, &format!("07 12 34 56 00 AB CD EF 00 00 02 00 00 00 00 00 00 12 {tptt} 00 00 00 00  {IU}"))?;
            s.call(Call::Ack, (DELIVERED, 0))?;
            n += s.holds(true)?;
        }
    }
    // With two bytes of fill.
    let mut s = response("K7 RESPONSE, fill", true, 1, (true, 0x0203))?;
    let iu: Vec<u8> = (0..26).collect();
    s.pair.data = [iu.clone(), iu];
    s.call(Call::SetUp(Transfer { sas2: true, value: 0x0203, ..transfer(true, 4, 4, 1, 4) }, 26), (READY, 0))?;
    hands(&mut s, &format!("07 12 34 56 00 AB CD EF 00 00 00 02 00 00 00 00 00 12 02 03 00 00 00 00  {IU} 18 19 00 00"))?;
    s.call(Call::Cut, (RETRY, 0))?;
    hands(&mut s, &format!("07 12 34 56 00 AB CD EF 00 00 02 02 00 00 00 00 00 12 02 03 00 00 00 00  {IU} 18 19 00 00"))?;
    n += s.holds(true)?;
    Ok(n)
}

/// XFER_RDY and write DATA do not carry it, and the target takes DATA by the tag of its XFER_RDY.
fn writes() -> Result<u64, String> {
    let mut n = 0;
    // The value is 0 or 1, which are tags too: 01's "lowest number from 0 that is not in use" is about XFER_RDYs.
    for edition in [(false, 0), (true, 0), (true, 1), (true, 0xffff)] {
        let mut s = written("K7 XFER_RDY", 8, 2, 4, edition)?;
        hands(&mut s, "05 12 34 56 00 AB CD EF 00 00 04 00 00 00 00 00 00 12 00 00 00 00 00 00  00 00 00 00 00 00 00 04 00 00 00 00")?;
        s.call(Call::Nak, (RETRY, 0))?;
        hands(&mut s, "05 12 34 56 00 AB CD EF 00 00 06 00 00 00 00 00 00 12 00 01 00 00 00 00  00 00 00 00 00 00 00 04 00 00 00 00")?;
        s.call(Call::Timeout, (RETRY, 0))?;
        hands(&mut s, "05 12 34 56 00 AB CD EF 00 00 06 00 00 00 00 00 00 12 00 02 00 00 00 00  00 00 00 00 00 00 00 04 00 00 00 00")?;
        s.call(Call::Ack, (ACKNOWLEDGED, 0))?;
        // 8: "in write DATA also a TPTT not current": 0, 1 and FFFFh are not, be they the value or not; 2 is.
        for tptt in ["00 00", "00 01", "FF FF"] {
            let f = format!("01 AB CD EF 00 12 34 56 00 00 00 00 00 00 00 00 00 12 {tptt} 00 00 00 00  09 09 09 09");
            s.arrives(hex(&f), (REFUSED, 8))?;
        }
        s.arrives(hex("01 AB CD EF 00 12 34 56 00 00 00 00 00 00 00 00 00 12 00 02 00 00 00 00  05 05 05 05"), (RECEIVED, 0))?;
        hands(&mut s, "05 12 34 56 00 AB CD EF 00 00 04 00 00 00 00 00 00 12 00 00 00 00 00 00  00 00 00 04 00 00 00 04 00 00 00 00")?;
        n += s.holds(s.pair.data[1] == [5, 5, 5, 5, 4, 5, 6, 7])?;
        // The initiator: DATA under tag 0304h, first and resent; then the same burst under tag 0.
        let mut s = write("K7 write DATA", 8, 2, 1, edition)?;
        s.arrives(
            hex("05 AB CD EF 00 12 34 56 00 00 04 00 00 00 00 00 00 12 03 04 00 00 00 00  00 00 00 00 00 00 00 08 00 00 00 00"),
            (NEXT_BURST, 0),
        )?;
        hands(&mut s, "01 12 34 56 00 AB CD EF 00 00 00 00 00 00 00 00 00 12 03 04 00 00 00 00  00 01 02 03")?;
        s.call(Call::Timeout, (RETRY, 0))?;
        hands(&mut s, "01 12 34 56 00 AB CD EF 00 00 01 00 00 00 00 00 00 12 03 04 00 00 00 00  00 01 02 03")?;
        s.call(Call::Ack, (TAKEN, 0))?;
        s.arrives(
            hex("05 AB CD EF 00 12 34 56 00 00 06 00 00 00 00 00 00 12 00 00 00 00 00 00  00 00 00 00 00 00 00 08 00 00 00 00"),
            (REPEATED, 0),
        )?;
        hands(&mut s, "01 12 34 56 00 AB CD EF 00 00 00 00 00 00 00 00 00 12 00 00 00 00 00 00  00 01 02 03")?;
        hands(&mut s, "01 12 34 56 00 AB CD EF 00 00 00 00 00 00 00 00 00 12 00 00 00 00 00 04  04 05 06 07")?;
        n += s.holds(true)?;
    }
    Ok(n)
}

/// "Receivers of both ignore it": any TPTT, under either edition, whatever the own value.
fn arrivals() -> Result<u64, String> {
    const IU: &str = "00 00 00 00 00 00 00 00 00 00 00 02 00 00 00 00 00 00 00 00 00 00 00 00";
    let mut n = 0;
    for edition in [(false, 0), (true, 0), (true, 1), (true, 0x0100), (true, 0xffff)] {
        for tptt in ["00 00", "00 01", "00 FF", "01 00", "FF FE", "FF FF"] {
            let data = |byte_10: &str, at: &str, bytes: &str| {
                hex(&format!("01 AB CD EF 00 12 34 56 00 00 {byte_10} 00 00 00 00 00 00 12 {tptt} 00 00 00 {at}  {bytes}"))
            };
            let mut s = reader("K7 read DATA", 12, 1, edition)?;
            s.arrives(data("00", "00", "11 12 13 14"), (STORED, 0))?;
            // A gap, and what is resent; with another tag each time.
            s.arrives(data("00", "08", "99 99 99 99"), (DISCARDED, 0))?;
            s.arrives(hex("01 AB CD EF 00 12 34 56 00 00 01 00 00 00 00 00 00 12 12 34 00 00 00 04  15 16 17 18"), (STORED, 0))?;
            s.arrives(data("00", "08", "19 1A 1B 1C"), (RECEIVED, 0))?;
            s.arrives(data("01", "00", "99 99 99 99"), (DISCARDED, 0))?;
            let due = hex("11 12 13 14 15 16 17 18 19 1A 1B 1C");
            n += s.holds(s.pair.data[1] == due)?;
            let f = hex(&format!("07 AB CD EF 00 12 34 56 00 00 02 00 00 00 00 00 00 12 {tptt} 00 00 00 00  {IU}"));
            let told = Answer { what: RESPONSE, status: 2, start: 24, len: 24, ..Answer::default() };
            let a = s.arrives(f.clone(), (RESPONSE, 0))?;
            n += s.holds(a == told)?;
            let mut s = write("K7 RESPONSE, write", 8, 1, 1, edition)?;
            s.arrives(ready(0, 8, 4, 3), (NEXT_BURST, 0))?;
            hands(&mut s, "01 12 34 56 00 AB CD EF 00 00 00 00 00 00 00 00 00 12 00 03 00 00 00 00  00 01 02 03")?;
            let a = s.arrives(f, (RESPONSE, 0))?;
            n += s.holds(a == Answer { frames: 1, ..told })?;
            // 7, 8 by the tag, 20, 21, 22 as ever.
            let mut s = reader("K7 not taken", 12, 1, edition)?;
            let mut f = data("00", "00", "99 99 99 99");
            f[17] = 0x13;
            s.arrives(f.clone(), (REFUSED, 8))?;
            f[3] = 0xee;
            s.arrives(f, (REFUSED, 7))?;
            s.arrives(data("00", "0C", "99 99 99 99"), (FAILED, 20))?;
            n += s.holds(true)?;
        }
    }
    Ok(n)
}

/// "A nonzero value under SAS-1.1 is 1": at the set-up of every role, and of every record at every call, before any other number.
fn refusals() -> Result<u64, String> {
    let mut n = 0;
    let new = || -> Result<[Script; 6], String> {
        Ok([
            read("K7 set-up, read target", 4, 1, 1, (false, 0))?,
            reader("K7 set-up, read initiator", 4, 1, (false, 0))?,
            write("K7 set-up, write initiator", 4, 1, 1, (false, 0))?,
            written("K7 set-up, write target", 4, 1, 4, (false, 0))?,
            response("K7 set-up, RESPONSE of a read", false, 1, (false, 0))?,
            response("K7 set-up, RESPONSE of a write", true, 1, (false, 0))?,
        ])
    };
    for k in 0..6 {
        for value in EDGES {
            let mut s = new()?.into_iter().nth(k).unwrap();
            let before = s.pair.rec[1];
            let t = *transfer_of(&mut { before });
            let due = if value == 0 { (READY, 0) } else { (REFUSED, 1) };
            s.call(Call::SetUp(Transfer { sas2: false, value, ..t }, 24), due)?;
            n += s.holds(s.pair.rec[1] == before)?;
            // Under SAS-2 it is taken, and goes into the record; no other field is another.
            s.call(Call::SetUp(Transfer { sas2: true, value, ..t }, 24), (READY, 0))?;
            n += s.holds(s.pair.rec[1] == named(before, (true, value)))?;
        }
        // Records: with a frame due, with one out, ended.
        for stage in 0..3 {
            let mut s = new()?.into_iter().nth(k).unwrap();
            let asks = !matches!(s.pair.rec[0], Rec::Receiver(_));
            let lent = s.pair.data[0].len();
            if k == 2 {
                s.arrives(ready(0, 4, 4, 0), (NEXT_BURST, 0))?;
            }
            if stage == 1 && asks {
                s.call(Call::Next(lent, 1048), (FRAME, 0))?;
            }
            if stage == 2 {
                s.call(Call::Loss, (FAILED, 31))?;
            }
            s.pair.rec = s.pair.rec.map(|rec| named(rec, (false, 1)));
            let before = s.pair.clone();
            s.call(Call::Loss, (REFUSED, 1))?;
            if asks {
                for call in [Call::Ack, Call::Nak, Call::Timeout, Call::Cut, Call::Next(lent, 1048), Call::Next(lent, 0)] {
                    s.call(call, (REFUSED, 1))?;
                }
            }
            if k < 4 {
                // 5, 6, 7 and 8 come after it; so do DATA, XFER_RDY and RESPONSE that would be taken, and 22 and 32.
                for f in [vec![], vec![1; 25], bytes(6, 0, 0, 0, &[1; 4]), bytes(1, 0, 0, 0, &[1; 4]), bytes(1, 0, 0, 0, &[])] {
                    s.arrives(f, (REFUSED, 1))?;
                }
                for f in [ready(0, 4, 4, 0), bytes(7, 0, 0, 0, &response_iu(0, 24)), bytes(7, 0, 0, 0, &[1; 4])] {
                    s.arrives(f, (REFUSED, 1))?;
                }
            }
            let kept = s.pair.rec == before.rec && s.pair.data == before.data && s.pair.out == before.out;
            n += s.holds(kept)?;
            // With its edition SAS-2 the same record is no broken one.
            s.pair.rec = s.pair.rec.map(|rec| named(rec, (true, 1)));
            s.call(Call::Loss, if stage == 2 { (REFUSED, 2) } else { (FAILED, 31) })?;
            n += s.holds(true)?;
        }
    }
    Ok(n)
}

/// Calls compared, or the first difference.
pub(super) fn all() -> Result<u64, String> {
    Ok(data()? + responses()? + writes()? + arrivals()? + refusals()?)
}
