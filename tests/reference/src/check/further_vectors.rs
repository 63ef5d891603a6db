//! K5 by hand: limits, the target of a read, and the roles that have a start and make no use of it; each call with the answer that is due.
//! Paper 001's sentences are those of 9.2.6.3.3, the target's states.
use super::further::MOST;
use super::pair::{Call, Rec};
use super::states::{ended, sends, taken, BAD};
use super::vectors::*;
use crate::records::*;

/// A read of `count` bytes in frames of four, from `start`.
pub(super) fn read(start: u32, count: u32, window: u32, limit: u32) -> Transfer {
    Transfer { start, ..transfer(false, count, window, limit, count) }
}

fn sender(name: &'static str, t: Transfer) -> Result<Script, String> {
    Script::new(name, Rec::Sender(Sender::default()), t)
}

pub(super) fn roles() -> [(&'static str, Rec, bool); 6] {
    [
        ("read, target", Rec::Sender(Sender::default()), false),
        ("read, initiator", Rec::Receiver(Receiver::default()), false),
        ("write, initiator", Rec::Writer(Writer::default()), true),
        ("write, target", Rec::Target(Target::default()), true),
        ("RESPONSE of a read", Rec::Responder(Responder::default()), false),
        ("RESPONSE of a write", Rec::Responder(Responder::default()), true),
    ]
}

/// "Start plus count is at most 16,777,216."; "1 gains the sum and a write's start other than 0".
fn limits() -> Result<u64, String> {
    let mut n = 0;
    let sums = [
        // Start, count, and if a read takes them.
        (0, MOST, true),
        (1, MOST, false),
        (1, MOST - 1, true),
        (2, MOST - 1, false),
        (MOST - 1, 1, true),
        (MOST, 1, false),
        (MOST - 10, 10, true),
        (MOST - 9, 10, false),
        (8_388_608, 8_388_608, true),
        (8_388_609, 8_388_608, false),
        (8_388_608, 8_388_609, false),
        // Sums that pass 32 bits, to 0 and beyond.
        (u32::MAX, 1, false),
        (u32::MAX, 2, false),
        (u32::MAX - 9, 10, false),
        (u32::MAX - 9, 20, false),
        (1 << 31, 1, false),
        (0xff00_0001, MOST, false),
        (0xff00_0000, MOST, false),
        // Other limits hold as before.
        (1, 0, false),
        (MOST, 0, false),
        (0, MOST + 1, false),
    ];
    for (name, rec, write) in roles() {
        let old = transfer(write, 4, 1, 1, 4);
        for (start, count, fits) in sums {
            let mut s = Script::new(name, rec, old)?;
            let before = s.pair.rec[1];
            let t = Transfer { start, count, burst: 1, ..old };
            let taken = fits && (!write || start == 0);
            s.call(Call::SetUp(t, 24), if taken { (READY, 0) } else { (REFUSED, 1) })?;
            n += s.holds(taken || s.pair.rec[1] == before)?;
        }
        // A write's start: 1 is enough, at any count.
        for start in [1, 4, 255, 256, 65_536, MOST - 4, u32::MAX] {
            let mut s = Script::new(name, rec, old)?;
            let taken = !write && start <= MOST - 4;
            s.call(Call::SetUp(Transfer { start, ..old }, 24), if taken { (READY, 0) } else { (REFUSED, 1) })?;
            n += s.holds(true)?;
        }
        // The burst's limit is the count, not start plus count.
        for (burst, fits) in [(4, true), (5, false), (8, false)] {
            let mut s = Script::new(name, rec, old)?;
            let t = Transfer { start: if write { 0 } else { 4 }, burst, ..old };
            s.call(Call::SetUp(t, 24), if fits { (READY, 0) } else { (REFUSED, 1) })?;
            n += s.holds(true)?;
        }
    }
    Ok(n)
}

/// 001, ST_TTS1 a), b): offset and balance point are set "to the Data-In Application Client Buffer Offset argument".
fn set_up() -> Result<u64, String> {
    let t = read(1000, 10, 3, 2);
    let s = sender("K5 set-up", t)?;
    let burst = Burst { base: 1000, end: 1010, limit: 2, tptt: 0 };
    let due = Sender {
        transfer: t,
        burst,
        next: 1000,
        balance: 1000,
        unanswered: 0,
        nak: false,
        cdp: false,
        ended: false,
        retries: 0,
        frames: 0,
    };
    let mut n = s.holds(s.pair.rec[1] == Rec::Sender(due))?;
    // A RESPONSE's record keeps the start and writes data offset zero: "The ports write data offset zero outside DATA".
    let mut s = Script::new("K5 RESPONSE", Rec::Responder(Responder::default()), t)?;
    let due = Responder { transfer: t, len: 24, retries: 0, unanswered: false, ended: false };
    n += s.holds(s.pair.rec[1] == Rec::Responder(due))?;
    let f = s.frame(0, 0, 0)?;
    s.call(Call::Nak, (RETRY, 0))?;
    let g = s.frame(0, 2, 0)?;
    n += s.holds(f[20..24] == [0; 4] && g[20..24] == [0; 4])?;
    Ok(n)
}

/// 001, ST_TTS3: "set the DATA OFFSET field to the Read Data Offset state machine variable"; K5: "The sender's buffer still holds the count alone."
fn frames() -> Result<u64, String> {
    let mut n = 0;
    // Whole frames; R1 with 010203h and 4 more.
    let mut s = sender("K5 header", read(0x01_0203, 8, 2, 1))?;
    let head = [1, 0x12, 0x34, 0x56, 0, 0xab, 0xcd, 0xef, 0, 0, 0, 0, 0, 0, 0, 0, 0, 0x12, 0, 0];
    let f = s.frame(0x01_0203, 0, 0)?;
    n += s.holds(f[..20] == head && f[20..] == [0, 1, 2, 3, 0, 1, 2, 3])?;
    let f = s.frame(0x01_0207, 0, 0)?;
    n += s.holds(f[..20] == head && f[20..] == [0, 1, 2, 7, 4, 5, 6, 7])?;
    // 001 has the Request Byte Count minus the Read Data Offset as what remains, which is below zero here; 01: "what remains".
    let mut s = sender("K5 ten bytes from 7", read(7, 10, 3, 1))?;
    let f = [s.frame(7, 0, 0)?, s.frame(11, 0, 0)?, s.frame(15, 0, 0)?];
    s.waits()?;
    taken(&mut s, &[Call::Ack, Call::Ack])?;
    let a = s.call(Call::Ack, (DELIVERED, 0))?;
    ended(&mut s)?;
    n +=
        s.holds(f[0][24..] == [0, 1, 2, 3] && f[1][24..] == [4, 5, 6, 7] && f[2][24..] == [8, 9, 0, 0] && f[2][11] == 2 && a.frames == 3)?;
    // The same with a start below the count, where that would send 3 bytes of 10 last and none after 10.
    let mut s = sender("K5 ten bytes from 3", read(3, 10, 3, 1))?;
    sends(&mut s, 0, &[3, 7])?;
    let f = s.frame(11, 0, 0)?;
    s.waits()?;
    n += s.holds(f[24..] == [8, 9, 0, 0])?;
    // The last places of all, and the data of the whole read there.
    let mut s = sender("K5 last places", read(MOST - 6, 6, 2, 1))?;
    let f = [s.frame(MOST - 6, 0, 0)?, s.frame(MOST - 2, 0, 0)?];
    s.waits()?;
    taken(&mut s, &[Call::Ack])?;
    let a = s.call(Call::Ack, (DELIVERED, 0))?;
    n += s.holds(f[0][20..] == [0, 0xff, 0xff, 0xfa, 0, 1, 2, 3] && f[1][20..] == [0, 0xff, 0xff, 0xfe, 4, 5, 0, 0] && a.frames == 2)?;
    // One byte from 1: no multiple of four is asked for.
    let mut s = sender("K5 one byte", read(1, 1, 1, 0))?;
    let f = s.frame(1, 0, 0)?;
    let a = s.call(Call::Ack, (DELIVERED, 0))?;
    n += s.holds(f[11] == 3 && f[20..] == [0, 0, 0, 1, 0, 0, 0, 0] && a.frames == 1)?;
    // K7 beside it: the value where it belongs, the offset where it does.
    let mut s = sender("K5 under SAS-2", Transfer { sas2: true, value: 0x0304, irt: 9, ..read(5, 4, 1, 1) })?;
    let f = s.frame(5, 0, 0x0304)?;
    n += s.holds(f[16..24] == [0, 0x12, 3, 4, 0, 0, 0, 5])?;
    Ok(n)
}

/// The sender's buffer is of the count, whatever the start; the window, the size and 3 are as before.
fn buffers() -> Result<u64, String> {
    let mut n = 0;
    for (start, count) in [(0, 10), (1, 10), (10, 10), (30, 10), (MOST - 10, 10)] {
        let mut s = sender("K5 sender's buffer", read(start, count, 3, 1))?;
        s.pair.data.iter_mut().for_each(|data| data.resize(64, 0xb7));
        let before = s.pair.clone();
        for len in (0..=64).filter(|len| *len != 10) {
            s.call(Call::Next(len, 1048), (REFUSED, 1))?;
        }
        for room in [0, 24, 27] {
            s.call(Call::Next(10, room), (REFUSED, 3))?;
        }
        n += s.holds(s.pair.rec == before.rec && s.pair.out == before.out)?;
        let a = s.call(Call::Next(10, 28), (FRAME, 0))?;
        n += s.holds(a.len == 28 && s.pair.out[1][24..28] == [0, 1, 2, 3])?;
    }
    Ok(n)
}

/// Retries: 01 goes back to the balance point, which is at the start only as long as nothing is balanced.
fn retries() -> Result<u64, String> {
    let mut n = 0;
    // R5 and R6, further in.
    let mut s = sender("K5 R5", read(100, 12, 3, 1))?;
    sends(&mut s, 0, &[100, 104, 108])?;
    taken(&mut s, &[Call::Ack, Call::Ack])?;
    s.call(Call::Timeout, (RETRY, 0))?;
    let f = s.frame(100, 1, 0)?;
    sends(&mut s, 0, &[104])?;
    n += s.holds(f[24..] == [0, 1, 2, 3])?;
    let mut s = sender("K5 R6", read(100, 16, 3, 1))?;
    sends(&mut s, 0, &[100, 104, 108])?;
    taken(&mut s, &[Call::Nak])?;
    s.waits()?;
    taken(&mut s, &[Call::Ack])?;
    s.call(Call::Ack, (RETRY, 0))?;
    s.frame(100, 1, 0)?;
    n += s.holds(true)?;
    // 001, with Retry, has two ways, "the Balance Point" and "the Data-In Application Client Buffer Offset"; 01: the first.
    for (call, number) in BAD {
        let mut s = sender("K5 balance point", read(100, 12, 2, 1))?;
        sends(&mut s, 0, &[100])?;
        taken(&mut s, &[Call::Ack])?;
        sends(&mut s, 0, &[104, 108])?;
        if number == 28 {
            taken(&mut s, &[Call::Ack])?;
        }
        s.call(call.clone(), (RETRY, 0))?;
        let f = s.frame(104, 1, 0)?;
        n += s.holds(f[24..] == [4, 5, 6, 7])?;
        let g = s.frame(108, 0, 0)?;
        if number == 28 {
            taken(&mut s, &[Call::Ack])?;
        }
        let a = s.call(call, (FAILED, number))?;
        ended(&mut s)?;
        n += s.holds(g[24..] == [8, 9, 10, 11] && a.frames == 5)?;
    }
    // R7: limit 1, timed out twice; and each read counts its frames from its own set-up.
    let mut s = sender("K5 R7", read(50, 4, 1, 1))?;
    s.frame(50, 0, 0)?;
    s.call(Call::Timeout, (RETRY, 0))?;
    s.frame(50, 1, 0)?;
    let a = s.call(Call::Timeout, (FAILED, 29))?;
    s.call(Call::SetUp(read(54, 4, 1, 1), 0), (READY, 0))?;
    let f = s.frame(54, 0, 0)?;
    let b = s.call(Call::Ack, (DELIVERED, 0))?;
    n += s.holds(a.frames == 2 && b.frames == 1 && f[24..] == [0, 1, 2, 3])?;
    Ok(n)
}

/// Records that no call makes: marks outside start to start plus count are 1; a burst inside them is served from where it stands.
fn made_up() -> Result<u64, String> {
    let mut n = 0;
    let whole = Burst { base: 20, end: 30, limit: 1, tptt: 0 };
    // Base, balance point, next offset, end; and if they are in range.
    let marks = [
        (20, 20, 20, 30, true),
        (20, 24, 28, 30, true),
        (30, 30, 30, 30, true),
        (24, 24, 26, 28, true),
        (19, 20, 20, 30, false),
        (0, 20, 20, 30, false),
        (0, 0, 0, 10, false),
        (0, 0, 0, 30, false),
        (10, 10, 10, 20, false),
        (20, 20, 20, 31, false),
        (20, 30, 31, 31, false),
        (31, 31, 31, 31, false),
        (20, 19, 20, 30, false),
        (20, 20, 19, 30, false),
        (20, 24, 23, 30, false),
        (20, 24, 26, 25, false),
    ];
    for (base, balance, next, end, fits) in marks {
        let t = read(20, 10, 2, 1);
        for call in [Call::Ack, Call::Nak, Call::Timeout, Call::Cut, Call::Loss, Call::Next(10, 1048), Call::Frame(vec![0; 3], 0)] {
            let mut s = sender("K5 marks", t)?;
            let rec = Rec::Sender(Sender { transfer: t, burst: Burst { base, end, ..whole }, balance, next, ..Sender::default() });
            s.pair.rec = [rec; 2];
            let a = s.pair.call(&call).map_err(|e| format!("marks: {e}"))?.unwrap();
            n += 1 + s.holds((a == Answer::refused(1)) != fits && (fits || s.pair.rec[1] == rec))?;
        }
    }
    // The data begin "at the next offset minus transfer.start", also where the burst's base is not the start.
    let t = read(20, 10, 2, 1);
    let mut s = sender("K5 base above start", t)?;
    let burst = Burst { base: 24, end: 29, ..whole };
    s.pair.rec = [Rec::Sender(Sender { transfer: t, burst, balance: 24, next: 24, ..Sender::default() }); 2];
    let f = [s.frame(24, 0, 0)?, s.frame(28, 0, 0)?];
    s.waits()?;
    s.call(Call::Timeout, (RETRY, 0))?;
    let g = s.frame(24, 1, 0)?;
    n += s.holds(f[0][24..] == [4, 5, 6, 7] && f[1][24..] == [8, 0, 0, 0] && f[1][11] == 3 && g[24..] == [4, 5, 6, 7])?;
    Ok(n)
}

/// Calls compared, or the first difference.
pub(super) fn all() -> Result<u64, String> {
    Ok(limits()? + set_up()? + frames()? + buffers()? + retries()? + made_up()?)
}
