//! K5 by hand: the host of a read, and the ends of a write, whose buffers stay as they were. Each call with the answer that is due.
use super::further::MOST;
use super::further_vectors::read;
use super::pair::{Call, Rec};
use super::states::{asked, ended, open};
use super::vectors::*;
use crate::records::*;

/// A host of `count` bytes from `start`; its buffer has so many bytes more, all E1h before the read, in it and behind it.
fn host(name: &'static str, start: u32, count: u32, limit: u32, more: usize) -> Result<Script, String> {
    let mut s = Script::new(name, Rec::Receiver(Receiver::default()), read(start, count, 4, limit))?;
    s.pair.data.iter_mut().for_each(|data| *data = vec![0xe1; (start + count) as usize + more]);
    Ok(s)
}

fn data(offset: u32, flags: u8, byte: u8, len: usize) -> Vec<u8> {
    bytes(1, offset, flags, 0, &vec![byte; len])
}

/// The bytes at these places, and E1h at all others.
fn only(s: &Script, places: &[(usize, &[u8])]) -> bool {
    let mut due = vec![0xe1; s.pair.data[1].len()];
    for (at, bytes) in places {
        due[*at..at + bytes.len()].copy_from_slice(bytes);
    }
    s.pair.data[1] == due
}

fn of(s: &Script) -> Receiver {
    let Rec::Receiver(r) = s.pair.rec[1] else { unreachable!() };
    r
}

/// "DATA offsets, balance point, filled mark and range checks begin there."
fn set_up() -> Result<u64, String> {
    let t = read(1000, 10, 4, 2);
    let s = Script::new("K5 host, set-up", Rec::Receiver(Receiver::default()), t)?;
    let due = Receiver { transfer: t, base: 1000, end: 1010, expected: 1000, filled: 1000, waiting: false, ended: false };
    s.holds(of(&s) == due)
}

/// "byte i of the sender is at start plus i in the receiver"; "its bytes outside the read never change".
fn stored() -> Result<u64, String> {
    let mut n = 0;
    for more in [0, 1, 7, 100] {
        for limit in [0, 1] {
            let mut s = host("K5 stored", 7, 10, limit, more)?;
            s.arrives(bytes(1, 7, 0, 0, &[1, 2, 3, 4]), (STORED, 0))?;
            n += s.holds((of(&s).expected, of(&s).filled) == (11, 11) && only(&s, &[(7, &[1, 2, 3, 4])]))?;
            s.arrives(bytes(1, 11, 0, 0, &[5, 6, 7, 8]), (STORED, 0))?;
            s.arrives(bytes(1, 15, 0, 0, &[9, 10]), (RECEIVED, 0))?;
            n += s.holds(only(&s, &[(7, &[1, 2, 3, 4, 5, 6, 7, 8, 9, 10])]))?;
            // Once filled: discarded, also below the start and past the end.
            for offset in [0, 6, 7, 11, 16, 17, 18, 117, u32::MAX] {
                for flags in [0, 1] {
                    s.arrives(data(offset, flags, 0x44, 4), (DISCARDED, 0))?;
                }
            }
            s.arrives(data(7, 0, 0x44, 11), (DISCARDED, 0))?;
            s.arrives(data(7, 0, 0x44, 0), (DISCARDED, 0))?;
            s.arrives(bytes(7, 0, 0, 0, &[0; 24]), (RESPONSE, 0))?;
            n += s.holds(only(&s, &[(7, &[1, 2, 3, 4, 5, 6, 7, 8, 9, 10])]))?;
        }
    }
    // R9, further in: ten bytes from 30, filled 38, CDP one, offset 34.
    let mut s = host("K5 R9", 30, 10, 1, 3)?;
    s.arrives(data(30, 0, 1, 8), (STORED, 0))?;
    s.arrives(data(34, 1, 2, 4), (STORED, 0))?;
    n += s.holds((of(&s).expected, of(&s).filled) == (38, 38) && only(&s, &[(30, &[1, 1, 1, 1, 2, 2, 2, 2])]))?;
    s.arrives(data(30, 1, 3, 2), (STORED, 0))?;
    n += s.holds((of(&s).expected, of(&s).filled) == (32, 38))?;
    // A gap, waiting, and back to the start by CDP one.
    let mut s = host("K5 gap", 30, 12, 1, 3)?;
    s.arrives(data(34, 0, 9, 4), (DISCARDED, 0))?;
    s.arrives(data(30, 0, 9, 4), (DISCARDED, 0))?;
    n += s.holds(of(&s).waiting && (of(&s).expected, of(&s).filled) == (30, 30) && only(&s, &[]))?;
    s.arrives(data(30, 1, 1, 4), (STORED, 0))?;
    s.arrives(data(34, 0, 2, 4), (STORED, 0))?;
    s.arrives(data(38, 0, 3, 4), (RECEIVED, 0))?;
    n += s.holds(!of(&s).waiting && only(&s, &[(30, &[1, 1, 1, 1, 2, 2, 2, 2, 3, 3, 3, 3])]))?;
    Ok(n)
}

/// 20, 21, 22 by the read's own range, not by the buffer's.
fn fails() -> Result<u64, String> {
    let mut n = 0;
    // Retry limit, offset, byte 10, bytes, number. Ten bytes from 20; 24 is expected and filled.
    let table = [
        // Below the start: also where a read from 0 would have taken it.
        (1, 0, 0, 4, 20),
        (1, 4, 0, 4, 20),
        (1, 0, 1, 4, 20),
        (1, 19, 0, 1, 20),
        (1, 19, 1, 1, 20),
        (1, 19, 1, 4, 20),
        (0, 0, 0, 4, 20),
        (0, 4, 0, 4, 20),
        (0, 19, 0, 1, 20),
        // Not below the end; the count is no end.
        (1, 30, 0, 1, 20),
        (1, 30, 1, 1, 20),
        (1, 31, 0, 1, 20),
        (0, 30, 0, 1, 20),
        (1, u32::MAX, 0, 4, 20),
        (1, u32::MAX, 1, 1, 20),
        (1, MOST, 0, 4, 20),
        (1, u32::MAX - 3, 1, 4, 20),
        // Retries off, another than the expected one.
        (0, 20, 0, 4, 20),
        (0, 25, 0, 1, 20),
        (0, 28, 1, 1, 20),
        // CDP one above the filled mark.
        (1, 25, 1, 1, 20),
        (1, 29, 1, 1, 20),
        // Past the end, though the buffer goes on.
        (1, 24, 0, 7, 21),
        (0, 24, 0, 7, 21),
        (1, 20, 1, 11, 21),
        (1, 29, 0, 2, 21),
        (1, 24, 0, 1024, 21),
        // No data bytes.
        (1, 24, 0, 0, 22),
        (0, 24, 0, 0, 22),
        (1, 20, 1, 0, 22),
        (1, 29, 0, 0, 22),
        // The order: 20, 21, 22.
        (1, 19, 0, 12, 20),
        (1, 19, 0, 0, 20),
        (1, 30, 0, 0, 20),
    ];
    for (limit, offset, flags, len, number) in table {
        for more in [0, 2000] {
            let mut s = host("K5 20, 21, 22", 20, 10, limit, more)?;
            s.arrives(data(20, 0, 7, 4), (STORED, 0))?;
            s.arrives(data(offset, flags, 9, len), (FAILED, number))?;
            s.arrives(data(24, 0, 9, 4), (REFUSED, 2))?;
            ended(&mut s)?;
            n += s.holds(only(&s, &[(20, &[7; 4])]))?;
        }
    }
    // At once: the first frame of a read from 0, and of a read that begins elsewhere. The two ends need the same start.
    for (limit, offset, due) in [
        (0, 0, (FAILED, 20)),
        (1, 0, (FAILED, 20)),
        (0, 19, (FAILED, 20)),
        (1, 19, (FAILED, 20)),
        (0, 20, (STORED, 0)),
        (1, 20, (STORED, 0)),
        (0, 21, (FAILED, 20)),
        (1, 21, (DISCARDED, 0)),
        (1, 29, (DISCARDED, 0)),
        (1, 30, (FAILED, 20)),
    ] {
        let mut s = host("K5 first frame", 20, 10, limit, 5)?;
        s.arrives(data(offset, 0, 9, 1), due)?;
        n += s.holds(due.0 == STORED || only(&s, &[]))?;
    }
    // An XFER_RDY in a read and a RESPONSE go by no start.
    for (kind, iu, due) in
        [(5, 11, (FAILED, 23)), (5, 13, (FAILED, 24)), (5, 12, (FAILED, 27)), (7, 23, (FAILED, 32)), (7, 24, (RESPONSE, 0))]
    {
        let mut s = host("K5 other frames", 20, 10, 1, 5)?;
        s.arrives(bytes(kind, 20, 0, 0, &vec![0; iu]), due)?;
        n += s.holds(of(&s).ended && only(&s, &[]))?;
    }
    Ok(n)
}

/// "for reads at the host a buffer shorter than it replaces one of another length": 1, before 2 and all else.
fn lengths() -> Result<u64, String> {
    let mut n = 0;
    let frames = [data(20, 0, 7, 4), data(0, 0, 7, 4), bytes(5, 0, 0, 0, &[0; 12]), bytes(7, 0, 0, 0, &[0; 24]), vec![1; 27], vec![]];
    for over in [false, true] {
        for len in 0..=64 {
            for f in &frames {
                let mut s = host("K5 lengths", 20, 10, 1, 34)?;
                if over {
                    s.call(Call::Loss, (FAILED, 31))?;
                }
                let before = s.pair.clone();
                let a = s.pair.call(&Call::Frame(f.clone(), len)).map_err(|e| format!("length {len}: {e}"))?.unwrap();
                let right = match (len < 30, over) {
                    (true, _) => a == Answer::refused(1) && s.pair.rec == before.rec,
                    (_, true) => a == Answer::refused(2) && s.pair.rec == before.rec,
                    _ => a != Answer::refused(1),
                };
                let stored = a == Answer::is(STORED);
                n += 1 + s.holds(right && only(&s, if stored { &[(20, &[7; 4])] } else { &[] }))?;
            }
        }
    }
    // From 0 too a longer one is taken now. In a write both ends stay with the count.
    for (len, due) in [(11, (REFUSED, 1)), (12, (STORED, 0)), (13, (STORED, 0)), (40, (STORED, 0))] {
        let mut s = host("K5 from 0", 0, 12, 1, 28)?;
        s.call(Call::Frame(data(0, 0, 7, 4), len), due)?;
        let mut w = open("K5 write, target", 12, 1, 12)?;
        w.pair.data.iter_mut().for_each(|data| data.resize(40, 0xe1));
        w.call(Call::Frame(data(0, 0, 7, 4), len), if len == 12 { due } else { (REFUSED, 1) })?;
        let mut i = asked("K5 write, initiator", 12, 1, 1, 12)?;
        i.pair.data.iter_mut().for_each(|data| data.resize(40, 0xe1));
        i.call(Call::Next(len, 1048), if len == 12 { (FRAME, 0) } else { (REFUSED, 1) })?;
        n += s.holds(true)? + w.holds(true)? + i.holds(true)?;
    }
    Ok(n)
}

/// The last places that there are, in a buffer that goes on behind them.
fn greatest() -> Result<u64, String> {
    let mut s = host("K5 last places", MOST - 6, 6, 1, 9)?;
    let len = s.pair.data[0].len();
    s.call(Call::Frame(data(MOST - 6, 0, 1, 4), MOST as usize - 1), (REFUSED, 1))?;
    s.call(Call::Frame(data(MOST - 6, 0, 1, 4), MOST as usize), (STORED, 0))?;
    s.call(Call::Frame(data(MOST - 2, 0, 2, 2), len), (RECEIVED, 0))?;
    let mut n = s.holds(only(&s, &[(MOST as usize - 6, &[1, 1, 1, 1, 2, 2])]))?;
    for (offset, bytes, number) in [(MOST, 1, 20), (MOST - 1, 2, 21), (MOST - 7, 1, 20), (0, 6, 20)] {
        let mut s = host("K5 last places, fails", MOST - 6, 6, 1, 9)?;
        s.arrives(data(offset, 0, 3, bytes), (FAILED, number))?;
        n += s.holds(only(&s, &[]))?;
    }
    Ok(n)
}

/// Records that no call makes.
fn made_up() -> Result<u64, String> {
    let mut n = 0;
    // Base, expected, filled, end; and if they are in range of ten bytes from 20.
    let marks = [
        (20, 20, 20, 30, true),
        (20, 22, 24, 30, true),
        (20, 20, 30, 30, true),
        (24, 24, 26, 28, true),
        (30, 30, 30, 30, true),
        (20, 20, 20, 20, true),
        (19, 20, 20, 30, false),
        (0, 20, 20, 30, false),
        (0, 0, 0, 10, false),
        (0, 4, 4, 10, false),
        (20, 20, 20, 31, false),
        (31, 31, 31, 31, false),
        (20, 19, 20, 30, false),
        (20, 24, 22, 30, false),
        (20, 20, 29, 28, false),
    ];
    for (base, expected, filled, end, fits) in marks {
        for call in [Call::Loss, Call::Frame(data(24, 0, 7, 2), 30), Call::Frame(vec![9; 4], 40), Call::Frame(data(0, 1, 7, 2), 30)] {
            let mut s = host("K5 host, marks", 20, 10, 1, 10)?;
            let rec = Rec::Receiver(Receiver { base, end, expected, filled, ..of(&s) });
            s.pair.rec = [rec; 2];
            let a = s.pair.call(&call).map_err(|e| format!("marks: {e}"))?.unwrap();
            n += 1 + s.holds((a == Answer::refused(1)) != fits && (fits || s.pair.rec[1] == rec && only(&s, &[])))?;
        }
    }
    // A burst inside the read: its own base and end count, the length of the buffer goes by the read.
    for (offset, len, lent, due) in [
        (24, 4, 30, (RECEIVED, 0)),
        (24, 2, 30, (STORED, 0)),
        (24, 4, 29, (REFUSED, 1)),
        (24, 4, 28, (REFUSED, 1)),
        (23, 1, 30, (FAILED, 20)),
        (20, 4, 30, (FAILED, 20)),
        (28, 1, 30, (FAILED, 20)),
        (24, 5, 30, (FAILED, 21)),
    ] {
        let mut s = host("K5 host, burst inside", 20, 10, 1, 10)?;
        s.pair.rec = [Rec::Receiver(Receiver { base: 24, end: 28, expected: 24, filled: 24, ..of(&s) }); 2];
        s.call(Call::Frame(data(offset, 0, 7, len), lent), due)?;
        n += s.holds([STORED, RECEIVED].contains(&due.0) || only(&s, &[]))?;
    }
    Ok(n)
}

/// Calls compared, or the first difference.
pub(super) fn all() -> Result<u64, String> {
    Ok(set_up()? + stored()? + fails()? + lengths()? + greatest()? + made_up()?)
}
