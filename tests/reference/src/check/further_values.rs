//! K5 with many starts: set-ups of every role near every power of two and at the limit, each start up to 65,535 in frames that go out and
//! arrive, every length of the host's buffer, and records whose start breaks a limit.
use super::editions_values::{fresh, roles, Role};
use super::further::{pattern, sum, with_start, MOST};
use super::further_vectors::read;
use super::pair::{Call, Pair, Rec};
use super::vectors::bytes;
use crate::records::*;

/// Powers of two and what is beside them; starts with which a sum is at the limit, or passes it or 32 bits by little.
fn edges() -> Vec<u32> {
    let mut all = vec![0, u32::MAX];
    for k in 0..32 {
        all.extend([1u32 << k, (1u32 << k).wrapping_sub(1), (1u32 << k).wrapping_add(1)]);
    }
    for count in [1, 2, 3, 4, 5, 8, 256, 1000, 65_536] {
        all.extend([MOST - count, MOST - count + 1, 0u32.wrapping_sub(count), 1u32.wrapping_sub(count)]);
    }
    all.sort();
    all.dedup();
    all
}

fn is_write(rec: &Rec, i: usize) -> bool {
    matches!(rec, Rec::Writer(_) | Rec::Target(_)) || i == 5
}

/// Every start with every count, at each role: taken, with the whole record as it is due; or 1, and nothing changes.
fn set_ups() -> Result<u64, String> {
    let mut n = 0;
    let starts = edges();
    let counts: Vec<u32> = starts.iter().copied().filter(|count| *count <= MOST + 1).collect();
    for (i, role) in roles().iter_mut().enumerate() {
        let write = is_write(&role.pair.rec[0], i);
        for start in &starts {
            for count in &counts {
                let t = Transfer { start: *start, count: *count, burst: 1, ..role.t };
                let fits = (1..=MOST).contains(count) && sum(&t) <= u64::from(MOST) && (!write || *start == 0);
                let before = role.pair.rec[1];
                role.gets(Call::SetUp(t, 24), if fits { Answer::is(READY) } else { Answer::refused(1) })?;
                role.is(if fits { fresh(&before, t) } else { before })?;
            }
        }
        n += role.calls;
    }
    Ok(n)
}

/// DATA as it is due, whole: offset, byte 10, four bytes.
fn hands(role: &mut Role, offset: u32, byte_10: u8) -> Result<(), String> {
    let head = [1, 0x12, 0x34, 0x56, 0, 0xab, 0xcd, 0xef, 0, 0, byte_10, 0, 0, 0, 0, 0, 0, 0x12, 0, 0];
    role.gets(Call::Next(4, 48), Answer::length(28))?;
    let out = &role.pair.out[1];
    if out[..20] == head && out[20..24] == offset.to_be_bytes() && out[24..28] == [0, 1, 2, 3] && out[28..] == [0xff; 20] {
        return Ok(());
    }
    Err(format!("handed out at both sides {out:02x?}, due offset {offset}, byte 10 {byte_10}"))
}

/// One start: a frame first and resent, a RESPONSE, and set-ups of writes, which refuse it.
fn one(roles: &mut [Role; 6], start: u32) -> Result<(), String> {
    let [read_target, _, write_initiator, write_target, of_read, of_write] = roles;
    read_target.t.start = start;
    read_target.set_up(start % 2 == 1, 0)?;
    hands(read_target, start, 0)?;
    read_target.gets(Call::Nak, Answer::is(RETRY))?;
    hands(read_target, start, 1)?;
    read_target.gets(Call::Ack, Answer::count(DELIVERED, 2))?;
    of_read.t.start = start;
    of_read.set_up(false, 0)?;
    of_read.gets(Call::Next(24, 48), Answer::length(48))?;
    if of_read.pair.out[1][20..24] != [0; 4] {
        return Err(format!("a RESPONSE at both sides {:02x?}", of_read.pair.out[1]));
    }
    if start > 0 {
        for role in [write_initiator, write_target, of_write] {
            let before = role.pair.rec[1];
            role.gets(Call::SetUp(Transfer { start, ..role.t }, 24), Answer::refused(1))?;
            role.is(before)?;
        }
    }
    Ok(())
}

/// A host's read of four bytes: in two frames, in a buffer that is longer by `more`; at copies of it frames beside the read, and a short buffer.
fn host(start: u32, more: usize) -> Result<u64, String> {
    let t = read(start, 4, 1, start % 3);
    let len = start as usize + 4 + more;
    let mut pair = Pair::new(Rec::Receiver(Receiver::default()), pattern(&t, len), 0);
    let told = |e| format!("host, {more} bytes more: {e}");
    let mut calls = 0;
    let mut gets = |pair: &mut Pair, call: Call, due: Answer| -> Result<(), String> {
        calls += 1;
        let a = pair.call(&call).map_err(told)?.unwrap();
        if a == due {
            return Ok(());
        }
        Err(told(format!("{call:?} gave {a:?} at both sides, due {due:?}")))
    };
    gets(&mut pair, Call::SetUp(t, 0), Answer::is(READY))?;
    let first = |at: u32, byte: u8| bytes(1, at, 0, 0, &[byte; 2]);
    for at in [start.wrapping_sub(1), start.wrapping_sub(4), start + 4, start ^ 0x8000_0000] {
        gets(&mut pair.clone(), Call::Frame(first(at, 9), len), Answer::failed(20, 0))?;
    }
    gets(&mut pair, Call::Frame(first(start, 7), len - more - 1), Answer::refused(1))?;
    gets(&mut pair, Call::Frame(first(start, 7), len - more), Answer::is(STORED))?;
    gets(&mut pair, Call::Frame(first(start + 2, 8), len), Answer::is(RECEIVED))?;
    let mut due = pattern(&t, len);
    due[start as usize..][..4].copy_from_slice(&[7, 7, 8, 8]);
    if pair.data[1] != due {
        return Err(told("the buffer is not as due at both sides".into()));
    }
    Ok(calls)
}

/// Start, count, and every length of the buffer around their sum, for a frame that is stored.
fn lengths() -> Result<u64, String> {
    let mut n = 0;
    for start in [0, 1, 3, 4, 9, 40] {
        for count in [1, 2, 4, 7] {
            let t = read(start, count, 1, 1);
            let needed = (start + count) as usize;
            let mut pair = Pair::new(Rec::Receiver(Receiver::default()), pattern(&t, needed + 60), 0);
            pair.call(&Call::SetUp(t, 0))?;
            for len in 0..=needed + 60 {
                let mut pair = pair.clone();
                let a = pair.call(&Call::Frame(bytes(1, start, 0, 0, &[7]), len))?.unwrap();
                let due = match (len < needed, count) {
                    (true, _) => Answer::refused(1),
                    (_, 1) => Answer::is(RECEIVED),
                    _ => Answer::is(STORED),
                };
                let mut kept = pattern(&t, needed + 60);
                if len >= needed {
                    kept[start as usize] = 7;
                }
                if a != due || pair.data[1] != kept {
                    return Err(format!("start {start}, count {count}, length {len}: {a:?} at both sides, due {due:?}"));
                }
                n += 1;
            }
            n += 1;
        }
    }
    Ok(n)
}

/// Records of four bytes whose start breaks a limit, or is not where their marks are.
fn broken() -> Result<u64, String> {
    let mut n = 0;
    for (i, role) in roles().iter_mut().enumerate() {
        let write = is_write(&role.pair.rec[0], i);
        let marks = matches!(role.pair.rec[0], Rec::Sender(_) | Rec::Receiver(_));
        let limit = [MOST - 3, MOST - 2, MOST, MOST + 1, u32::MAX, u32::MAX - 2, u32::MAX - 3, 1 << 31];
        let lower = [1, 2, 4, 5, MOST - 4];
        let starts = if write || marks { [&limit[..], &lower].concat() } else { limit.to_vec() };
        for start in starts {
            role.refuses(|rec| with_start(rec, start)).map_err(|e| format!("start {start}: {e}"))?;
        }
        n += role.calls;
    }
    Ok(n)
}

/// Calls compared, or the first difference.
pub(super) fn all() -> Result<u64, String> {
    let mut n = set_ups()? + lengths()? + broken()?;
    let mut roles = roles();
    let further = (1..2_000u32).map(|k| (k * 8_389) % (MOST - 4)).chain([MOST - 5, MOST - 4]);
    for start in (0..=65_535).chain(further) {
        one(&mut roles, start).map_err(|e| format!("start {start}: {e}"))?;
    }
    n += roles.iter().map(|role| role.calls).sum::<u64>();
    for start in (0..600).chain((600..66_000).step_by(509)).chain([255, 256, 257, 65_535, 65_536].map(|at: u32| at - 2)) {
        n += host(start, start as usize % 4).map_err(|e| format!("start {start}: {e}"))?;
    }
    Ok(n)
}
