//! K5 with both ends together. A run goes in two worlds side by side, a read from 0 and the same read further in: answers stay, marks, offsets and
//! bytes move, and nothing else of the host's buffer changes. Then whole reads over a link with faults, to their end: the delivery rule.
use super::editions_runs::Command;
use super::further::*;
use super::pair::{Call, Rec};
use super::rng::Rng;
use super::world::{self, Event, World};
use crate::records::*;

fn receiver(w: &World) -> Receiver {
    let Rec::Receiver(r) = w.receiver.rec[1] else { unreachable!() };
    r
}

/// The second world is the first, that much further in.
fn same(near: &World, far: &World, by: u32) -> bool {
    let pairs = [(&near.sender, &far.sender), (&near.receiver, &far.receiver), (&near.responder, &far.responder)];
    let records = pairs.iter().all(|(a, b)| moved(a.rec[1], by) == b.rec[1] && moved_frame(&a.out[1], by) == b.out[1]);
    let [t, u] = [receiver(near).transfer, receiver(far).transfer];
    let [x, y] = [&near.receiver.data[1], &far.receiver.data[1]];
    let bytes = x[..t.count as usize] == y[by as usize..][..t.count as usize];
    let kept = outside_kept(&t, &host(&t), x) && outside_kept(&u, &host(&u), y);
    let frames = near.data.frames.iter().map(|f| moved_frame(f, by)).eq(far.data.frames.iter().cloned());
    let way = near.data.answers == far.data.answers && near.response == far.response && near.calls == far.calls;
    records && bytes && kept && frames && way && near.sender.data[1] == far.sender.data[1]
}

/// The frame that arrives next, in other lengths of the host's buffer: shorter ones are 1, and longer ones change nothing of what it does.
fn lent(w: &World, g: &mut Rng, seen: &mut Seen) -> Result<u64, String> {
    let Some(f) = w.data.frames.front() else { return Ok(0) };
    let (r, full) = (receiver(w), w.receiver.data[1].len());
    let needed = sum(&r.transfer) as usize;
    let mut whole = w.receiver.clone();
    let a = whole.call(&Call::Frame(f.clone(), full))?.unwrap();
    for len in [needed - 1, g.below(needed as u64) as usize, r.transfer.count as usize, needed, (needed + full) / 2] {
        let mut pair = w.receiver.clone();
        let b = pair.call(&Call::Frame(f.clone(), len))?.unwrap();
        let due = if len < needed { (Answer::refused(1), &w.receiver) } else { (a, &whole) };
        if b != due.0 || pair.rec != due.1.rec || pair.data != due.1.data {
            return Err(format!("{f:02x?} with a buffer of {len}: {b:?} at both sides, due {:?}\n  {r:?}", due.0));
        }
        seen[usize::from(len < needed)] += 1;
    }
    Ok(6)
}

/// How often frames arrived in buffers that were long enough, and in shorter ones.
type Seen = [u64; 2];

/// The events of a seed, if it is a read.
fn beside(seed: u64, seen: &mut Seen) -> Result<u64, String> {
    let (ends, list) = world::from_seed(seed);
    if ends[0].write {
        return Ok(0);
    }
    let g = &mut Rng(!seed ^ 55);
    let by = if g.one_in(6) { 1 + g.up_to(700) } else { 1 + g.up_to(30) };
    let (mut near, mut far) =
        (World::new(ends.map(|t| Transfer { start: 0, ..t }))?, World::new(ends.map(|t| Transfer { start: by, ..t }))?);
    let mut n = 0;
    for (i, event) in list.iter().enumerate() {
        // A bit that changes in an offset goes by no start.
        if matches!(event, Event::Old(k) if k & 0x100 != 0) {
            continue;
        }
        let told = |e| format!("event {}, {event:?}, start {by}: {e}", i + 1);
        if *event == Event::Arrive && g.one_in(4) {
            n += lent(&far, g, seen).map_err(told)?;
        }
        let did = near.step(*event).map_err(told)?;
        let other = far.step(*event).map_err(told)?;
        if did != other || !same(&near, &far, by) {
            let told = [near.sender.rec[1], far.sender.rec[1], near.receiver.rec[1], far.receiver.rec[1]];
            return Err(format!("event {}, {event:?}: with start {by} at both sides not as from 0\n  {told:?}", i + 1));
        }
    }
    Ok(n + near.calls + far.calls)
}

/// A read to its end, from 0 and further in. True: the data came whole.
fn whole(seed: u64) -> Result<(u64, bool), String> {
    let g = &mut Rng(seed);
    let count = 1 + g.up_to(70);
    let t = Transfer {
        count,
        size: g.of(&[4, 8, 12]),
        window: 1 + g.up_to(3),
        limit: g.of(&[0, 1, 2, 3, 15, 15]),
        burst: 1 + g.up_to(count - 1),
        local: 0x12_3456,
        remote: 0xab_cdef,
        tag: 0x12,
        start: small(g, false).max(1),
        ..Transfer::default()
    };
    let by = t.start;
    let editions = [g.of(&[(false, 0), (true, 7)]), g.of(&[(false, 0), (true, 0x0102)])];
    let told = |e| format!("read of seed {seed}, start {by}: {e}");
    let mut near = Command::new(Transfer { start: 0, ..t }, editions, seed, None).map_err(told)?;
    let mut far = Command::new(t, editions, seed, None).map_err(told)?;
    let [first, came] = [near.run().map_err(told)?, far.run().map_err(told)?];
    let ends = [(&near.initiator, &far.initiator), (&near.target, &far.target), (&near.responder, &far.responder)];
    let records = ends.iter().all(|(a, b)| moved(a.rec[1], by) == b.rec[1]);
    let frames = near.frames.iter().map(|f| moved_frame(f, by)).eq(far.frames.iter().cloned());
    let [x, y] = [&near.initiator.data[1], &far.initiator.data[1]];
    let bytes = x[..count as usize] == y[by as usize..][..count as usize] && outside_kept(&t, &host(&t), y);
    if first != came || near.answers != far.answers || !records || !frames || !bytes {
        return Err(told("at both sides not as from 0".into()));
    }
    Ok((near.calls + far.calls, came))
}

/// Calls compared, or the first difference.
pub(super) fn all() -> Result<u64, String> {
    let (mut n, mut seen, mut came) = (0, [0; 2], [0; 2]);
    for seed in 1..=6_000 {
        n += beside(seed, &mut seen).map_err(|e| format!("run of seed {seed}, {e}"))?;
    }
    for seed in 1..=20_000 {
        let (calls, all) = whole(seed)?;
        n += calls;
        came[usize::from(all)] += 1;
    }
    if seen.contains(&0) || came.contains(&0) {
        return Err(format!("arrivals in buffers long enough and shorter {seen:?}; reads that failed, came whole {came:?}"));
    }
    Ok(n)
}
