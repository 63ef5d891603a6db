//! K4 with both ends together. A run goes in two worlds side by side, one without its reports of time: until a report fails, all but the
//! sum stays the same. Then whole writes over a link with faults, to their end, with reports between all calls: the delivery rule's lists.
use super::editions_runs::Command;
use super::pair::{Pair, Rec};
use super::rng::Rng;
use super::silent::{given, value};
use super::world::{self, Event, World};
use crate::records::*;

/// The record without its value and sum.
fn stripped(rec: Rec) -> Rec {
    match given(rec, 0) {
        Rec::Target(t) => Rec::Target(Target { elapsed: 0, ..t }),
        rec => rec,
    }
}

fn alike(a: &Pair, b: &Pair) -> bool {
    stripped(a.rec[1]) == stripped(b.rec[1]) && a.data[1] == b.data[1] && a.out[1] == b.out[1]
}

fn same(a: &World, b: &World) -> bool {
    let pairs = [(&a.sender, &b.sender), (&a.receiver, &b.receiver), (&a.responder, &b.responder)];
    pairs.iter().all(|(a, b)| alike(a, b)) && a.data == b.data && a.ready == b.ready && a.response == b.response
}

fn target(w: &World) -> Option<Target> {
    match w.receiver.rec[1] {
        Rec::Target(t) => Some(t),
        _ => None,
    }
}

/// How often reports were counted, counted nothing, failed.
type Seen = [u64; 3];

/// A report in the first world only. True: it failed.
fn report(w: &mut World, event: Event, seen: &mut Seen) -> Result<bool, String> {
    let Some(old) = target(w) else { return Ok(false) };
    let before = w.clone();
    w.step(event)?;
    let new = target(w).unwrap();
    let due = Target { elapsed: new.elapsed, receiver: Receiver { ended: new.receiver.ended, ..old.receiver }, ..old };
    let failed = new.receiver.ended && !old.receiver.ended;
    // The sum only grows, stays below the value, and is no other where the report failed.
    let sum = new.elapsed >= old.elapsed
        && (new.elapsed == 0 || new.elapsed < old.receiver.transfer.irt)
        && !(failed && new.elapsed > old.elapsed);
    if new != due || !sum || !same(w, &before) && !failed {
        return Err(format!("a report of time left at both sides\n  {new:?}\n  of {old:?}"));
    }
    seen[if failed { 2 } else { usize::from(new == old) }] += 1;
    Ok(failed)
}

/// The events of a seed, with the reports and without them. In the second world both ends have the value 0.
fn beside(seed: u64, seen: &mut Seen) -> Result<u64, String> {
    let (ends, list) = world::from_seed(seed);
    let (mut w, mut without) = (World::new(ends)?, World::new(ends.map(|t| Transfer { irt: 0, ..t }))?);
    let mut failed = false;
    for (i, event) in list.iter().enumerate() {
        let told = |e| format!("event {}, {event:?}: {e}", i + 1);
        if matches!(event, Event::Time(_)) {
            failed |= report(&mut w, *event, seen).map_err(told)?;
            continue;
        }
        let did = w.step(*event).map_err(told)?;
        // After a report that failed the two runs differ. The first goes on alone.
        if failed {
            continue;
        }
        let other = without.step(*event).map_err(told)?;
        if did != other || !same(&w, &without) {
            let told = [target(&w), target(&without)];
            return Err(format!("event {}, {event:?}: at both sides not as without reports\n  {told:?}", i + 1));
        }
    }
    Ok(w.calls + without.calls)
}

/// A write to its end, without reports and with them: answers, frames and bytes are the same, and data that came whole are the initiator's.
fn write(seed: u64, whole: &mut [u64; 2], counted: &mut u64) -> Result<u64, String> {
    let g = &mut Rng(seed);
    let count = 1 + g.up_to(70);
    let t = Transfer {
        count,
        size: g.of(&[4, 8, 12]),
        window: 1 + g.up_to(3),
        limit: g.of(&[0, 1, 2, 3, 15, 15]),
        burst: 1 + g.up_to(count - 1),
        local: 0x12_3456,
        remote: 0xab_cdef,
        tag: 0x12,
        write: true,
        irt: value(g),
        ..Transfer::default()
    };
    let editions = [(false, 0), (true, 7)];
    let told = |e| format!("write of seed {seed}, value {}: {e}", t.irt);
    let mut quiet = Command::new(Transfer { irt: 0, ..t }, editions, seed, None).map_err(told)?;
    let mut timed = Command::new(t, editions, seed, Some(Rng(!seed))).map_err(told)?;
    for (c, n) in [&mut quiet, &mut timed].into_iter().zip(whole) {
        *n += u64::from(c.run().map_err(told)?);
    }
    *counted += timed.counted;
    let ends = [(&quiet.initiator, &timed.initiator), (&quiet.target, &timed.target), (&quiet.responder, &timed.responder)];
    if quiet.answers != timed.answers || quiet.frames != timed.frames || !ends.iter().all(|(a, b)| alike(a, b)) {
        return Err(told("at both sides not as without reports".into()));
    }
    Ok(quiet.calls + timed.calls)
}

/// Calls compared, or the first difference.
pub(super) fn all() -> Result<u64, String> {
    let (mut n, mut seen, mut whole, mut counted) = (0, [0; 3], [0; 2], 0);
    for seed in 1..=3_000 {
        n += beside(seed, &mut seen).map_err(|e| format!("run of seed {seed}, {e}"))?;
    }
    for seed in 1..=15_000 {
        n += write(seed, &mut whole, &mut counted)?;
    }
    if seen.contains(&0) || counted == 0 {
        return Err(format!("reports that were counted, counted nothing, failed: {seen:?}; in whole writes counted {counted}"));
    }
    if whole[0] == 0 || whole[0] != whole[1] {
        return Err(format!("data came whole {whole:?} times, without reports and with them"));
    }
    Ok(n)
}
