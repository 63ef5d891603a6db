//! K4 at every state that the target of small writes gets to. The walk goes over its records, from set-up and by events only, reports of
//! time among them. At each of them reports of every sort are tried, and calls that must not move the sum. What is due is told from the
//! calls and answers before; no field of the record is looked at for it.
use super::pair::Call;
use super::silent::Watched;
use super::vectors::{bytes, ready, transfer};
use crate::frame;
use crate::records::*;
use std::collections::{BTreeSet, HashSet, VecDeque};

/// A walk's transfer; the frames that arrive are of two bytes.
#[derive(Clone, Copy)]
struct Plan {
    count: u32,
    burst: u32,
    limit: u32,
    value: u16,
}

/// Where the run is, in words; in each a report must have come up.
fn stage(w: &Watched) -> &'static str {
    let t = w.target();
    let r = &t.receiver;
    match t.state {
        STATE_NONE => "fresh",
        STATE_UNANSWERED if t.retries > 0 => "resent",
        STATE_UNANSWERED => "unanswered",
        STATE_AGAIN => "to be resent",
        _ if r.filled == r.end && r.end < r.transfer.count => "filled, more due",
        _ if r.filled == r.end => "all filled",
        _ if r.waiting => "waiting for CDP",
        _ if r.filled == r.base => "acknowledged",
        _ if r.expected < r.filled => "repeating",
        _ => "stored",
    }
}

const STAGES: [&str; 10] = [
    "fresh",
    "unanswered",
    "resent",
    "to be resent",
    "acknowledged",
    "stored",
    "waiting for CDP",
    "repeating",
    "filled, more due",
    "all filled",
];

struct At {
    w: Watched,
    /// The tag of the XFER_RDY handed out last.
    tptt: u16,
}

impl At {
    fn data(&self, offset: u32, flags: u8, tptt: u16) -> Call {
        self.w.frame(bytes(1, offset, flags, tptt, &[offset as u8; 2]))
    }

    fn next(&self) -> Call {
        Call::Next(self.w.pair.data[0].len(), 36)
    }

    /// The events that the walk goes on by: all that happens to the XFER_RDY, DATA at every place, time.
    fn events(&self, plan: &Plan) -> Vec<Call> {
        let mut all = vec![self.next(), Call::Ack, Call::Nak, Call::Timeout, Call::Cut, Call::Time(plan.value / 2)];
        // One by one, so that the walk comes to an end, only up to small values.
        all.push(Call::Time(if plan.value < 9 { 1 } else { plan.value - 1 }));
        for offset in (0..plan.count).step_by(2) {
            all.extend([0, 1].map(|flags| self.data(offset, flags, self.tptt)));
        }
        all
    }

    /// The same state, for one call that leads nowhere.
    fn tries(&self, call: &Call, n: &mut u64) -> Result<(Answer, Watched), String> {
        let mut w = self.w.clone();
        let a = w.call(call)?;
        *n += 1;
        Ok((a, w))
    }

    /// Reports of every sort; after one that fails every call is 2. Calls that are refused or change nothing keep the sum: `Watched` looks.
    fn probes(&self, plan: &Plan, seen: &mut BTreeSet<(&'static str, u8, u8)>) -> Result<u64, String> {
        let (mut n, value) = (0, plan.value);
        let mut all: Vec<u16> = (0..=value.min(8) + 1).collect();
        all.extend([value.saturating_sub(1), value, 32_768, 65_535u16.wrapping_sub(value), 65_535]);
        for ms in all {
            let (a, mut w) = self.tries(&Call::Time(ms), &mut n)?;
            seen.insert((stage(&self.w), a.what, a.number));
            if a.what != FAILED {
                continue;
            }
            for call in [Call::Time(0), Call::Time(ms), self.next(), Call::Ack, Call::Cut, Call::Loss, self.data(0, 1, self.tptt)] {
                let b = w.call(&call)?;
                n += 1;
                if b != Answer::refused(2) {
                    return Err(format!("{call:?} after a report of {ms}: {b:?} at both sides, due 2"));
                }
            }
        }
        let short = Call::Next(self.w.pair.data[0].len(), 35);
        let others = [ready(0, 2, 4, self.tptt), vec![5; 27]].map(|f| self.w.frame(f));
        for call in others.into_iter().chain([short, Call::Loss, self.data(0, 0, self.tptt ^ 1), self.data(0, 1, 0xffff)]) {
            self.tries(&call, &mut n)?;
        }
        Ok(n)
    }
}

fn walk(plan: Plan, seen: &mut BTreeSet<(&'static str, u8, u8)>) -> Result<u64, String> {
    let t = Transfer { irt: plan.value, ..transfer(true, plan.count, 1, plan.limit, plan.burst) };
    let w = Watched::new(t, vec![0xee; plan.count as usize])?;
    let (mut n, mut known) = (1, HashSet::from([(w.pair.rec[1], w.past)]));
    let mut list = VecDeque::from([At { w, tptt: 0 }]);
    while let Some(at) = list.pop_front() {
        n += at.probes(&plan, seen)?;
        for call in at.events(&plan) {
            let (a, w) = at.tries(&call, &mut n)?;
            let tptt = if a.what == FRAME { frame::header_of(&w.pair.out[1]).tptt } else { at.tptt };
            if a.what != FAILED && known.insert((w.pair.rec[1], w.past)) {
                list.push_back(At { w, tptt });
            }
        }
    }
    Ok(n)
}

/// Calls compared, or the first difference.
pub(super) fn all() -> Result<u64, String> {
    let (mut n, mut seen) = (0, BTreeSet::new());
    for (count, burst, limit) in [(6, 6, 1), (6, 4, 1), (4, 2, 2), (6, 2, 0), (8, 8, 0), (8, 6, 3)] {
        for value in [0, 1, 2, 3, 7, 65_535] {
            let plan = Plan { count, burst, limit, value };
            n += walk(plan, &mut seen).map_err(|e| format!("walk, count {count}, burst {burst}, limit {limit}, value {value}: {e}"))?;
        }
    }
    for stage in STAGES {
        // Where time counts, every answer but a refusal came up: also UNCHANGED, with value 0.
        let counts = ["acknowledged", "stored", "waiting for CDP", "repeating"].contains(&stage);
        let due: &[(u8, u8)] = if counts { &[(FAILED, 33), (TAKEN, 0), (UNCHANGED, 0)] } else { &[(UNCHANGED, 0)] };
        let got: Vec<(u8, u8)> = seen.iter().filter(|(at, ..)| *at == stage).map(|(_, what, number)| (*what, *number)).collect();
        if got != due {
            return Err(format!("reports, {stage}: {got:?} came up, due {due:?}"));
        }
    }
    Ok(n)
}
