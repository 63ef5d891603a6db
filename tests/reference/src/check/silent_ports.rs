//! K4 with made-up records of the target, at the edges. A report gets what the sentences say, and moves only the sum. Every other call does
//! what it does with the timeout off; then the sum is zero after an ACK or a store, and else as before. A sum above the value is 1 at every
//! call.
use super::pair::{Call, Pair, Rec};
use super::silent::{reports, EDGES};
use super::vectors::{bytes, ready, transfer};
use crate::records::*;
use std::collections::BTreeSet;

const COUNT: usize = 8;

/// Base, expected, filled, end: none, open, some stored, expected below filled, filled, and the same of a second burst.
const MARKS: [(u32, u32, u32, u32); 9] =
    [(0, 0, 0, 0), (0, 0, 0, 8), (0, 4, 4, 8), (0, 2, 4, 8), (0, 8, 8, 8), (0, 4, 8, 8), (4, 4, 4, 8), (4, 8, 8, 8), (0, 4, 4, 4)];

/// What breaks a record apart from the sum; the first does not.
const BREAKS: [fn(&mut Target); 15] = [
    |_| {},
    |t| t.receiver.transfer.write = false,
    |t| t.receiver.transfer.count = 0,
    |t| t.receiver.transfer.size = 6,
    |t| t.receiver.transfer.window = 65,
    |t| t.receiver.transfer.limit = 16,
    |t| t.receiver.transfer.burst = 0,
    |t| t.receiver.transfer.remote = 1 << 24,
    |t| t.receiver.transfer.value = 1,
    |t| t.receiver.expected = t.receiver.filled + 1,
    |t| t.receiver.filled = t.receiver.end + 1,
    |t| t.receiver.end = 9,
    |t| t.retries = t.receiver.transfer.limit + 1,
    |t| t.since = 17,
    |t| t.state = 4,
];

/// Records with the timeout off; true: in range.
fn records() -> Vec<(Target, bool)> {
    let mut all = Vec::new();
    for (base, expected, filled, end) in MARKS {
        for k in 0..32 {
            let (state, limit, waiting, ended) = (k & 3, u32::from(k >> 2 & 1) * 2, k >> 3 & 1 != 0, k >> 4 & 1 != 0);
            let receiver = Receiver { transfer: transfer(true, COUNT as u32, 1, limit, 4), base, end, expected, filled, waiting, ended };
            let t = Target { receiver, retries: limit / 2, tptt: 1, under: 0, since: 1, state, stored: base > 0, elapsed: 0 };
            all.push((t, state == STATE_NONE || base < end));
            if state == STATE_READY && limit > 0 && !waiting && filled < end {
                all.extend(BREAKS[1..].iter().map(|change| {
                    let mut broken = t;
                    change(&mut broken);
                    (broken, false)
                }));
            }
        }
    }
    all
}

/// All but reports of time: set-ups, every event, frames that are stored, discarded, refused, or fail.
fn calls() -> Vec<Call> {
    let t = transfer(true, 4, 1, 1, 4);
    let mut all = vec![Call::Ack, Call::Nak, Call::Timeout, Call::Cut, Call::Loss];
    all.extend([0, 35, 36].map(|room| Call::Next(COUNT, room)));
    all.extend(
        [Transfer { irt: 9, ..t }, Transfer { count: 0, irt: 9, ..t }, Transfer { write: false, irt: 9, ..t }].map(|t| Call::SetUp(t, 0)),
    );
    for offset in [0, 2, 4, 8] {
        for flags in [0, 1] {
            all.extend([0, 2, 4, 8].map(|len| Call::Frame(bytes(1, offset, flags, 1, &vec![7; len]), COUNT)));
        }
    }
    let other = [bytes(1, 0, 0, 0, &[7; 4]), bytes(1, 4, 1, 2, &[7; 4]), ready(0, 8, 4, 1), bytes(7, 0, 0, 1, &[0; 24]), vec![1; 26]];
    all.extend(other.map(|f| Call::Frame(f, COUNT)));
    let mut misdirected = bytes(1, 4, 0, 1, &[7; 4]);
    misdirected[2] ^= 1;
    all.push(Call::Frame(misdirected, COUNT));
    all.push(Call::Frame(bytes(1, 4, 0, 1, &[7; 4]), COUNT - 1));
    all
}

/// A target with buffers, for one call after the other.
struct At {
    pair: Pair,
    n: u64,
    seen: BTreeSet<(bool, u8, u8)>,
}

impl At {
    /// The call at this record, over untouched buffers. Then these are what the call left.
    fn call(&mut self, t: Target, call: &Call) -> Result<(Answer, Target), String> {
        self.pair.rec = [Rec::Target(t); 2];
        self.pair.data.iter_mut().for_each(|data| data.fill(0xee));
        self.pair.out.iter_mut().for_each(|out| out.fill(0xa5));
        let a = self.pair.call(call)?.unwrap();
        self.n += 1;
        self.seen.insert((matches!(call, Call::Time(_)), a.what, a.number));
        let Rec::Target(after) = self.pair.rec[1] else { unreachable!() };
        Ok((a, after))
    }

    fn untouched(&self) -> bool {
        self.pair.data[1].iter().all(|b| *b == 0xee) && self.pair.out[1].iter().all(|b| *b == 0xa5)
    }

    fn buffers(&self) -> [Vec<u8>; 2] {
        [self.pair.data[1].clone(), self.pair.out[1].clone()]
    }

    /// Every report that is near something; `fits`: the record is in range.
    fn reports(&mut self, t: Target, fits: bool) -> Result<(), String> {
        let r = &t.receiver;
        let value = r.transfer.irt;
        for ms in reports(value, t.elapsed) {
            let sum = u32::from(t.elapsed) + u32::from(ms);
            let span = t.state == STATE_READY && r.filled < r.end && value > 0;
            let due = if !fits {
                (Answer::refused(1), t)
            } else if r.ended {
                (Answer::refused(2), t)
            } else if !span {
                (Answer::is(UNCHANGED), t)
            } else if sum >= u32::from(value) {
                (Answer::failed(33, 0), Target { receiver: Receiver { ended: true, ..*r }, ..t })
            } else {
                (Answer::is(TAKEN), Target { elapsed: sum as u16, ..t })
            };
            let got = self.call(t, &Call::Time(ms))?;
            if got != due || !self.untouched() {
                return Err(format!("report {ms} at {t:?}\n  at both sides {got:?}\n  due           {due:?}"));
            }
            // A record in range stays in range: what follows a failure is 2.
            if got.0.what == FAILED {
                let then = self.call(got.1, &Call::Time(ms))?;
                if then != (Answer::refused(2), got.1) {
                    return Err(format!("report {ms} after 33 at {t:?}\n  at both sides {then:?}"));
                }
            }
        }
        Ok(())
    }

    /// The call with this value and sum; `off` is what it did with the timeout off.
    fn beside(&mut self, t: Target, call: &Call, fits: bool, off: &(Answer, Target, [Vec<u8>; 2])) -> Result<(), String> {
        let (a, after) = self.call(t, call)?;
        let mut due = (off.0, off.1);
        match (call, off.0.what) {
            (Call::SetUp(..), READY) => {}
            // A set-up looks at nothing of the record.
            (Call::SetUp(..), _) => due.1 = t,
            _ if !fits => due = (Answer::refused(1), t),
            (_, what) => {
                due.1.receiver.transfer.irt = t.receiver.transfer.irt;
                due.1.elapsed = if [ACKNOWLEDGED, STORED, RECEIVED].contains(&what) { 0 } else { t.elapsed };
            }
        }
        let same = if due.0.what == REFUSED { self.untouched() } else { self.buffers() == off.2 };
        if (a, after) == due && same {
            return Ok(());
        }
        Err(format!("{call:?} at {t:?}\n  at both sides {a:?} {after:?}\n  due           {due:?}"))
    }
}

/// What must have come up: of reports, and of other calls.
fn due() -> BTreeSet<(bool, u8, u8)> {
    let of_reports = [(REFUSED, 1), (REFUSED, 2), (UNCHANGED, 0), (FAILED, 33), (TAKEN, 0)].map(|(what, number)| (true, what, number));
    let refused = [1, 2, 3, 4, 5, 6, 7, 8].map(|number| (false, REFUSED, number));
    let failed = [20, 21, 22, 28, 29, 30, 31].map(|number| (false, FAILED, number));
    let whats = [WAIT, FRAME, RETRY, UNCHANGED, ACKNOWLEDGED, DISCARDED, STORED, RECEIVED, READY].map(|what| (false, what, 0));
    of_reports.into_iter().chain(refused).chain(failed).chain(whats).collect()
}

/// Calls compared, or the first difference.
pub(super) fn all() -> Result<u64, String> {
    let mut at = At { pair: Pair::new(Rec::Target(Target::default()), vec![0; COUNT], 36), n: 0, seen: BTreeSet::new() };
    for (off, fits) in records() {
        let mut did = Vec::new();
        for call in calls() {
            let (a, after) = at.call(off, &call)?;
            did.push((call, (a, after, at.buffers())));
        }
        for value in EDGES {
            let mut sums = vec![0, 1, value / 2, value.saturating_sub(1), value, value.saturating_add(1), 65_535];
            sums.sort();
            sums.dedup();
            for elapsed in sums {
                let mut t = Target { elapsed, ..off };
                t.receiver.transfer.irt = value;
                let fits = fits && elapsed <= value;
                at.reports(t, fits)?;
                for (call, off) in &did {
                    at.beside(t, call, fits, off)?;
                }
            }
        }
    }
    if at.seen != due() {
        return Err(format!("came up {:?}\n  due {:?}", at.seen, due()));
    }
    Ok(at.n)
}
