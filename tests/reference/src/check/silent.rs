//! K4, the initiator that goes silent: what the part has in common. `silent_vectors` and `silent_numbers` have sequences by hand,
//! `silent_values` every value and every report, `silent_ports` made-up records at the edges, `silent_roles` the roles that ignore the
//! value, `silent_walk` every state of small writes, `silent_runs` both ends together. The sides are compared at every call; then K4's
//! sentences are held against what the library did.
use super::editions::transfer_of;
use super::opened::counted;
use super::pair::{Call, Pair, Rec};
use super::rng::Rng;
use crate::ffi;
use crate::records::*;

/// Where a value or a report of 16 bits has its ends, and where two of them pass 65,535.
pub const EDGES: [u16; 8] = [0, 1, 2, 9, 32_767, 32_768, 65_534, 65_535];

/// A value; 0 switches the timeout off.
pub fn value(g: &mut Rng) -> u16 {
    match g.below(4) {
        0 => 0,
        1 => g.of(&EDGES),
        2 => 1 + g.up_to(8) as u16,
        _ => g.next() as u16,
    }
}

/// A sum for a made-up record: mostly one that the value allows, at its ends or between; now and then one above it.
pub fn sum(g: &mut Rng, value: u16) -> u16 {
    let any = g.next() as u16;
    if g.one_in(24) {
        return g.of(&[value.saturating_add(1), 65_535, any]);
    }
    match g.below(6) {
        0 | 1 => 0,
        2 => value,
        3 => value.saturating_sub(1),
        _ => g.up_to(u32::from(value)) as u16,
    }
}

/// A report by the record: up to 65,535 `k` is the report itself. Above, it goes by what is left up to the value, which few of these reach.
pub fn report(t: &Target, k: u32) -> u16 {
    let Some(drawn) = k.checked_sub(1 << 16) else { return k as u16 };
    let left = t.receiver.transfer.irt.saturating_sub(t.elapsed);
    match drawn & 15 {
        0 | 1 => 0,
        2..=4 => left.min(2) / 2,
        5..=8 => left / 8,
        9 | 10 => left / 2,
        11..=13 => left.saturating_sub(1),
        _ => match drawn >> 4 & 63 {
            0 => left,
            1 => left.saturating_add(1),
            2 => 65_535,
            3 => (drawn >> 9) as u16,
            _ => left / 16,
        },
    }
}

/// Reports for a made-up record: those that reach the value and those that do not, by one; then the ends.
pub(super) fn reports(value: u16, sum: u16) -> Vec<u16> {
    let left = value.wrapping_sub(sum);
    let near = [left.wrapping_sub(1), left, left.wrapping_add(1), value.wrapping_sub(1), value, value.wrapping_add(1)];
    let mut all = [&near[..], &EDGES].concat();
    all.sort();
    all.dedup();
    all
}

/// What came before at the target of a write, as calls and answers tell it. No field of the record is looked at.
#[derive(Clone, Copy, Default, PartialEq, Eq, Hash, Debug)]
pub(super) struct Past {
    value: u16,
    /// The XFER_RDY handed out last had its ACK, and its burst is not filled.
    span: bool,
    sum: u32,
    ended: bool,
}

impl Past {
    /// K4 on a report at a record in range.
    pub(super) fn due(&self, milliseconds: u16) -> Answer {
        // "after 1 and 2"
        if self.ended {
            return Answer::refused(2);
        }
        // "0 switches it off"; "Time reported outside that span changes nothing."
        if self.value == 0 || !self.span {
            return Answer::is(UNCHANGED);
        }
        // "If it reaches the value before the burst is filled, the transfer fails."
        if self.sum + u32::from(milliseconds) >= u32::from(self.value) {
            return Answer { number: 33, what: FAILED, ..Answer::default() };
        }
        Answer::is(TAKEN)
    }

    /// "The sum starts from zero at the ACK of an XFER_RDY and at each DATA frame stored, not at a discarded one."
    pub(super) fn note(&mut self, call: &Call, a: &Answer) {
        match (call, a.what) {
            (Call::SetUp(t, _), READY) => *self = Past { value: t.irt, ..Past::default() },
            (Call::Ack, ACKNOWLEDGED) => (self.span, self.sum) = (true, 0),
            (Call::Frame(..), STORED) => self.sum = 0,
            (Call::Frame(..), RECEIVED) => (self.span, self.sum) = (false, 0),
            (Call::Time(ms), TAKEN) => self.sum += u32::from(*ms),
            (_, FAILED) => self.ended = true,
            _ => {}
        }
    }
}

/// A target at both sides, and what came before.
#[derive(Clone)]
pub(super) struct Watched {
    pub(super) pair: Pair,
    pub(super) past: Past,
    pub(super) calls: u64,
}

impl Watched {
    pub(super) fn new(t: Transfer, bytes: Vec<u8>) -> Result<Watched, String> {
        let mut w = Watched { pair: Pair::new(Rec::Target(Target::default()), bytes, 36), past: Past::default(), calls: 0 };
        w.call(&Call::SetUp(t, 0))?;
        Ok(w)
    }

    pub(super) fn target(&self) -> Target {
        let Rec::Target(t) = self.pair.rec[1] else { unreachable!() };
        t
    }

    pub(super) fn frame(&self, bytes: Vec<u8>) -> Call {
        Call::Frame(bytes, self.pair.data[0].len())
    }

    /// The call at both sides. A report gets what is due and moves only the sum, or ends the record. No other call gives 33. The sum is always
    /// the one that the calls before tell.
    pub(super) fn call(&mut self, call: &Call) -> Result<Answer, String> {
        let (before, past) = (self.pair.clone(), self.past);
        let a = self.pair.call(call)?.unwrap();
        self.calls += 1;
        self.past.note(call, &a);
        let old = before.rec[1];
        let told = |what: &str| {
            Err(format!("{what}: {call:?} gave {a:?} at both sides\n  before {old:?}\n  after  {:?}\n  {past:?}", self.pair.rec[1]))
        };
        let now = self.target();
        if u32::from(now.elapsed) != self.past.sum {
            return told("another sum");
        }
        let Call::Time(ms) = call else {
            return if a.number == 33 { told("33 without a report") } else { Ok(a) };
        };
        if a != past.due(*ms) {
            return told(&format!("{:?} was due", past.due(*ms)));
        }
        let Rec::Target(mut due) = old else { unreachable!() };
        due.elapsed = now.elapsed;
        due.receiver.ended |= a.what == FAILED;
        if now != due || self.pair.data != before.data || self.pair.out != before.out {
            return told("a report changed more than the sum");
        }
        Ok(a)
    }
}

/// The record with this value.
pub(super) fn given(mut rec: Rec, value: u16) -> Rec {
    transfer_of(&mut rec).irt = value;
    rec
}

/// Calls compared, or the first difference.
pub fn all() -> Result<u64, String> {
    let number = unsafe { ffi::ssp_interface_4() };
    if number != 4 {
        return Err(format!("ssp_interface_4 gave {number}"));
    }
    counted(|| {
        let vectors = super::silent_vectors::all().and_then(|n| Ok(n + super::silent_numbers::all()?));
        let by_hand = vectors.map_err(|e| format!("by hand: {e}"))?;
        let values = super::silent_values::all().map_err(|e| format!("values: {e}"))?;
        let ports = super::silent_ports::all()? + super::silent_roles::all()?;
        Ok(by_hand + values + ports + super::silent_walk::all()? + super::silent_runs::all()?)
    })
}
