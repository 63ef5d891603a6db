//! K5, "Some device servers answer one command by several reads, each at its own place in the host's buffer": reads one after the other and in
//! turns, with one tag and one host's buffer, over a link with faults. Each read moves its own bytes to its own place and no other byte.
use super::editions_runs::Command;
use super::further::*;
use super::pair::{Call, Pair, Rec};
use super::rng::Rng;
use crate::records::*;

/// What the reads of a command have in common.
fn common(g: &mut Rng) -> Transfer {
    Transfer {
        count: 1,
        size: g.of(&[4, 8, 12]),
        window: 1 + g.up_to(3),
        limit: g.of(&[0, 1, 2, 3, 15, 15]),
        burst: 1,
        local: 0x12_3456,
        remote: 0xab_cdef,
        tag: 0x12,
        ..Transfer::default()
    }
}

/// Reads of at least one byte in a buffer of `len`: side by side or with gaps, in any order. `over`: anywhere, so that they may overlap.
fn places(g: &mut Rng, t: Transfer, len: u32, over: bool) -> Vec<Transfer> {
    let reads = 2 + g.up_to(3);
    let each = len / reads;
    let touch = g.one_in(2);
    let mut all: Vec<Transfer> = (0..reads)
        .map(|i| {
            let count = if touch { each } else { 1 + g.up_to(each - 1) };
            let start = if over { g.up_to(len - count) } else { i * each + if touch { 0 } else { g.up_to(each - count) } };
            Transfer { start, count, burst: 1 + g.up_to(count - 1), ..t }
        })
        .collect();
    for i in (1..all.len()).rev() {
        if !g.one_in(3) {
            all.swap(i, g.up_to(i as u32) as usize);
        }
    }
    all
}

fn bytes(g: &mut Rng, n: u32) -> Vec<u8> {
    (0..n).map(|_| g.next() as u8).collect()
}

/// How many bytes of the read its host has stored: all below the filled mark, none from it on.
fn stored(t: &Transfer, host: &Pair) -> usize {
    let Rec::Receiver(r) = host.rec[1] else { panic!("no host of a read") };
    (r.filled - t.start) as usize
}

fn initiator(t: &Transfer) -> Transfer {
    Transfer { local: t.remote, remote: t.local, ..*t }
}

/// How often a read failed, came whole.
type Seen = [u64; 2];

/// One read after the other, in the same records, each set up anew; then the RESPONSE.
fn in_order(seed: u64, seen: &mut Seen) -> Result<u64, String> {
    let g = &mut Rng(!seed ^ 5);
    let len = 20 + g.up_to(100);
    let (t, over) = (common(g), g.one_in(3));
    let reads = places(g, t, len, over);
    let buffer = bytes(g, len);
    let mut c = Command::new(reads[0], [(false, 0), (true, 9)], seed, None)?;
    c.initiator.data = [buffer.clone(), buffer.clone()];
    let mut due = buffer;
    for (i, t) in reads.iter().enumerate() {
        let told = |e| format!("read {}, {} bytes from {}: {e}", i + 1, t.count, t.start);
        let data = bytes(g, t.count);
        c.target.data = [data.clone(), data.clone()];
        if i > 0 {
            c.call(|c| &mut c.initiator, Call::SetUp(initiator(t), 0)).map_err(told)?;
            c.call(|c| &mut c.target, Call::SetUp(*t, 0)).map_err(told)?;
        }
        let (before, out) = (c.initiator.data[1].clone(), c.frames.len());
        let last = i + 1 == reads.len();
        let whole = if last { c.run() } else { c.data(|c| &mut c.target, |c| &mut c.initiator) }.map_err(told)?;
        seen[usize::from(whole)] += 1;
        let after = &c.initiator.data[1];
        if !outside_kept(t, &before, after) {
            return Err(told("a byte outside the read changed at both sides".into()));
        }
        let n = if whole { data.len() } else { stored(t, &c.initiator) };
        due[t.start as usize..][..n].copy_from_slice(&data[..n]);
        // "The report says how many frames it handed out since set-up".
        let frames = (c.frames.len() - out) as u64;
        if *after != due || !last && c.answers.last().is_none_or(|a| a.2 != frames) {
            return Err(told(format!("at both sides not as due, {frames} frames, {:?}", c.answers.last())));
        }
    }
    Ok(c.calls)
}

/// A read of several that go on in turns.
struct Read {
    t: Transfer,
    target: Pair,
    host: Pair,
    done: Option<bool>,
}

struct Turns {
    g: Rng,
    calls: u64,
    /// The one buffer, at both sides.
    shared: [Vec<u8>; 2],
    /// Frames of a read at the record of another one.
    strange: u64,
}

impl Turns {
    fn call(&mut self, pair: &mut Pair, call: &Call) -> Result<Answer, String> {
        self.calls += 1;
        Ok(pair.call(call)?.unwrap())
    }

    /// A frame at the host's record, over the buffer that all reads share.
    fn arrives(&mut self, host: &mut Pair, f: &[u8]) -> Result<Answer, String> {
        host.data = std::mem::take(&mut self.shared);
        let a = self.call(host, &Call::Frame(f.to_vec(), host.data[0].len()))?;
        self.shared = std::mem::take(&mut host.data);
        Ok(a)
    }

    /// At a copy of another read's record: the places of the two have nothing in common, so 20, unless that one has failed or is filled.
    fn strange(&mut self, other: &Read, f: &[u8]) -> Result<(), String> {
        let before = self.shared.clone();
        let Rec::Receiver(r) = other.host.rec[1] else { unreachable!() };
        let a = self.arrives(&mut other.host.clone(), f)?;
        let due = match r {
            Receiver { ended: true, .. } => Answer::refused(2),
            Receiver { filled, end, .. } if filled == end => Answer::is(DISCARDED),
            _ => Answer::failed(20, 0),
        };
        self.strange += 1;
        if a == due && self.shared == before {
            return Ok(());
        }
        Err(format!("a frame of another read gave {a:?} at both sides, due {due:?}\n  {r:?}"))
    }

    /// One turn of a read: frames until "wait", then what becomes of them.
    fn turn(&mut self, reads: &mut [Read], i: usize) -> Result<(), String> {
        let mut out = Vec::new();
        loop {
            let ask = Call::Next(reads[i].t.count as usize, 48);
            let a = self.call(&mut reads[i].target, &ask)?;
            if a.what != FRAME {
                break;
            }
            out.push(reads[i].target.out[1][..a.len].to_vec());
        }
        let (mut last, mut lost) = (Answer::default(), false);
        for f in out {
            let fate = self.g.below(12);
            if fate > 1 {
                self.arrives(&mut reads[i].host, &f)?;
            }
            if self.g.one_in(4) {
                let k = self.g.below(reads.len() as u64) as usize;
                if k != i {
                    self.strange(&reads[k], &f)?;
                }
            }
            match fate {
                0 | 2 => lost = true,
                1 => last = self.call(&mut reads[i].target, &Call::Nak)?,
                _ => last = self.call(&mut reads[i].target, &Call::Ack)?,
            }
        }
        if lost {
            let call = if self.g.one_in(2) { Call::Timeout } else { Call::Cut };
            last = self.call(&mut reads[i].target, &call)?;
        }
        reads[i].done = match last.what {
            DELIVERED => Some(true),
            FAILED => Some(false),
            _ => None,
        };
        Ok(())
    }
}

/// The reads of a command in turns; what each sends stands at its place, and all else as before.
fn in_turns(seed: u64, seen: &mut Seen) -> Result<(u64, u64), String> {
    let mut g = Rng(!seed ^ 6);
    let len = 20 + g.up_to(80);
    let t = common(&mut g);
    let buffer = bytes(&mut g, len);
    let places = places(&mut g, t, len, false);
    let mut turns = Turns { g, calls: 0, shared: [buffer.clone(), buffer.clone()], strange: 0 };
    let mut reads = Vec::new();
    for t in places {
        let data = bytes(&mut turns.g, t.count);
        let mut target = Pair::new(Rec::Sender(Sender::default()), data, 48);
        let mut host = Pair::new(Rec::Receiver(Receiver::default()), vec![], 0);
        turns.call(&mut target, &Call::SetUp(t, 0))?;
        turns.call(&mut host, &Call::SetUp(initiator(&t), 0))?;
        reads.push(Read { t, target, host, done: None });
    }
    while reads.iter().any(|r| r.done.is_none()) {
        let i = turns.g.below(reads.len() as u64) as usize;
        if reads[i].done.is_none() {
            turns.turn(&mut reads, i)?;
        }
    }
    let mut due = buffer;
    for r in &reads {
        let (whole, data) = (r.done == Some(true), &r.target.data[1]);
        seen[usize::from(whole)] += 1;
        let n = if whole { data.len() } else { stored(&r.t, &r.host) };
        due[r.t.start as usize..][..n].copy_from_slice(&data[..n]);
    }
    if turns.shared[1] != due {
        return Err("the host's buffer is not as due at both sides".into());
    }
    Ok((turns.calls, turns.strange))
}

/// Calls compared, or the first difference.
pub(super) fn all() -> Result<u64, String> {
    let (mut n, mut seen, mut strange) = (0, [[0; 2]; 2], 0);
    for seed in 1..=12_000 {
        n += in_order(seed, &mut seen[0]).map_err(|e| format!("reads of seed {seed}, {e}"))?;
        let (calls, others) = in_turns(seed, &mut seen[1]).map_err(|e| format!("reads in turns of seed {seed}, {e}"))?;
        n += calls;
        strange += others;
    }
    if seen.as_flattened().contains(&0) || strange == 0 {
        return Err(format!(
            "reads that failed, came whole: one after the other {:?}, in turns {:?}; frames of others {strange}",
            seen[0], seen[1]
        ));
    }
    Ok(n)
}
