//! K3 with both ends together: each XFER_RDY is lost, damaged, or loses its answer, in every order up to the retry limit and past it, while
//! the initiator hands out none, one or all of the frames it may. What the target hands out is always taken: no 25 comes up.
use super::pair::{Call, Pair, Rec};
use super::rng::Rng;
use super::vectors::transfer;
use super::world::ends;
use super::{editions, silent};
use crate::frame;
use crate::records::*;

/// What becomes of an XFER_RDY that gets no ACK: it arrives or not; the target's event.
const FATES: [(bool, Call, u8); 5] =
    [(false, Call::Nak, 28), (false, Call::Timeout, 29), (false, Call::Cut, 30), (true, Call::Timeout, 29), (true, Call::Cut, 30)];
/// Frames that the initiator hands out in between, and what becomes of each: None is on the way still.
const BETWEEN: [(usize, Option<Call>); 8] = [
    (0, None),
    (1, None),
    (9, None),
    (1, Some(Call::Ack)),
    (9, Some(Call::Ack)),
    (1, Some(Call::Nak)),
    (9, Some(Call::Nak)),
    (9, Some(Call::Timeout)),
];

#[derive(Clone)]
struct Link {
    initiator: Pair,
    target: Pair,
    /// The XFER_RDY handed out last, and if it, or one that it repeats, has arrived.
    sent: Vec<u8>,
    had: bool,
    /// Frames unanswered at the initiator.
    unanswered: usize,
    retries: u32,
}

/// How a tree of runs goes: answers to the DATA of a burst come only after the next XFER_RDY; the XFER_RDY's fates for short.
#[derive(Clone, Copy)]
struct Way {
    held: bool,
    between: usize,
}

struct Tree {
    way: Way,
    calls: u64,
    /// Runs whose data came whole, and those that ended at the limit.
    whole: u64,
    failed: u64,
    repeats: u64,
}

impl Tree {
    fn call(&mut self, pair: &mut Pair, call: Call, due: &[(u8, u8)]) -> Result<Answer, String> {
        let a = pair.call(&call)?.unwrap();
        self.calls += 1;
        if due.contains(&(a.what, a.number)) {
            return Ok(a);
        }
        Err(format!("{call:?} gave {a:?} at both sides, due {due:?}\n  {:?}", pair.rec[1]))
    }

    fn ask(&mut self, pair: &mut Pair) -> Result<Option<Vec<u8>>, String> {
        let call = Call::Next(pair.data[0].len(), pair.out[0].len());
        let a = self.call(pair, call, &[(FRAME, 0), (WAIT, 0)])?;
        Ok((a.what == FRAME).then(|| pair.out[1][..a.len].to_vec()))
    }

    /// The next XFER_RDY: first it goes well, then it meets each fate.
    fn ready(&mut self, link: &Link) -> Result<(), String> {
        let mut link = link.clone();
        let Some(f) = self.ask(&mut link.target)? else { return self.done(link) };
        if link.retries > 0 {
            // 01: "RETRANSMIT one, a new TPTT, the rest the same"; so K3 holds of it.
            let mut same = link.sent.clone();
            same[10] |= 2;
            same[18..20].copy_from_slice(&f[18..20]);
            if f != same || f[18..20] == link.sent[18..20] {
                return Err(format!("resent at both sides {f:02x?}\n  before {:02x?}", link.sent));
            }
        } else {
            link.had = false;
        }
        link.sent = f;
        let mut good = link.clone();
        self.arrives(&mut good)?;
        self.call(&mut good.target, Call::Ack, &[(ACKNOWLEDGED, 0)])?;
        self.burst(good)?;
        for (arrives, event, number) in FATES {
            let between = if arrives { &BETWEEN[..self.way.between] } else { &BETWEEN[..1] };
            for (frames, answer) in between {
                let mut bad = link.clone();
                if arrives {
                    self.arrives(&mut bad)?;
                    self.between(&mut bad, *frames, answer)?;
                }
                let Rec::Target(t) = bad.target.rec[1] else { unreachable!() };
                if bad.retries == t.receiver.transfer.limit {
                    self.call(&mut bad.target, event.clone(), &[(FAILED, number)])?;
                    self.failed += 1;
                    continue;
                }
                self.call(&mut bad.target, event.clone(), &[(RETRY, 0)])?;
                bad.retries += 1;
                self.ready(&bad)?;
            }
        }
        Ok(())
    }

    /// The XFER_RDY at the initiator; at copies of it, with other lengths.
    fn arrives(&mut self, link: &mut Link) -> Result<(), String> {
        let lent = link.initiator.data[0].len();
        let due: &[(u8, u8)] = if link.had { &[(REPEATED, 0)] } else { &[(NEXT_BURST, 0), (NEXT_BURST_DELIVERS, 0)] };
        let number = |at: usize| u32::from_be_bytes([link.sent[at], link.sent[at + 1], link.sent[at + 2], link.sent[at + 3]]);
        let (offset, len) = (number(24), number(28));
        for other in [len - 1, len + 1] {
            let mut f = link.sent.clone();
            f[28..32].copy_from_slice(&other.to_be_bytes());
            let fits = !link.had && other > 0 && (offset + other) as usize <= lent;
            self.call(&mut link.initiator.clone(), Call::Frame(f, lent), if fits { due } else { &[(FAILED, 25)] })?;
        }
        self.repeats += u64::from(link.had);
        link.had = true;
        self.call(&mut link.initiator, Call::Frame(link.sent.clone(), lent), due).map(|_| ())
    }

    /// Frames while the target has no ACK: they are discarded there.
    fn between(&mut self, link: &mut Link, frames: usize, answer: &Option<Call>) -> Result<(), String> {
        for _ in 0..frames {
            let Some(f) = self.ask(&mut link.initiator)? else { break };
            link.unanswered += 1;
            if *answer == Some(Call::Ack) {
                let lent = link.target.data[0].len();
                self.call(&mut link.target, Call::Frame(f, lent), &[(DISCARDED, 0)])?;
            }
        }
        match answer {
            None => Ok(()),
            Some(Call::Timeout) => self.clears(link),
            Some(answer) => self.answers(link, answer.clone()),
        }
    }

    fn clears(&mut self, link: &mut Link) -> Result<(), String> {
        if link.unanswered > 0 {
            self.call(&mut link.initiator, Call::Timeout, &[(RETRY, 0), (TAKEN, 0)])?;
        }
        link.unanswered = 0;
        Ok(())
    }

    fn answers(&mut self, link: &mut Link, answer: Call) -> Result<(), String> {
        for _ in 0..link.unanswered {
            self.call(&mut link.initiator, answer.clone(), &[(TAKEN, 0), (RETRY, 0), (DELIVERED, 0)])?;
        }
        link.unanswered = 0;
        Ok(())
    }

    /// The XFER_RDY had its ACK: old answers come, then all of the burst, and the next XFER_RDY.
    fn burst(&mut self, mut link: Link) -> Result<(), String> {
        self.answers(&mut link, Call::Ack)?;
        let lent = link.target.data[0].len();
        let base = u32::from_be_bytes([link.sent[24], link.sent[25], link.sent[26], link.sent[27]]);
        let mut expected = base;
        while let Some(f) = self.ask(&mut link.initiator)? {
            let h = frame::header_of(&f);
            if (h.offset, h.cdp) != (expected, false) || f[18..20] != link.sent[18..20] {
                return Err(format!("at both sides {f:02x?}; due offset {expected}, CDP zero, the tag of {:02x?}", link.sent));
            }
            expected += (f.len() - 24) as u32 - u32::from(f[11]);
            let a = self.call(&mut link.target, Call::Frame(f, lent), &[(STORED, 0), (RECEIVED, 0)])?;
            link.unanswered += 1;
            if a.what == STORED || !self.way.held {
                self.answers(&mut link, Call::Ack)?;
            }
        }
        let len = u32::from_be_bytes([link.sent[28], link.sent[29], link.sent[30], link.sent[31]]);
        if expected != base + len {
            return Err(format!("at both sides frames to {expected} for {:02x?}", link.sent));
        }
        link.retries = 0;
        self.ready(&link)
    }

    /// No XFER_RDY is due any more.
    fn done(&mut self, mut link: Link) -> Result<(), String> {
        self.answers(&mut link, Call::Ack)?;
        self.whole += 1;
        if link.target.data[1] == link.initiator.data[1] {
            return Ok(());
        }
        Err(format!("at both sides the target has {:02x?}", link.target.data[1]))
    }
}

/// Every run of one transfer.
fn runs(count: u32, window: u32, limit: u32, burst: u32, way: Way) -> Result<u64, String> {
    // K7: any edition and value at each end. K4: any timeout there, and no report.
    let own = &mut Rng(u64::from(count << 8 | limit << 4 | u32::from(way.held)));
    let (sas2, value) = editions::drawn(own);
    let [here, there] = ends(Transfer { sas2, value, ..transfer(true, count, window, limit, burst) }, editions::drawn(own));
    let [here, there] = [here, there].map(|t| Transfer { irt: silent::value(own), ..t });
    let data: Vec<u8> = (0..count).map(|i| 0x40 + i as u8).collect();
    let mut initiator = Pair::new(Rec::Writer(Writer::default()), data, 36);
    let mut target = Pair::new(Rec::Target(Target::default()), vec![0; count as usize], 36);
    let mut tree = Tree { way, calls: 0, whole: 0, failed: 0, repeats: 0 };
    tree.call(&mut initiator, Call::SetUp(here, 0), &[(READY, 0)])?;
    tree.call(&mut target, Call::SetUp(there, 0), &[(READY, 0)])?;
    tree.ready(&Link { initiator, target, sent: vec![], had: false, unanswered: 0, retries: 0 })?;
    // Every fate at every XFER_RDY: the number of runs is known.
    let fates = 3 + 2 * way.between as u64;
    let (bursts, ways) = (count.div_ceil(burst), (0..=limit).map(|n| fates.pow(n)).sum::<u64>());
    let failed = (0..bursts).map(|n| ways.pow(n) * fates.pow(limit + 1)).sum::<u64>();
    if (tree.whole, tree.failed) != (ways.pow(bursts), failed) || limit > 0 && tree.repeats == 0 {
        return Err(format!("{} runs whole, {} failed; due {} and {failed}", tree.whole, tree.failed, ways.pow(bursts)));
    }
    Ok(tree.calls)
}

/// Calls compared, or the first difference.
pub fn all() -> Result<u64, String> {
    let mut n = 0;
    // Count, window, limit, burst, how many of `BETWEEN`; with retries off only those in which the initiator needs none.
    let table = [(8, 2, 2, 8, 8), (7, 1, 3, 7, 3), (10, 2, 1, 6, 8), (9, 2, 1, 4, 5), (5, 3, 4, 5, 1), (12, 3, 2, 8, 3), (8, 2, 0, 4, 5)];
    for (count, window, limit, burst, between) in table {
        for held in [false, true] {
            let told = |e| format!("both ends, count {count}, window {window}, limit {limit}, burst {burst}: {e}");
            n += runs(count, window, limit, burst, Way { held, between }).map_err(told)?;
        }
    }
    Ok(n)
}
