//! K7 with both ends together: "any pairing delivers alike". A run goes in four worlds side by side, one for each pairing of editions, with values
//! of their own; answers, records but for edition and value, frames but for the TPTT of read DATA and RESPONSE, and buffers stay the same.
//! Then whole commands over a link with faults, to their end.
use super::editions::*;
use super::pair::{Call, Pair, Rec};
use super::rng::Rng;
use super::vectors::response_iu;
use super::world::{self, Ends, World};
use super::{further, silent};
use crate::frame;
use crate::records::*;
use std::collections::BTreeMap;

/// The pairings; the first is today's.
const PAIRINGS: [[bool; 2]; 4] = [[false, false], [true, false], [false, true], [true, true]];

/// Any value under SAS-2; at the two ends the same now and then.
fn pairing(g: &mut Rng, sas2: [bool; 2]) -> [Edition; 2] {
    let value = [g.next() as u16, g.of(&EDGES)];
    let value = if g.one_in(3) { [value[1]; 2] } else { value };
    [0, 1].map(|i| (sas2[i], if sas2[i] { value[i] } else { 0 }))
}

fn with([t, other]: Ends, editions: [Edition; 2]) -> Ends {
    let [(a, x), (b, y)] = editions;
    [Transfer { sas2: a, value: x, ..t }, Transfer { sas2: b, value: y, ..other }]
}

/// The three records of a world, with the edition that each has: the RESPONSE's is the target's.
fn pairs<'a>(w: &'a World, editions: &[Edition; 2]) -> [(&'a Pair, Edition); 3] {
    let [near, far] = *editions;
    [(&w.sender, near), (&w.receiver, far), (&w.responder, if w.write() { far } else { near })]
}

/// Frames on the way, each with the TPTT that is due: None where it is as today.
fn way<'a>(w: &'a World, editions: &[Edition; 2]) -> Vec<(&'a [u8], Option<[u8; 2]>)> {
    let [near, far] = *editions;
    let target = if w.write() { far } else { near };
    let data = w.data.frames.iter().map(|f| (&f[..], (!w.write()).then(|| carried(near))));
    let ready = w.ready.frames.iter().map(|f| (&f[..], None));
    data.chain(ready).chain(w.response.iter().map(|f| (&f[..], Some(carried(target))))).collect()
}

/// The same frame, but for a TPTT that is due.
fn same(today: &[u8], f: &[u8], tptt: Option<[u8; 2]>) -> bool {
    let mut wanted = today.to_vec();
    if let Some(tptt) = tptt {
        wanted[18..20].copy_from_slice(&tptt);
    }
    wanted == f
}

/// What an output buffer holds is a frame once one was handed out; before, the bytes that it had.
const UNTOUCHED: u8 = 0xa5;

fn alike(today: &Pair, pair: &Pair, edition: Edition) -> bool {
    let out = (today.out[1][18] != UNTOUCHED && carries(&today.rec[1])).then(|| carried(edition));
    named(today.rec[1], edition) == pair.rec[1] && today.data[1] == pair.data[1] && same(&today.out[1], &pair.out[1], out)
}

/// The events of a seed in the four worlds.
fn beside(seed: u64) -> Result<u64, String> {
    let (ends, list) = world::from_seed(seed);
    let g = &mut Rng(!seed ^ 77);
    let editions = PAIRINGS.map(|sas2| pairing(g, sas2));
    let mut worlds = Vec::new();
    for e in &editions {
        worlds.push(World::new(with(ends, *e))?);
    }
    for (i, event) in list.iter().enumerate() {
        let at = i + 1;
        let mut did = Vec::new();
        for (w, e) in worlds.iter_mut().zip(&editions) {
            did.push(w.step(*event).map_err(|s| format!("event {at}, {e:?}: {s}"))?);
        }
        let today = &worlds[0];
        for (k, (w, e)) in worlds.iter().zip(&editions).enumerate() {
            let [x, y] = [way(today, &editions[0]), way(w, e)];
            let frames = x.len() == y.len() && x.iter().zip(&y).all(|((f, _), (g, tptt))| same(f, g, *tptt));
            let records = pairs(today, &editions[0]).iter().zip(pairs(w, e)).all(|((a, _), (b, edition))| alike(a, b, edition));
            let answers = today.data.answers == w.data.answers && today.ready.answers == w.ready.answers && did[0] == did[k];
            if !(frames && records && answers && today.calls == w.calls) {
                let told = pairs(w, e).map(|(p, _)| p.rec[1]);
                return Err(format!("event {at}, {event:?}, {e:?}: at both sides not as under SAS-1.1\n  {told:?}"));
            }
        }
    }
    Ok(worlds.iter().map(|w| w.calls).sum())
}

/// What comes instead of an ACK that is lost.
const LOST: [Call; 2] = [Call::Timeout, Call::Cut];

/// One command to its end; all that was answered and handed out, in order.
pub(super) struct Command {
    g: Rng,
    /// K4: between the calls, reports of time that do not fail.
    clock: Option<Rng>,
    write: bool,
    pub(super) initiator: Pair,
    pub(super) target: Pair,
    pub(super) responder: Pair,
    pub(super) calls: u64,
    pub(super) answers: Vec<(u8, u8, u64)>,
    pub(super) frames: Vec<Vec<u8>>,
    pub(super) counted: u64,
}

/// What a frame meets: it arrives or not; its answer comes or not.
#[derive(Clone, Copy)]
struct Fate {
    arrives: bool,
    answered: bool,
}

impl Command {
    pub(super) fn new(t: Transfer, editions: [Edition; 2], seed: u64, clock: Option<Rng>) -> Result<Command, String> {
        let mut g = Rng(seed);
        // The sending end of a read is the target.
        let ends = with(world::ends(t, TODAY), editions);
        let [initiator, target] = if t.write { ends } else { [ends[1], ends[0]] };
        let initiator = Transfer { irt: !t.irt, ..initiator };
        let bytes: Vec<u8> = (0..t.count).map(|_| g.next() as u8).collect();
        let lent = if t.write { vec![0; bytes.len()] } else { further::host(&initiator) };
        let room = 24 + t.size.max(28) as usize;
        let recs = if t.write {
            [(Rec::Writer(Writer::default()), bytes), (Rec::Target(Target::default()), lent)]
        } else {
            [(Rec::Receiver(Receiver::default()), lent), (Rec::Sender(Sender::default()), bytes)]
        };
        let [a, b] = recs.map(|(rec, data)| Pair::new(rec, data, room));
        let responder = Pair::new(Rec::Responder(Responder::default()), response_iu(6, 26), room);
        let (answers, frames) = (vec![], vec![]);
        let mut c = Command { g, clock, write: t.write, initiator: a, target: b, responder, calls: 0, answers, frames, counted: 0 };
        c.call(|c| &mut c.initiator, Call::SetUp(initiator, 0))?;
        c.call(|c| &mut c.target, Call::SetUp(target, 0))?;
        c.call(|c| &mut c.responder, Call::SetUp(target, 26))?;
        Ok(c)
    }

    /// K4: "Reports of time now stand in the delivery rule's lists, and it also assumes that none of them fails the transfer."
    fn reports(&mut self) -> Result<(), String> {
        let (Some(g), Rec::Target(t)) = (&mut self.clock, self.target.rec[0]) else { return Ok(()) };
        let left = t.receiver.transfer.irt - t.elapsed;
        let r = &t.receiver;
        let span = t.state == STATE_READY && r.filled < r.end && !r.ended && left > 0;
        let ms = if span { g.up_to(u32::from(left) - 1) as u16 } else { g.next() as u16 };
        if g.one_in(2) {
            return Ok(());
        }
        self.calls += 1;
        self.counted += u64::from(span);
        match self.target.call(&Call::Time(ms))?.unwrap() {
            a if a == Answer::is(TAKEN) && span => Ok(()),
            a if !span && (a == Answer::is(UNCHANGED) || a == Answer::refused(2)) => Ok(()),
            a => Err(format!("a report of {ms}: {a:?} at both sides\n  {t:?}")),
        }
    }

    pub(super) fn call(&mut self, end: fn(&mut Command) -> &mut Pair, call: Call) -> Result<Answer, String> {
        let a = end(self).call(&call)?.unwrap();
        if !matches!(call, Call::SetUp(..)) {
            self.reports()?;
        }
        self.calls += 1;
        self.answers.push((a.what, a.number, a.frames));
        Ok(a)
    }

    fn ask(&mut self, end: fn(&mut Command) -> &mut Pair) -> Result<Option<Vec<u8>>, String> {
        let pair = end(self);
        let call = Call::Next(pair.data[0].len(), pair.out[0].len());
        let a = self.call(end, call)?;
        let f = (a.what == FRAME).then(|| end(self).out[1][..a.len].to_vec());
        self.frames.extend(f.clone());
        Ok(f)
    }

    fn arrives(&mut self, end: fn(&mut Command) -> &mut Pair, f: Vec<u8>) -> Result<Answer, String> {
        let lent = end(self).data[0].len();
        self.call(end, Call::Frame(f, lent))
    }

    fn fate(&mut self) -> Fate {
        let good = !self.g.one_in(6);
        Fate { arrives: good || self.g.one_in(3), answered: good || self.g.one_in(2) }
    }

    /// A frame that is interlocked, XFER_RDY or RESPONSE, until its ACK. False: the port failed.
    fn alone(&mut self, from: fn(&mut Command) -> &mut Pair, to: fn(&mut Command) -> &mut Pair, first: Vec<u8>) -> Result<bool, String> {
        let mut f = first;
        loop {
            let fate = self.fate();
            if fate.arrives {
                self.arrives(to, f)?;
            }
            let event = match fate {
                Fate { answered: false, .. } => self.g.of(&[0, 1]),
                Fate { arrives: true, .. } => 2,
                _ => 3,
            };
            let a = self.call(from, [LOST[0].clone(), LOST[1].clone(), Call::Ack, Call::Nak][event].clone())?;
            match a.what {
                RETRY => f = self.ask(from)?.ok_or("no frame after a retry")?,
                FAILED => return Ok(false),
                _ => return Ok(true),
            }
        }
    }

    /// DATA until the sending port has delivered. False: it failed.
    pub(super) fn data(&mut self, from: fn(&mut Command) -> &mut Pair, to: fn(&mut Command) -> &mut Pair) -> Result<bool, String> {
        loop {
            let mut turn = Vec::new();
            while let Some(f) = self.ask(from)? {
                turn.push(f);
            }
            let mut last = Answer::default();
            let mut lost = false;
            for f in turn {
                let fate = self.fate();
                if fate.arrives {
                    self.arrives(to, f)?;
                }
                lost |= !fate.answered;
                if fate.answered {
                    last = self.call(from, if fate.arrives { Call::Ack } else { Call::Nak })?;
                }
            }
            if lost {
                let event = LOST[self.g.of(&[0, 1])].clone();
                last = self.call(from, event)?;
            }
            match last.what {
                DELIVERED => return Ok(true),
                FAILED => return Ok(false),
                _ => {}
            }
        }
    }

    /// The data, then the RESPONSE. If the data came whole.
    pub(super) fn run(&mut self) -> Result<bool, String> {
        let mut whole = true;
        if self.write {
            while let (true, Some(f)) = (whole, self.ask(|c| &mut c.target)?) {
                whole = self.alone(|c| &mut c.target, |c| &mut c.initiator, f)? && self.data(|c| &mut c.initiator, |c| &mut c.target)?;
            }
        } else {
            whole = self.data(|c| &mut c.target, |c| &mut c.initiator)?;
        }
        // K5: "byte i of the sender is at start plus i in the receiver".
        let start = if let Rec::Receiver(r) = self.initiator.rec[1] { r.transfer.start as usize } else { 0 };
        if whole && self.initiator.data[1][start..][..self.target.data[1].len()] != self.target.data[1] {
            return Err("delivered at both sides, and the bytes differ".into());
        }
        let f = self.ask(|c| &mut c.responder)?.ok_or("no RESPONSE")?;
        self.alone(|c| &mut c.responder, |c| &mut c.initiator, f)?;
        Ok(whole)
    }
}

/// How often frames went out under SAS-2: in a write, type, byte 10.
type Seen = BTreeMap<(bool, u8, u8), u64>;

/// One command in the four pairings.
fn command(seed: u64, seen: &mut Seen, whole: &mut [u64; 4]) -> Result<u64, String> {
    let g = &mut Rng(seed);
    let count = 1 + g.up_to(70);
    let t = Transfer {
        count,
        size: g.of(&[4, 8, 12]),
        window: 1 + g.up_to(3),
        limit: g.of(&[0, 1, 2, 3, 15, 15]),
        burst: 1 + g.up_to(count - 1),
        local: 0x12_3456,
        remote: 0xab_cdef,
        tag: 0x12,
        write: g.one_in(2),
        irt: silent::value(&mut Rng(!seed ^ 4)),
        ..Transfer::default()
    };
    let t = Transfer { start: further::small(&mut Rng(!seed ^ 5), t.write), ..t };
    let mut first: Option<Command> = None;
    let mut calls = 0;
    for (k, sas2) in PAIRINGS.into_iter().enumerate() {
        let editions = pairing(g, sas2);
        let told = |e| format!("command of seed {seed}, {editions:?}: {e}");
        let mut c = Command::new(t, editions, seed, (seed % 2 == 0).then(|| Rng(!seed))).map_err(told)?;
        whole[k] += u64::from(c.run().map_err(told)?);
        calls += c.calls;
        let target = editions[usize::from(t.write)];
        for f in &c.frames {
            let value = f[0] == frame::RESPONSE_TYPE || !t.write;
            if value && f[18..20] != carried(target) {
                return Err(told(format!("handed out at both sides {f:02x?}")));
            }
            *seen.entry((t.write, f[0], f[10])).or_default() += u64::from(value && target.0);
        }
        let Some(today) = &first else {
            first = Some(c);
            continue;
        };
        let kept = |f: &[u8]| [&f[..18], if f[0] == frame::RESPONSE_TYPE || !t.write { &[] } else { &f[18..20] }, &f[20..]].concat();
        let frames = today.frames.len() == c.frames.len() && today.frames.iter().zip(&c.frames).all(|(a, b)| kept(a) == kept(b));
        let ends = [(&today.initiator, &c.initiator), (&today.target, &c.target), (&today.responder, &c.responder)];
        let alike = ends.iter().all(|(a, b)| named(a.rec[1], edition_of(b.rec[1])) == b.rec[1] && a.data[1] == b.data[1]);
        if today.answers != c.answers || !frames || !alike {
            return Err(told("at both sides not as under SAS-1.1".into()));
        }
    }
    Ok(calls)
}

/// Calls compared, or the first difference.
pub(super) fn all() -> Result<u64, String> {
    let (mut n, mut seen, mut whole) = (0, Seen::new(), [0; 4]);
    for seed in 1..=2_000 {
        n += beside(seed).map_err(|e| format!("run of seed {seed}, {e}"))?;
    }
    for seed in 1..=30_000 {
        n += command(seed, &mut seen, &mut whole)?;
    }
    // Read DATA first and resent, the RESPONSE of a read and of a write first and resent.
    for what in [(false, 1, 0), (false, 1, 1), (false, 7, 0), (false, 7, 2), (true, 7, 0), (true, 7, 2)] {
        if seen.get(&what).copied().unwrap_or(0) == 0 {
            return Err(format!("{what:?} never came up under SAS-2, {seen:?}"));
        }
    }
    if whole[0] == 0 || whole.iter().any(|n| *n != whole[0]) {
        return Err(format!("data came whole {whole:?} times"));
    }
    Ok(n)
}
