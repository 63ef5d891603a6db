//! Both ends of one command over a link with faults, library and reference side by side.
use super::forged::{forged, repeat};
use super::pair::{Call, Pair, Rec};
use super::rng::Rng;
use super::{editions, further, silent};
use crate::records::*;
use std::collections::VecDeque;

#[derive(Clone, Copy, PartialEq, Eq, Debug)]
pub enum Event {
    Ask,
    Arrive,
    Damage,
    Lose,
    Answer,
    LoseAnswer,
    Timeout,
    Cut,
    ReadyAsk,
    ReadyArrive,
    ReadyDamage,
    ReadyLose,
    ReadyAnswer,
    ReadyLoseAnswer,
    ReadyTimeout,
    ReadyCut,
    ResponseAsk,
    ResponseArrive,
    ResponseAck,
    ResponseNak,
    ResponseTimeout,
    ResponseCut,
    /// Frame of before, again, with any TLR CONTROL, with a byte changed or not.
    Old(u32),
    /// A made-up XFER_RDY.
    Forged(u32),
    /// K3: a made-up repeat of the burst taken last, so many bytes longer.
    Repeat(i32),
    /// Answers out of turn, short buffers, a nexus loss.
    Stray(u32),
    Loss(u32),
    /// K4: a report of time at the target of a write, as `silent::report` reads it.
    Time(u32),
}

pub const LINK: [Event; 8] =
    [Event::Ask, Event::Arrive, Event::Damage, Event::Lose, Event::Answer, Event::LoseAnswer, Event::Timeout, Event::Cut];
pub const READY_LINK: [Event; 8] = [
    Event::ReadyAsk,
    Event::ReadyArrive,
    Event::ReadyDamage,
    Event::ReadyLose,
    Event::ReadyAnswer,
    Event::ReadyLoseAnswer,
    Event::ReadyTimeout,
    Event::ReadyCut,
];

/// Frames and answers on the way, in order.
#[derive(Clone, Default, PartialEq, Hash)]
pub(super) struct Way {
    pub(super) frames: VecDeque<Vec<u8>>,
    pub(super) answers: VecDeque<bool>,
}

/// What the sending and the receiving end are set up with. K7: each has an edition and a value of its own.
pub type Ends = [Transfer; 2];

/// The other end of `t`, with its edition and value.
pub fn ends(t: Transfer, (sas2, value): (bool, u16)) -> Ends {
    [t, Transfer { local: t.remote, remote: t.local, sas2, value, ..t }]
}

#[derive(Clone)]
pub struct World {
    pub(super) sender: Pair,
    pub(super) receiver: Pair,
    pub(super) responder: Pair,
    pub(super) data: Way,
    pub(super) ready: Way,
    pub(super) response: Option<Vec<u8>>,
    pub(super) old: Vec<Vec<u8>>,
    pub calls: u64,
}

const OUT: usize = 64;
const IU: usize = 27;

/// A RESPONSE's IU that K9 takes: three bytes of sense data (byte 10 is 0Ah). All but their length counts up, so that the bytes differ.
fn response_iu() -> Vec<u8> {
    let mut iu: Vec<u8> = (0..IU as u8).collect();
    iu[16..20].copy_from_slice(&[0, 0, 0, 3]);
    iu
}

impl World {
    pub fn new([t, other]: Ends) -> Result<World, String> {
        let n = t.count as usize;
        let bytes: Vec<u8> = (0..n).map(|i| (i * 7 + 1) as u8).collect();
        let (s, r) = if t.write {
            (Rec::Writer(Writer::default()), Rec::Target(Target::default()))
        } else {
            (Rec::Sender(Sender::default()), Rec::Receiver(Receiver::default()))
        };
        let room = OUT.max(24 + t.size as usize);
        let mut w = World {
            sender: Pair::new(s, bytes, room),
            receiver: Pair::new(r, if t.write { vec![0; n] } else { further::host(&other) }, room),
            responder: Pair::new(Rec::Responder(Responder::default()), response_iu(), OUT),
            data: Way::default(),
            ready: Way::default(),
            response: None,
            old: Vec::new(),
            calls: 3,
        };
        w.sender.call(&Call::SetUp(t, 0))?;
        w.receiver.call(&Call::SetUp(other, 0))?;
        let at_target = if t.write { other } else { t };
        w.responder.call(&Call::SetUp(at_target, IU))?;
        Ok(w)
    }

    pub fn write(&self) -> bool {
        matches!(self.sender.rec[0], Rec::Writer(_))
    }

    fn ended(&self) -> bool {
        match &self.sender.rec[0] {
            Rec::Sender(s) => s.ended,
            Rec::Writer(w) => w.sender.ended,
            _ => false,
        }
    }

    fn ask(pair: &mut Pair) -> Result<(Answer, Vec<u8>), String> {
        let a = pair.call(&Call::Next(pair.data[0].len(), pair.out[0].len()))?.unwrap();
        Ok((a, pair.out[0][..a.len].to_vec()))
    }

    fn keep(&mut self, bytes: &[u8]) {
        if self.old.len() < 6 {
            self.old.push(bytes.to_vec());
        }
    }

    /// One event. False: nothing to do, no call.
    pub fn step(&mut self, event: Event) -> Result<bool, String> {
        let n = self.receiver.data[0].len();
        let one = |pair: &mut Pair, call: Call, calls: &mut u64| -> Result<bool, String> {
            let had = pair.call(&call)?.is_some();
            *calls += u64::from(had);
            Ok(had)
        };
        let c = &mut self.calls;
        match event {
            Event::Ask => {
                let (a, bytes) = Self::ask(&mut self.sender)?;
                self.calls += 1;
                if a.what == FRAME {
                    self.keep(&bytes);
                    self.data.frames.push_back(bytes);
                }
                Ok(true)
            }
            Event::Arrive => match self.data.frames.pop_front() {
                None => Ok(false),
                Some(f) => {
                    self.data.answers.push_back(true);
                    one(&mut self.receiver, Call::Frame(f, n), c)
                }
            },
            Event::Damage => Ok(self.data.frames.pop_front().map(|_| self.data.answers.push_back(false)).is_some()),
            Event::Lose => Ok(self.data.frames.pop_front().is_some()),
            Event::LoseAnswer => Ok(self.data.answers.pop_front().is_some()),
            Event::Answer => match self.data.answers.pop_front() {
                None => Ok(false),
                Some(ack) => one(&mut self.sender, if ack { Call::Ack } else { Call::Nak }, c),
            },
            Event::Timeout | Event::Cut => {
                self.data = Way::default();
                one(&mut self.sender, if event == Event::Cut { Call::Cut } else { Call::Timeout }, c)
            }
            Event::ReadyAsk => {
                if !self.write() {
                    return Ok(false);
                }
                let (a, bytes) = Self::ask(&mut self.receiver)?;
                self.calls += 1;
                if a.what == FRAME {
                    self.keep(&bytes);
                    self.ready.frames.push_back(bytes);
                }
                Ok(true)
            }
            Event::ReadyArrive => match self.ready.frames.pop_front() {
                None => Ok(false),
                Some(f) => {
                    self.ready.answers.push_back(true);
                    one(&mut self.sender, Call::Frame(f, n), c)
                }
            },
            Event::ReadyDamage => Ok(self.ready.frames.pop_front().map(|_| self.ready.answers.push_back(false)).is_some()),
            Event::ReadyLose => Ok(self.ready.frames.pop_front().is_some()),
            Event::ReadyLoseAnswer => Ok(self.ready.answers.pop_front().is_some()),
            Event::ReadyAnswer => match self.ready.answers.pop_front() {
                None => Ok(false),
                Some(ack) => one(&mut self.receiver, if ack { Call::Ack } else { Call::Nak }, c),
            },
            Event::ReadyTimeout | Event::ReadyCut => {
                if !matches!(self.receiver.rec[0], Rec::Target(_)) {
                    return Ok(false);
                }
                self.ready = Way::default();
                one(&mut self.receiver, if event == Event::ReadyCut { Call::Cut } else { Call::Timeout }, c)
            }
            Event::ResponseAsk => {
                let (a, bytes) = Self::ask(&mut self.responder)?;
                self.calls += 1;
                if a.what == FRAME {
                    self.response = Some(bytes);
                }
                Ok(true)
            }
            Event::ResponseArrive => match self.response.take() {
                None => Ok(false),
                Some(f) => {
                    let write = self.write();
                    let end = if write { &mut self.sender } else { &mut self.receiver };
                    one(end, Call::Frame(f, n), &mut self.calls)
                }
            },
            Event::ResponseAck => one(&mut self.responder, Call::Ack, c),
            Event::ResponseNak => one(&mut self.responder, Call::Nak, c),
            Event::ResponseTimeout => one(&mut self.responder, Call::Timeout, c),
            Event::ResponseCut => one(&mut self.responder, Call::Cut, c),
            Event::Old(k) => {
                if self.old.is_empty() {
                    return Ok(false);
                }
                let mut f = self.old[k as usize % self.old.len()].clone();
                f[10] ^= (k >> 27 & 3) as u8 * 8;
                if k & 0x100 != 0 {
                    let at = (k >> 9) as usize % f.len();
                    f[at] ^= 1 << (k >> 24 & 7);
                }
                if k & 0x80 != 0 {
                    f.truncate((k >> 9) as usize % (f.len() + 1));
                }
                let end = if k & 0x40 != 0 { &mut self.sender } else { &mut self.receiver };
                one(end, Call::Frame(f, n), c)
            }
            Event::Forged(k) => {
                let Rec::Writer(w) = self.sender.rec[0] else { return Ok(false) };
                let f = forged(&w, k);
                one(&mut self.sender, Call::Frame(f, n), c)
            }
            Event::Repeat(more) => {
                let Rec::Writer(w) = self.sender.rec[0] else { return Ok(false) };
                match repeat(&w, more) {
                    None => Ok(false),
                    Some(f) => one(&mut self.sender, Call::Frame(f, n), c),
                }
            }
            Event::Stray(k) => {
                let end = if k & 8 == 0 { &mut self.sender } else { &mut self.receiver };
                let d = if k & 0x30 == 0 { 0 } else { end.data[0].len() };
                let call = match k & 7 {
                    0 => Call::Ack,
                    1 => Call::Nak,
                    2 => Call::Timeout,
                    3 => Call::Cut,
                    _ => Call::Next(d, (k >> 8) as usize % OUT),
                };
                one(end, call, c)
            }
            Event::Loss(k) => {
                let end = [&mut self.sender, &mut self.receiver, &mut self.responder].into_iter().nth(k as usize % 3).unwrap();
                one(end, Call::Loss, c)
            }
            Event::Time(k) => {
                let Rec::Target(t) = self.receiver.rec[0] else { return Ok(false) };
                one(&mut self.receiver, Call::Time(silent::report(&t, k)), c)
            }
        }
    }
}

/// The run of one seed: its two ends and its events.
pub fn from_seed(seed: u64) -> (Ends, Vec<Event>) {
    let g = &mut Rng(seed);
    // K7, K4 and K5: from generators of their own, so that the other numbers stay those of the seed.
    let own = &mut Rng(!seed ^ 7);
    let ((sas2, value), far) = (editions::drawn(own), editions::drawn(own));
    let clock = &mut Rng(!seed ^ 4);
    let (irt, theirs, often) = (silent::value(clock), silent::value(clock), clock.of(&[3, 8, 30]));
    let places = &mut Rng(!seed ^ 5);
    let write = g.below(3) > 0;
    let count = if g.one_in(40) { 2000 } else { 1 + g.up_to(47) };
    let t = Transfer {
        write,
        count,
        size: if count == 2000 { g.of(&[4, 64, 1024]) } else { g.of(&[4, 4, 4, 8, 12]) },
        window: if g.one_in(10) { 64 } else { 1 + g.up_to(4) },
        limit: g.of(&[0, 1, 1, 2, 3, 15]),
        burst: 1 + g.up_to(count - 1),
        local: 0x12_3456,
        remote: 0xab_cdef,
        tag: 0x12,
        sas2,
        value,
        irt,
        start: further::small(places, write),
    };
    let faults = g.of(&[4, 12, 40, 200]);
    let wild = g.of(&[10, 60, 2000]);
    let n = 60 + g.below(500);
    let mut list = Vec::new();
    for _ in 0..n {
        let arg = g.next() as u32;
        list.push(if g.one_in(wild) {
            match g.below(12) {
                0 => Event::Loss(arg),
                1..=3 => Event::Old(arg),
                4..=6 => Event::Forged(arg),
                7 => g.of(&[Event::ResponseAsk, Event::ResponseArrive, Event::ResponseAck, Event::ResponseNak]),
                8 => g.of(&[Event::ResponseAsk, Event::ResponseTimeout, Event::ResponseCut]),
                _ => Event::Stray(arg),
            }
        } else if g.one_in(faults) {
            let link = if write && g.one_in(3) { &READY_LINK } else { &LINK };
            g.of(&[link[2], link[2], link[3], link[5], link[6], link[7]])
        } else if write && g.one_in(4) {
            g.of(&[READY_LINK[0], READY_LINK[1], READY_LINK[1], READY_LINK[4], READY_LINK[4]])
        } else if g.one_in(25) {
            Event::Timeout
        } else {
            g.of(&[LINK[0], LINK[0], LINK[1], LINK[1], LINK[4], LINK[4]])
        });
        if write && clock.one_in(often) {
            list.push(Event::Time(1 << 16 | clock.next() as u32));
        }
    }
    let [here, there] = ends(t, far);
    // K5: nobody compares the two starts.
    let start = if places.one_in(16) { further::small(places, write) } else { there.start };
    ([here, Transfer { irt: theirs, start, ..there }], list)
}

/// Runs a list; at a difference, how many events it took and what differs.
pub fn run(t: Ends, list: &[Event]) -> Result<u64, (usize, String)> {
    let mut w = World::new(t).map_err(|e| (0, e))?;
    let mut after = 0;
    for (i, e) in list.iter().enumerate() {
        w.step(*e).map_err(|s| (i + 1, s))?;
        // A few events past the sender's end are enough.
        after += u32::from(w.ended());
        if after > 20 {
            break;
        }
    }
    Ok(w.calls)
}

/// Drops events while the difference stays.
pub fn shortest(t: Ends, list: &[Event]) -> (Vec<Event>, String) {
    let mut list = list.to_vec();
    let mut text = String::new();
    loop {
        if let Err((n, s)) = run(t, &list) {
            list.truncate(n);
            text = s;
        }
        let before = list.len();
        let mut i = 0;
        while i < list.len() {
            let mut less = list.clone();
            less.remove(i);
            if let Err((n, s)) = run(t, &less) {
                less.truncate(n);
                list = less;
                text = s;
            } else {
                i += 1;
            }
        }
        if list.len() == before {
            return (list, text);
        }
    }
}

pub fn report(what: &str, t: Ends, list: &[Event]) -> String {
    let (short, text) = shortest(t, list);
    format!("{what}: {t:?}\n  events ({}): {short:?}\n  at {text}", short.len())
}
