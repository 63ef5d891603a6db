//! Lists of events for small transfers: every list up to a length, each by itself; and longer ones, up to any length.
use super::editions::EDGES;
use super::pair::{Pair, Rec};
use super::world::*;
use crate::records::Transfer;
use std::collections::HashSet;
use std::hash::{Hash, Hasher};

const RESPONSE_LINK: [Event; 6] =
    [Event::ResponseAsk, Event::ResponseArrive, Event::ResponseAck, Event::ResponseNak, Event::ResponseTimeout, Event::ResponseCut];
/// At the sending end, the receiving end, the RESPONSE's record.
const LOSSES: [Event; 3] = [Event::Loss(0), Event::Loss(1), Event::Loss(2)];

/// Reads and writes of 1 to 3 frames, windows 1 to 3, limits 0 to 2; a write in one burst and in bursts of one frame. K7: the four pairings of
/// editions in turn, with values at the edges. K4: the timeout at the receiving end off, after one report of 1, after two, in turn. K5: a read begins at 0,
/// 4 or 7.
fn transfers() -> Vec<Ends> {
    let mut all = Vec::new();
    for write in [false, true] {
        for k in 0..27 {
            let (frames, window, limit) = (k / 9 + 1, k / 3 % 3 + 1, k % 3);
            let count = frames * 4 - u32::from(frames == 2);
            for burst in if write && frames > 1 { vec![4, count] } else { vec![count] } {
                let n = all.len();
                let edition = |sas2, n: usize| (sas2, if sas2 { EDGES[n % EDGES.len()] } else { 0 });
                let (sas2, value) = edition(n & 1 != 0, n / 4 + 1);
                let irt = [65_535, 0, 1][n % 3];
                let start = if write { 0 } else { [4, 0, 7][(n + n / 4) % 3] };
                let t = Transfer { write, count, size: 4, window, limit, burst, local: 1, remote: 2, tag: 3, sas2, value, irt, start };
                let [here, there] = ends(t, edition(n & 2 != 0, n / 4 + 4));
                all.push([here, Transfer { irt: [0, 1, 2][(n + n / 3) % 3], ..there }]);
            }
        }
    }
    all
}

fn link_events(t: &Transfer) -> Vec<Event> {
    if t.write {
        [LINK, READY_LINK].concat()
    } else {
        LINK.to_vec()
    }
}

/// K3: repeats of another length, which end the initiator's record as a loss does, so that they lead to no further state.
const REPEATS: [Event; 2] = [Event::Repeat(-1), Event::Repeat(1)];

/// K4: a report at the target of a write.
const TIME: [Event; 1] = [Event::Time(1)];

fn all_events(t: &Transfer) -> Vec<Event> {
    let more: [&[Event]; 2] = if t.write { [&REPEATS, &TIME] } else { [&[]; 2] };
    [&link_events(t)[..], &RESPONSE_LINK, &LOSSES, more[0], more[1]].concat()
}

/// One XFER_RDY, taken and acknowledged.
const READY: [Event; 3] = [Event::ReadyAsk, Event::ReadyArrive, Event::ReadyAnswer];
const WHOLE: [Event; 3] = [Event::Ask, Event::Arrive, Event::Answer];

/// Set-up, and commands well under way.
fn starts(t: &Transfer) -> Vec<Vec<Event>> {
    let frames = |bytes: u32| bytes.div_ceil(t.size) as usize;
    let mut before = Vec::new();
    let mut at = 0;
    while at + t.burst < t.count {
        before.extend(READY);
        before.extend(WHOLE.repeat(frames(t.burst)));
        at += t.burst;
    }
    if t.write {
        before.extend(READY);
    }
    let last = frames(t.count - at);
    // All data delivered and received: the RESPONSE is due.
    let done = [&before[..], &WHOLE.repeat(last)].concat();
    // The RESPONSE is on its way while the last frames (read) or their answers (write) are too.
    let out = last.min(t.window as usize);
    let mut crossing = [before, WHOLE.repeat(last - out), vec![Event::Ask; out]].concat();
    if t.write {
        crossing.extend(vec![Event::Arrive; out]);
    }
    crossing.push(Event::ResponseAsk);
    let mut all = vec![vec![], done, crossing];
    if t.write {
        all.push(READY.to_vec());
    }
    if t.burst < t.count {
        // The next burst is taken and has to wait for an answer.
        all.push([&READY[..], &WHOLE[..2], &READY[..2]].concat());
    }
    all
}

fn copy_pair(to: &mut Pair, from: &Pair) {
    to.rec = from.rec;
    to.data.clone_from(&from.data);
    to.out.clone_from(&from.out);
}

/// A clone into the memory that `to` has, since most of a walk's time goes into copies.
fn copy(to: &mut World, from: &World) {
    copy_pair(&mut to.sender, &from.sender);
    copy_pair(&mut to.receiver, &from.receiver);
    copy_pair(&mut to.responder, &from.responder);
    for (to, from) in [(&mut to.data, &from.data), (&mut to.ready, &from.ready)] {
        to.frames.clone_from(&from.frames);
        to.answers.clone_from(&from.answers);
    }
    to.response.clone_from(&from.response);
}

/// All that later calls go by. The two sides are alike, so that one is enough.
fn state(w: &World) -> impl Hash + PartialEq + '_ {
    fn of(p: &Pair) -> (&Rec, &[u8], &[u8]) {
        (&p.rec[0], &p.data[0], &p.out[0])
    }
    (of(&w.sender), of(&w.receiver), of(&w.responder), &w.data, &w.ready, &w.response)
}

/// What is hashed, byte for byte: no two states share it.
struct Bytes(Vec<u8>);

impl Hasher for Bytes {
    fn write(&mut self, bytes: &[u8]) {
        self.0.extend_from_slice(bytes);
    }
    fn finish(&self) -> u64 {
        0
    }
}

fn key(w: &World) -> Vec<u8> {
    let mut bytes = Bytes(Vec::with_capacity(640));
    state(w).hash(&mut bytes);
    bytes.0
}

/// The walks of one part.
#[derive(Default)]
struct Walk {
    t: Ends,
    calls: u64,
    /// The shortest list after which the two sides differ.
    found: Option<(Ends, Vec<Event>)>,
    /// How many states to keep; None: all.
    states: Option<usize>,
}

impl Walk {
    /// Once a list was found, only shorter ones are tried: no list that the part walks is shorter than the one told.
    fn wants(&self, len: usize) -> bool {
        self.found.as_ref().is_none_or(|(_, list)| len < list.len())
    }

    /// The last event of the list. False: nothing done, or the sides differ; then no list as long is tried any more.
    fn step(&mut self, w: &mut World, list: &[Event]) -> bool {
        let before = w.calls;
        let did = w.step(list[list.len() - 1]);
        self.calls += w.calls - before;
        // None of these events looks at old frames.
        w.old.clear();
        did.unwrap_or_else(|_| {
            self.found = Some((self.t, list.to_vec()));
            false
        })
    }

    /// The world after these events; None where the sides differ on the way.
    fn start(&mut self, t: Ends, events: &[Event]) -> Option<World> {
        self.t = t;
        let Ok(mut w) = World::new(t) else {
            if self.wants(0) {
                self.found = Some((t, vec![]));
            }
            return None;
        };
        for n in 1..=events.len() {
            if !self.wants(n) || !self.step(&mut w, &events[..n]) {
                assert!(self.found.is_some(), "{t:?}: nothing to do at the end of {:?}", &events[..n]);
                return None;
            }
        }
        Some(w)
    }

    /// Every list, each by itself.
    fn each(&mut self, w: &World, list: &mut Vec<Event>, events: &[Event], depth: usize) {
        if depth == 0 {
            return;
        }
        let mut next = w.clone();
        for e in events {
            if !self.wants(list.len() + 1) {
                return;
            }
            list.push(*e);
            if self.step(&mut next, list) {
                self.each(&next, list, events, depth - 1);
                copy(&mut next, w);
            }
            list.pop();
        }
    }

    /// Shorter lists first; of those that lead to the same state only the first is walked on, since a call has nothing
    /// but the state to go by. Without a limit: until no list leads to a new state, so that every list is tried, however long.
    fn longer(&mut self, w: World, start: &[Event], events: &[Event], limit: Option<usize>) {
        let mut known = HashSet::from([key(&w)]);
        let mut next = w.clone();
        let mut level = vec![(w, start.to_vec())];
        let mut len = 0;
        while !level.is_empty() && limit.is_none_or(|n| len < n) && self.states.is_none_or(|n| known.len() < n) {
            let mut new = Vec::new();
            for (w, list) in &mut level {
                copy(&mut next, w);
                for e in events {
                    if !self.wants(list.len() + 1) {
                        return;
                    }
                    list.push(*e);
                    if self.step(&mut next, list) && state(&next) != state(w) {
                        if known.insert(key(&next)) {
                            new.push((next.clone(), list.clone()));
                        }
                        copy(&mut next, w);
                    }
                    list.pop();
                }
            }
            level = new;
            len += 1;
        }
    }

    /// The report drops what a start's list has too many.
    fn end(self, what: &str) -> Result<u64, String> {
        match self.found {
            None => Ok(self.calls),
            Some((t, list)) => Err(report(what, t, &list)),
        }
    }
}

/// Each list by itself. Link events from set-up, in a write one less and after its first XFER_RDY too, there also with reports of time,
/// two less, and with repeats of another length, three less; all events, three less; the RESPONSE's own events and loss, one less.
pub fn each(depth: usize) -> Result<u64, String> {
    let mut walk = Walk::default();
    let less = |n| depth.saturating_sub(n);
    for ends in transfers() {
        let t = ends[0];
        let link = less(usize::from(t.write));
        let mut plan = vec![(vec![], link_events(&t), link), (vec![], all_events(&t), less(3))];
        if t.write {
            plan.push((READY.to_vec(), link_events(&t), link));
            plan.push((READY.to_vec(), [&TIME[..], &link_events(&t)].concat(), less(2)));
            plan.push((READY.to_vec(), [&REPEATS[..], &link_events(&t)].concat(), less(3)));
        }
        if t.count == 4 && t.window == 1 {
            plan.push((vec![], [&RESPONSE_LINK[..], &LOSSES[2..]].concat(), less(1)));
        }
        for (mut list, events, depth) in plan {
            if let Some(w) = walk.start(ends, &list) {
                walk.each(&w, &mut list, &events, depth);
            }
        }
    }
    walk.end("list of events")
}

/// By states. All events without a limit where frames and retry limit are at most 3 together; else link events without
/// a limit, and all events, two more than `depth`, from set-up and from commands under way.
pub fn longer(depth: usize) -> Result<u64, String> {
    let mut walk = Walk::default();
    for ends in transfers() {
        let t = ends[0];
        // A window wider than the burst is never full: one as wide as the burst does the same.
        if (t.window - 1) * t.size >= t.burst {
            continue;
        }
        let mut plan = Vec::new();
        if t.count.div_ceil(t.size) + t.limit <= 3 {
            plan.push((vec![], all_events(&t), None));
        } else {
            plan.push((vec![], link_events(&t), None));
            plan.extend(starts(&t).into_iter().map(|s| (s, all_events(&t), Some(depth + 2))));
        }
        for (start, events, limit) in plan {
            if let Some(w) = walk.start(ends, &start) {
                walk.longer(w, &start, &events, limit);
            }
        }
    }
    walk.end("longer list")
}

/// The list of a run, made short: events are dropped while the difference stays; then shorter lists of the same events and of the link's
/// are tried, the shortest first, until 100,000 states are known.
pub fn of_run(what: &str, t: Ends, list: &[Event]) -> String {
    let (list, _) = shortest(t, list);
    let mut events = link_events(&t[0]);
    list.iter().for_each(|e| {
        if !events.contains(e) {
            events.push(*e)
        }
    });
    let mut walk = Walk { t, found: Some((t, list)), states: Some(100_000), ..Walk::default() };
    if let Some(w) = walk.start(t, &[]) {
        walk.longer(w, &[], &events, None);
    }
    walk.end(what).unwrap_err()
}
