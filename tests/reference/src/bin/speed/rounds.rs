//! A row's rounds. A round is a batch of equal transfers, window by window: all frames are asked for, all arrive, all ACKs arrive. The clock is
//! read in between. Answers, records and bytes are looked at after it.
use crate::sides::{self, Calls, Command, Copies};
use reference::records::{DELIVERED, FRAME, RECEIVED, STORED, TAKEN};
use std::sync::OnceLock;
use std::time::Instant;

/// The most frames on the way.
pub const WINDOW: usize = 64;
const ROOM: usize = 1048;
const HEADER: usize = 24;

/// Nanoseconds for each call: a frame asked for, its arrival, its ACK.
pub type Times = [f64; 3];

/// A round's times: library, reference, copies.
pub type Round = [Times; 3];

/// All six orders of the three sides, taken in turn.
const ORDERS: [[usize; 3]; 6] = [[0, 1, 2], [1, 2, 0], [2, 0, 1], [0, 2, 1], [2, 1, 0], [1, 0, 2]];

#[derive(Clone, Copy)]
pub struct Row {
    pub write: bool,
    pub size: usize,
    pub count: usize,
}

impl Row {
    pub fn frames(&self) -> usize {
        self.count / self.size
    }

    /// Transfers in a round. Up to one window they are timed together; a longer transfer is a round of its own, and its windows are timed one by one.
    pub fn batch(&self) -> usize {
        if self.frames() > WINDOW {
            1
        } else {
            (1024 / self.frames()).min(256)
        }
    }

    /// Calls between two readings of the clock.
    pub fn timed(&self) -> usize {
        self.batch() * self.frames().min(WINDOW)
    }

    /// Rounds in a pass: a multiple of the six orders.
    fn rounds(&self) -> usize {
        (16_384 / (self.batch() * self.frames())).clamp(1, 40) * ORDERS.len()
    }

    pub fn run(&self) -> Vec<Round> {
        let t = sides::transfer(self.write, self.count, self.size, WINDOW);
        if self.write {
            Bench::new(self, sides::write(t)).run()
        } else {
            Bench::new(self, sides::read(t)).run()
        }
    }
}

pub fn nanos(from: Instant, to: Instant) -> f64 {
    (to - from).as_nanos() as f64
}

/// What it costs to read the clock, taken once: an estimate for each row would be too high now and then.
pub fn clock() -> f64 {
    static ONCE: OnceLock<f64> = OnceLock::new();
    *ONCE.get_or_init(|| (0..1_000_000).map(|_| nanos(Instant::now(), Instant::now())).fold(f64::INFINITY, f64::min))
}

/// Data at the sender, frames on the way, data at the receiver: shared by all transfers and all sides, so that a short transfer stays in the cache.
struct Buffers {
    size: usize,
    data: Vec<u8>,
    way: Vec<u8>,
    got: Vec<u8>,
}

/// No byte of the data has this value.
const WIPED: u8 = 255;

impl Buffers {
    fn new(row: &Row) -> Self {
        let data = (0..row.count).map(|i| (i % 251) as u8).collect();
        Buffers { size: row.size, data, way: vec![0; WINDOW * ROOM], got: vec![0; row.count] }
    }

    fn wipe(&mut self) {
        self.way.fill(WIPED);
        self.got.fill(WIPED);
    }

    /// The data arrived, and those of the last window are in the frames on the way.
    fn check(&self) {
        assert!(self.got == self.data, "not delivered");
        let frames = self.data.len() / self.size;
        let last = frames - (frames - 1) % WINDOW - 1;
        for (slot, part) in self.way.chunks_exact(ROOM).zip(self.data[last * self.size..].chunks_exact(self.size)) {
            assert!(slot[HEADER..HEADER + self.size] == *part, "not in the frame");
        }
    }
}

struct Bench<S, R> {
    row: Row,
    command: Command<S, R>,
    copies: Copies,
    buffers: Buffers,
    senders: Vec<S>,
    receivers: Vec<R>,
}

impl<S: Copy + PartialEq, R: Copy + PartialEq> Bench<S, R> {
    fn new(row: &Row, command: Command<S, R>) -> Self {
        let (senders, receivers) = (vec![command.sender; row.batch()], vec![command.receiver; row.batch()]);
        Bench { row: *row, command, copies: sides::copies(), buffers: Buffers::new(row), senders, receivers }
    }

    fn run(&mut self) -> Vec<Round> {
        let ended = self.each_alone();
        (0..self.row.rounds())
            .map(|i| {
                let mut round = Round::default();
                for side in ORDERS[i % ORDERS.len()] {
                    round[side] = self.round(side, self.row.batch());
                    if side < 2 {
                        let batch = self.senders.iter().zip(&self.receivers);
                        assert!(batch.into_iter().all(|(s, r)| (*s, *r) == ended), "another record");
                    }
                }
                round
            })
            .collect()
    }

    /// The transfers of a round one at a time, each into wiped buffers and looked at alone: in a timed round they write over each other.
    /// The records at the end, of both sides alike.
    fn each_alone(&mut self) -> (S, R) {
        let mut ended = None;
        for _ in 0..self.row.batch() {
            for side in 0..3 {
                self.round(side, 1);
                if side < 2 {
                    let records = (self.senders[0], self.receivers[0]);
                    assert!(*ended.get_or_insert(records) == records, "another record");
                }
            }
        }
        ended.unwrap()
    }

    /// One side's part of a round, of so many transfers.
    fn round(&mut self, side: usize, batch: usize) -> Times {
        self.buffers.wipe();
        self.receivers.fill(self.command.receiver);
        self.senders.fill(self.command.sender);
        let (senders, receivers) = (&mut self.senders[..batch], &mut self.receivers[..batch]);
        let sum = match self.command.sides.get(side) {
            Some(calls) => transfers(calls, senders, receivers, &mut self.buffers),
            None => copied(self.copies, batch, &mut self.buffers),
        };
        self.buffers.check();
        sum.map(|x| x / (batch * self.row.frames()) as f64)
    }
}

/// Whole faultless transfers: the sum of the times of each of the three calls.
fn transfers<S, R>(calls: &Calls<S, R>, senders: &mut [S], receivers: &mut [R], b: &mut Buffers) -> Times {
    let (clock, batch) = (clock(), senders.len());
    let (data, count) = (b.data.as_ptr(), b.data.len());
    let (way, got) = (b.way.as_mut_ptr(), b.got.as_mut_ptr());
    let mut lens = [0; WINDOW];
    let mut sum = Times::default();
    for (w, window) in b.data.chunks(WINDOW * b.size).enumerate() {
        let n = window.len() / b.size;
        let mut answers = [0; 3];
        let t0 = Instant::now();
        for s in senders.iter_mut() {
            for (i, len) in lens[..n].iter_mut().enumerate() {
                let a = unsafe { (calls.ask)(s, data, count, way.add(i * ROOM), ROOM) };
                answers[0] += usize::from(a.what);
                *len = a.len;
            }
        }
        let t1 = Instant::now();
        for r in receivers.iter_mut() {
            for (i, len) in lens[..n].iter().enumerate() {
                let a = unsafe { (calls.take)(r, way.add(i * ROOM), *len, got, count) };
                answers[1] += usize::from(a.what);
            }
        }
        let t2 = Instant::now();
        for s in senders.iter_mut() {
            for _ in 0..n {
                answers[2] += usize::from(unsafe { (calls.ack)(s) }.what);
            }
        }
        let t3 = Instant::now();
        assert!(lens[..n].iter().all(|len| *len == HEADER + b.size), "no frame");
        let [stored, acked] = if (w + 1) * WINDOW * b.size < count { [STORED, TAKEN] } else { [RECEIVED, DELIVERED] };
        let due = [(FRAME, FRAME), (STORED, stored), (TAKEN, acked)];
        assert!(answers == due.map(|(each, last)| batch * ((n - 1) * usize::from(each) + usize::from(last))), "another answer");
        for (x, (from, to)) in sum.iter_mut().zip([(t0, t1), (t1, t2), (t2, t3)]) {
            *x += nanos(from, to) - clock;
        }
    }
    sum
}

/// The same bytes by plain copies: into the frame's place, and out of it.
fn copied(copy: Copies, batch: usize, b: &mut Buffers) -> Times {
    let (clock, size) = (clock(), b.size);
    let way = b.way.as_mut_ptr();
    let mut sum = Times::default();
    for (from, to) in b.data.chunks(WINDOW * size).zip(b.got.chunks_mut(WINDOW * size)) {
        let n = from.len() / size;
        let (from, to) = (from.as_ptr(), to.as_mut_ptr());
        let t0 = Instant::now();
        for _ in 0..batch {
            for i in 0..n {
                unsafe { copy(way.add(i * ROOM + HEADER), from.add(i * size), size) };
            }
        }
        let t1 = Instant::now();
        for _ in 0..batch {
            for i in 0..n {
                unsafe { copy(to.add(i * size), way.add(i * ROOM + HEADER), size) };
            }
        }
        let t2 = Instant::now();
        sum[0] += nanos(t0, t1) - clock;
        sum[1] += nanos(t1, t2) - clock;
    }
    sum
}
