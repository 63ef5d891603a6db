//! Rarer calls, of library and reference, in a read and in a write. Each call of a round has a record of its own. The records are made before the
//! clock is read, so no time is spent on them in between; their buffers are shared.
use crate::rounds::{clock, nanos, WINDOW};
use crate::sides::{self, Calls, Command, Confirm};
use reference::records::*;
use std::time::Instant;

/// Calls between two readings of the clock. So many records stay in the first-level cache.
const CALLS: usize = 256;
const HEADER: usize = 24;

/// Bytes of the header: destination, flags, fill.
const DEST: usize = 3;
const FLAGS: usize = 10;
const FILL: usize = 11;
const CDP: u8 = 1;

/// No byte of the data has this value.
const WIPED: u8 = 255;

/// Nanoseconds a call: library, reference.
type Times = [f64; 2];

/// The medians of both sides. `call` makes the call on a record and a buffer; `due` are what and number of its answer.
fn medians<T: Copy + PartialEq>(rounds: usize, due: (u8, u8), record: T, room: usize, call: [impl Fn(&mut T, &mut [u8]) -> Answer; 2]) -> Times {
    let mut records = vec![record; CALLS];
    let mut bytes = vec![WIPED; room];
    let done = call.each_ref().map(|call| {
        let (mut left, mut bytes) = (record, bytes.clone());
        (call(&mut left, &mut bytes), left, bytes)
    });
    assert!(done[0] == done[1], "library and reference differ");
    let (answer, left, _) = done[0];
    assert!((answer.what, answer.number) == due, "another answer");
    let mut times = [Vec::new(), Vec::new()];
    for i in 0..rounds {
        for side in [i % 2, 1 - i % 2] {
            records.fill(record);
            let mut sum = 0;
            let from = Instant::now();
            for record in &mut records {
                let a = call[side](record, &mut bytes);
                sum += usize::from(a.what) + usize::from(a.number);
            }
            let to = Instant::now();
            assert!(sum == CALLS * (usize::from(due.0) + usize::from(due.1)), "another answer");
            assert!(records.iter().all(|r| *r == left), "another record");
            times[side].push((nanos(from, to) - clock()) / CALLS as f64);
        }
    }
    assert!(bytes == done[0].2, "other bytes");
    times.map(|mut times| {
        times.sort_by(f64::total_cmp);
        times[rounds / 2]
    })
}

/// A transfer of three frames, the last one shorter, and the calls on it.
struct Bench<S, R> {
    command: Command<S, R>,
    data: Vec<u8>,
    size: usize,
    rounds: usize,
}

impl<S: Copy + PartialEq, R: Copy + PartialEq> Bench<S, R> {
    /// The sender after so many frames and so many ACKs, and the frame handed out last.
    fn sent(&self, frames: usize, acks: usize) -> (S, Vec<u8>) {
        let calls = &self.command.sides[1];
        let (mut s, mut out, mut len) = (self.command.sender, vec![0; HEADER + self.size], 0);
        for _ in 0..frames {
            len = unsafe { (calls.ask)(&mut s, self.data.as_ptr(), self.data.len(), out.as_mut_ptr(), out.len()) }.len;
        }
        assert!((0..acks).all(|_| unsafe { (calls.ack)(&mut s) }.what == TAKEN));
        out.truncate(len);
        (s, out)
    }

    fn ask(&self, due: (u8, u8), s: S, room: usize) -> Times {
        let (data, n) = (self.data.as_ptr(), self.data.len());
        let call = self.command.sides.each_ref().map(|calls| {
            let ask = calls.ask;
            move |s: &mut S, out: &mut [u8]| unsafe { ask(s, data, n, out.as_mut_ptr(), out.len()) }
        });
        medians(self.rounds, due, s, room, call)
    }

    fn take(&self, due: (u8, u8), r: R, frame: &[u8]) -> Times {
        let call = self.command.sides.each_ref().map(|calls| {
            let take = calls.take;
            move |r: &mut R, got: &mut [u8]| unsafe { take(r, frame.as_ptr(), frame.len(), got.as_mut_ptr(), got.len()) }
        });
        medians(self.rounds, due, r, self.data.len(), call)
    }

    fn confirm(&self, due: (u8, u8), s: S, of: impl Fn(&Calls<S, R>) -> Confirm<S>) -> Times {
        let call = self.command.sides.each_ref().map(|calls| {
            let confirm = of(calls);
            move |s: &mut S, _: &mut [u8]| unsafe { confirm(s) }
        });
        medians(self.rounds, due, s, 0, call)
    }

    /// The receiver once it waits for CDP: the second frame came without the first.
    fn waiting(&self) -> R {
        let (mut r, (_, frame), mut got) = (self.command.receiver, self.sent(2, 0), vec![0; self.data.len()]);
        let a = unsafe { (self.command.sides[1].take)(&mut r, frame.as_ptr(), frame.len(), got.as_mut_ptr(), got.len()) };
        assert!(a.what == DISCARDED);
        r
    }

    /// What depends on the size of the frame: (data of the frame, its times).
    fn sized(&self) -> [(usize, Times); 3] {
        let (start, full) = (self.command.receiver, HEADER + self.size);
        let (_, mut filled) = self.sent(1, 0);
        let (_, mut changed) = self.sent(1, 0);
        filled[FILL] = 2;
        changed[FLAGS] |= CDP;
        let (two, _) = self.sent(2, 0);
        [
            (self.size - 2, self.take((STORED, 0), start, &filled)),
            (self.size, self.take((STORED, 0), self.waiting(), &changed)),
            (self.data.len() - 2 * self.size, self.ask((FRAME, 0), two, full)),
        ]
    }

    /// What does not.
    fn others(&self) -> [Times; 7] {
        let (start, fresh, full) = (self.command.receiver, self.command.sender, HEADER + self.size);
        let (two, second) = self.sent(2, 0);
        let (_, mut astray) = self.sent(1, 0);
        astray[DEST] ^= 1;
        let ((last, _), (all, _)) = (self.sent(3, 2), self.sent(3, 0));
        [
            self.take((DISCARDED, 0), start, &second),
            self.take((REFUSED, 7), start, &astray),
            self.confirm((TAKEN, 0), two, |calls| calls.nak),
            self.confirm((DELIVERED, 0), last, |calls| calls.ack),
            self.confirm((REFUSED, 4), fresh, |calls| calls.ack),
            self.ask((WAIT, 0), all, full),
            self.ask((REFUSED, 3), fresh, full - 1),
        ]
    }
}

const SIZED: [&str; 3] = ["arrival with fill", "arrival with CDP one, stored", "last frame, shorter, asked for"];
const OTHERS: [&str; 7] = [
    "arrival discarded",
    "arrival refused with 7",
    "NAK, more unanswered",
    "ACK of the last, delivered",
    "ACK refused with 4",
    "frame asked for, \"wait\"",
    "frame asked for, refused with 3",
];

/// Data of a frame and of the shorter last one.
const SIZES: [(usize, usize); 2] = [(1024, 1000), (8, 4)];

/// The rows of a command: their names and times.
fn rows<S: Copy + PartialEq, R: Copy + PartialEq>(rounds: usize, command: impl Fn(usize, usize) -> Command<S, R>) -> Vec<(String, Times)> {
    let [large, small] = SIZES.map(|(size, last)| {
        let count = 2 * size + last;
        Bench { command: command(count, size), data: (0..count).map(|i| (i % 251) as u8).collect(), size, rounds }
    });
    let mut rows: Vec<_> = OTHERS.iter().zip(large.others()).map(|(what, times)| (what.to_string(), times)).collect();
    for bench in [&large, &small] {
        rows.extend(SIZED.iter().zip(bench.sized()).map(|(what, (n, times))| (format!("{what}: {n} bytes"), times)));
    }
    rows
}

/// Prints the table.
pub fn table(rounds: usize) {
    let read = rows(rounds, |count, size| sides::read(sides::transfer(false, count, size, WINDOW)));
    let write = rows(rounds, |count, size| sides::write(sides::transfer(true, count, size, WINDOW)));
    println!("rarer calls, medians in ns, {CALLS} timed calls           |        read         |        write");
    println!("{:<53} | {:>9} {:>9} | {:>9} {:>9}", "each on a record of its own, made before", "library", "reference", "library", "reference");
    for ((what, [library, reference]), (_, [write_library, write_reference])) in read.iter().zip(&write) {
        println!("{what:<53} | {library:9.1} {reference:9.1} | {write_library:9.1} {write_reference:9.1}");
    }
}
