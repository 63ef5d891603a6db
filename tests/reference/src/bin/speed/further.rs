//! A call that does nothing, and the ladder program.
use crate::rounds::{clock, nanos};
use reference::check::ladders;
use reference::ladder;
use reference::records::*;
use std::hint::black_box;
use std::io::Write;
use std::process::{self, Stdio};
use std::time::Instant;

const CALLS: usize = 1024;

/// The median time of a call that leaves its record as it was, in nanoseconds.
fn median(rounds: usize, expected: u8, mut call: impl FnMut() -> u8) -> f64 {
    let mut times: Vec<f64> = (0..rounds)
        .map(|_| {
            let mut sum = 0;
            let from = Instant::now();
            for _ in 0..CALLS {
                sum += usize::from(call());
            }
            let to = Instant::now();
            assert!(sum == CALLS * usize::from(expected), "another answer");
            (nanos(from, to) - clock()) / CALLS as f64
        })
        .collect();
    times.sort_by(f64::total_cmp);
    times[rounds / 2]
}

unsafe extern "C" fn nothing(_: *mut Sender) -> Answer {
    Answer::is(TAKEN)
}

pub fn least_call(rounds: usize) {
    let (call, mut s) = (black_box(nothing as unsafe extern "C" fn(*mut Sender) -> Answer), Sender::default());
    println!("a call that does nothing but answer: {:.1} ns", median(rounds, TAKEN, || unsafe { call(&mut s) }.what));
}

/// Seconds for the ladder program on a run file, start included, and the rows it printed.
fn program(file: &[u8]) -> (f64, usize) {
    let since = Instant::now();
    let mut child = process::Command::new(ladders::program()).stdin(Stdio::piped()).stdout(Stdio::piped()).spawn().expect("the ladder program");
    child.stdin.take().unwrap().write_all(file).expect("a run file read whole");
    let out = child.wait_with_output().unwrap().stdout;
    (since.elapsed().as_secs_f64(), out.iter().filter(|b| **b == b'\n').count())
}

fn least(times: impl Iterator<Item = f64>) -> f64 {
    times.fold(f64::INFINITY, f64::min)
}

/// Rows a second of the largest faultless ladder and of one with a fault in each window. The program takes larger buffers for them than for a small
/// ladder, so the time and the rows of the least ladder that needs these are taken off.
pub fn ladder_rows() {
    let faults: String = "read\t65536\t4\t64\t15\n".to_string() + &("lost\n".to_string() + &"ok\n".repeat(126)).repeat(160);
    let [small, large] = ["read\t4\t4\t1\t0\n", "read\t2048\t4\t64\t15\n"].map(|file| {
        let rows = program(file.as_bytes()).1;
        (least((0..50).map(|_| program(file.as_bytes()).0)), rows)
    });
    println!("ladder program: {} rows {:.2} ms, {} rows {:.2} ms", small.1, small.0 * 1e3, large.1, large.0 * 1e3);
    for (what, file) in [("faultless", "read\t65536\t4\t64\t15\n"), ("a fault in each window", &faults)] {
        let rows = program(file.as_bytes()).1;
        let lib = least((0..50).map(|_| program(file.as_bytes()).0)) - large.0;
        let reference = least((0..50).map(|_| {
            let since = Instant::now();
            black_box(ladder::text(black_box(file.as_bytes())));
            since.elapsed().as_secs_f64()
        }));
        let million = |rows: usize, t: f64| rows as f64 / t / 1e6;
        println!(
            "ladder program, {what}: {rows} rows, {:.1} million rows/s, reference {:.1}",
            million(rows - large.1, lib),
            million(rows, reference)
        );
    }
}
