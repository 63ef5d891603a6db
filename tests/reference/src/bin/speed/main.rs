//! The speed of the library beside the reference and beside plain copies of the same bytes, in one run. A benchmark: no time is a fault, but
//! bytes that do not arrive are. Argument: passes over the rows, 20 if none is given.
mod further;
mod pin;
mod rare;
mod rounds;
mod sides;

use rounds::{clock, Round, Row, WINDOW};
use std::num::NonZeroUsize;

/// The value that one of `of` parts of the values is below.
fn below(part: usize, of: usize, values: impl Iterator<Item = f64>) -> f64 {
    let mut values: Vec<f64> = values.collect();
    values.sort_by(f64::total_cmp);
    values[values.len() * part / of]
}

fn median(values: impl Iterator<Item = f64>) -> f64 {
    below(1, 2, values)
}

fn least(values: impl Iterator<Item = f64>) -> f64 {
    below(0, 1, values)
}

/// Out and in of a side in a round.
fn both(round: &Round, side: usize) -> f64 {
    round[side][0] + round[side][1]
}

fn name(row: &Row) -> String {
    let bytes = if row.count < 1024 { format!("{} B", row.count) } else { format!("{} KiB", row.count >> 10) };
    format!("{:<5} {:>5} {:>10} {:>6}", if row.write { "write" } else { "read" }, row.size, bytes, row.frames())
}

const NAME: &str = "      frame   transfer frames";

/// Nanoseconds a call; `of` takes each column's figure from the rounds.
fn times(what: &str, rows: &[(Row, Vec<Round>)], of: impl Fn(&mut dyn Iterator<Item = f64>) -> f64) {
    println!("{NAME:<29} {:>6} | {:^20} | {:^20} | {:^13}", "timed", "library", "reference", "copies");
    print!("{what:<29} {:>6}", "calls");
    println!(" | {:>6} {:>6} {:>6} | {:>6} {:>6} {:>6} | {:>6} {:>6}", "out", "in", "ACK", "out", "in", "ACK", "out", "in");
    for (row, rounds) in rows {
        print!("{} {:>6}", name(row), row.timed());
        for (side, calls) in [(0, 3), (1, 3), (2, 2)] {
            print!(" |");
            for call in 0..calls {
                print!(" {:6.1}", of(&mut rounds.iter().map(|r| r[side][call])));
            }
        }
        println!();
    }
    println!();
}

/// The median of a ratio over the rounds, and what a tenth and nine tenths of the rounds are below.
fn paired(rounds: &[Round], ratio: impl Fn(&Round) -> f64) -> String {
    let [low, middle, high] = [1, 5, 9].map(|part| below(part, 10, rounds.iter().map(&ratio)));
    format!("{middle:.2} ({low:.2} to {high:.2})")
}

fn columns([row, reference, copies, ack, nanos, mb]: [&str; 6]) {
    println!("{row:<29} | {reference:<20} | {copies:<20} | {ack:<20} | {nanos:>17} | {mb:>7}");
}

fn ratios(rows: &[(Row, Vec<Round>)]) {
    columns([NAME, "library to reference", "library to 2 copies", "library to reference", "ACK, ns     ", "MB/s,"]);
    columns(["", "out and in", "out and in", "ACK", "library reference", "library"]);
    for (row, rounds) in rows {
        let reference = paired(rounds, |r| both(r, 0) / both(r, 1));
        let copies = if row.size == 1024 { paired(rounds, |r| both(r, 0) / both(r, 2)) } else { String::new() };
        let ack = paired(rounds, |r| r[0][2] / r[1][2]);
        let [library, other] = [0, 1].map(|side| median(rounds.iter().map(|r| r[side][2])));
        let mb = row.size as f64 * 1e3 / median(rounds.iter().map(|r| both(r, 0)));
        columns([&name(row), &reference, &copies, &ack, &format!("{library:7.1} {other:9.1}"), &format!("{mb:.0}")]);
    }
}

fn load() -> String {
    let text = std::fs::read_to_string("/proc/loadavg").unwrap_or_default();
    text.split(' ').next().filter(|x| !x.is_empty()).unwrap_or("unknown").to_string()
}

const LEGEND: &str = "
Nanoseconds a call. Out: a frame is asked for. In: the frame arrives. ACK: its ACK arrives. Copies: memcpy of the frame's data to and from the
same places; like all calls it goes through a pointer. Timed calls: so many lie between two readings of the clock, whose cost is taken off.
A call answered \"wait\" is not among them. A caller that asks until it is told to wait makes one in each transfer of fewer than 64 frames.
The copies have no such call. Its time stands below the two tables.
";

const RATIOS: &str = "
A ratio is of one round. Given are the median of all rounds, and in brackets what a tenth and what nine tenths of them are below. ACK in ns and
MB/s of out and in together are medians too.
";

fn main() {
    let passes: NonZeroUsize = std::env::args().nth(1).map_or(NonZeroUsize::new(20).unwrap(), |a| a.parse().expect("a number of passes"));
    let mut rows = Vec::new();
    for write in [false, true] {
        rows.extend([10, 12, 14, 16, 18, 20, 22, 24].map(|shift| (Row { write, size: 1024, count: 1 << shift }, Vec::new())));
        rows.push((Row { write, size: 4, count: 4 * WINDOW }, Vec::new()));
    }
    let before = load();
    let pinned = pin::to_one_core();
    // All rows in each pass, so that a disturbance of some seconds meets them alike.
    for _ in 0..passes.get() {
        rows.iter_mut().for_each(|(row, rounds)| rounds.append(&mut row.run()));
    }
    let place = pinned.as_ref().map_or("not pinned to a core, the system refused".to_string(), |p| format!("pinned to core {}", p.core));
    println!("{passes} passes, {place}; load average {before} before, {} after; clock {} ns", load(), clock());
    println!("{LEGEND}");
    times("median of all rounds", &rows, |values| median(values));
    times("least of all rounds", &rows, |values| least(values));
    rare::table(passes.get() * 20);
    further::least_call(passes.get() * 20);
    // The ladder program runs beside this one.
    drop(pinned);
    further::ladder_rows();
    println!("{RATIOS}");
    ratios(&rows);
}
