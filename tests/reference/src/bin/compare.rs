//! Compares the library with the reference. Arguments: first seed, runs, single calls, depth of the lists, run files.
use reference::check::pair::SEEN;
use reference::check::{editions, further, ladders, opened, resent, silent, single, steps, tlr, tree, vectors, world};
use std::sync::atomic::Ordering::Relaxed;
use std::time::Instant;

/// Each part stops at its first difference.
fn part(what: &str, sum: &mut u64, run: impl FnOnce() -> Result<u64, String>) -> bool {
    let since = Instant::now();
    let result = run();
    let time = since.elapsed().as_secs_f64();
    match &result {
        Ok(n) => {
            *sum += n;
            println!("{what}: {n} compared, no difference ({time:.1} s)");
        }
        Err(e) => println!("{what}: DIFFERENCE ({time:.1} s)\n{e}"),
    }
    result.is_ok()
}

/// The answers that were seen, as what or what.number, with how often.
fn answers() {
    let names = ["read, target", "read, initiator", "write, initiator", "write, target", "RESPONSE"];
    for (name, whats) in names.iter().zip(&SEEN) {
        let mut line = String::new();
        for (what, numbers) in whats.iter().enumerate() {
            for (number, n) in numbers.iter().enumerate() {
                match (n.load(Relaxed), number) {
                    (0, _) => {}
                    (n, 0) => line += &format!(" {what}:{n}"),
                    (n, _) => line += &format!(" {what}.{number}:{n}"),
                }
            }
        }
        println!("  answers, {name}:{line}");
    }
}

fn runs(first: u64, n: u64) -> Result<u64, String> {
    let mut calls = 0;
    for seed in first..first + n {
        let (t, list) = world::from_seed(seed);
        match world::run(t, &list) {
            Ok(c) => calls += c,
            Err((k, _)) => {
                return Err(tree::of_run(&format!("run of seed {seed}, at its event {k}, after {calls} calls"), t, &list));
            }
        }
    }
    Ok(calls)
}

fn main() {
    let args: Vec<u64> = std::env::args().skip(1).map(|a| a.parse().expect("a number")).collect();
    let arg = |i: usize, default: u64| args.get(i).copied().unwrap_or(default);
    let (first, n, singles, depth, files) = (arg(0, 1), arg(1, 1_000_000), arg(2, 4_000_000), arg(3, 7), arg(4, 3_000));
    println!("seeds from {first}: {n} runs, {singles} single calls, lists to {depth} events, {files} run files");
    let mut sum = 0;
    let mut alike = part("vectors", &mut sum, vectors::all);
    alike &= part("writer in two steps", &mut sum, steps::all);
    alike &= part("TLR CONTROL", &mut sum, tlr::all);
    alike &= part("resent XFER_RDY", &mut sum, resent::all);
    alike &= part("opening the RESPONSE", &mut sum, opened::all);
    alike &= part("SAS-2", &mut sum, editions::all);
    alike &= part("silent initiator", &mut sum, silent::all);
    alike &= part("further in", &mut sum, further::all);
    alike &= part("single calls", &mut sum, || single::all(first, singles));
    alike &= part("lists of events", &mut sum, || tree::each(depth as usize));
    alike &= part("longer lists", &mut sum, || tree::longer(depth as usize));
    alike &= part("runs", &mut sum, || runs(first, n));
    println!("{sum} calls compared");
    answers();
    alike &= part("run files", &mut 0, || ladders::all(first, files));
    println!("{}", if alike { "no difference" } else { "DIFFERENCE" });
    std::process::exit(i32::from(!alike));
}
