//! The ladder program against the reference's text, one process for each run file.
use super::rng::Rng;
use crate::ladder;
use std::io::Write;
use std::process::{Command, Stdio};

fn file(g: &mut Rng) -> Vec<u8> {
    let word = if g.one_in(40) { "reed" } else { g.of(&["read", "write"]) };
    let count = if g.one_in(15) { g.of(&[0, 65_535, 65_536, 65_537, 4_294_967_297]) } else { 1 + g.below(60) };
    let size = if g.one_in(30) { g.of(&[0, 2, 6, 1028]) } else if count > 60 { 1024 } else { g.of(&[4, 4, 8, 12, 1024]) };
    let window = if g.one_in(30) { g.of(&[0, 64, 65]) } else { 1 + g.below(5) };
    let limit = if g.one_in(30) { g.of(&[15, 16]) } else { g.below(4) };
    let mut s = format!("{word}\t{count}\t{size}\t{window}\t{limit}\n");
    let ok = g.of(&[1, 2, 4, 10]);
    for _ in 0..g.below(40) {
        s += if g.below(ok) > 0 { "ok" } else { g.of(&["ok", "noack", "bad", "nonak", "lost"]) };
        s += "\n";
    }
    let mut b = s.into_bytes();
    if g.one_in(4) {
        b.pop();
    }
    if g.one_in(8) && !b.is_empty() {
        let i = g.below(b.len() as u64) as usize;
        match g.below(4) {
            0 => b[i] = g.of(b"\t\n\r 09ok\0\xff"),
            1 => b.insert(i, g.of(b"\t\n\r 09ok\0")),
            2 => {
                b.remove(i);
            }
            _ => b.truncate(i),
        }
    }
    if g.one_in(60) {
        let n = g.of(&[65_535, 65_536, 65_537, 65_540]);
        while b.len() < n {
            b.extend_from_slice(b"ok\n");
        }
        b.truncate(n);
    }
    b
}

pub fn program() -> String {
    std::env::var("LADDER").unwrap_or(concat!(env!("CARGO_MANIFEST_DIR"), "/../../crates/ladder/out/ladder").to_string())
}

pub fn one(input: &[u8]) -> Result<(), String> {
    let mut child = Command::new(program())
        .stdin(Stdio::piped())
        .stdout(Stdio::piped())
        .spawn()
        .map_err(|e| format!("{}: {e}", program()))?;
    let mut pipe = child.stdin.take().unwrap();
    let bytes = input.to_vec();
    // The program need not read past its limit, so that a write may fail.
    let feed = std::thread::spawn(move || drop(pipe.write_all(&bytes)));
    let got = child.wait_with_output().map_err(|e| e.to_string())?.stdout;
    feed.join().unwrap();
    let want = ladder::text(input);
    if got == want.as_bytes() {
        return Ok(());
    }
    let shown = String::from_utf8_lossy(&input[..input.len().min(400)]).into_owned();
    Err(format!("input {shown:?}\n--- reference\n{want}--- program\n{}", String::from_utf8_lossy(&got)))
}

pub fn all(first: u64, n: u64) -> Result<u64, String> {
    one(b"").map_err(|e| format!("ladder, empty input: {e}"))?;
    one(b"read\t10\t4\t3\t1\nlost\n").map_err(|e| format!("ladder, the paper's example: {e}"))?;
    for seed in first..first + n {
        one(&file(&mut Rng(seed))).map_err(|e| format!("ladder, seed {seed}: {e}"))?;
    }
    Ok(n + 2)
}
