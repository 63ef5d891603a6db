//! The ladder program's text for any input, over the ports of this package.
use crate::records::*;
use crate::{frame, read_initiator, read_target, sender, write_initiator, write_target};
use std::fmt::Write;

fn decimal(field: &[u8]) -> Option<u32> {
    let digits = !field.is_empty() && field.iter().all(u8::is_ascii_digit);
    if !digits || (field.len() > 1 && field[0] == b'0') || field.len() > 8 {
        return None;
    }
    std::str::from_utf8(field).ok()?.parse().ok()
}

fn first(line: &[u8]) -> Option<Transfer> {
    let fields: Vec<&[u8]> = line.split(|b| *b == b'\t').collect();
    if fields.len() != 5 {
        return None;
    }
    let write = match fields[0] {
        b"read" => false,
        b"write" => true,
        _ => return None,
    };
    let count = decimal(fields[1])?;
    let t = Transfer {
        write,
        count,
        size: decimal(fields[2])?,
        window: decimal(fields[3])?,
        limit: decimal(fields[4])?,
        burst: count,
        ..Transfer::default()
    };
    (t.fits() && count <= 65_536).then_some(t)
}

const FATES: [&str; 5] = ["ok", "noack", "bad", "nonak", "lost"];

fn parse(input: &[u8]) -> Result<(Transfer, Vec<usize>), usize> {
    if input.len() > 65_536 {
        return Err(0);
    }
    let body = input.strip_suffix(b"\n").unwrap_or(input);
    let mut lines = body.split(|b| *b == b'\n');
    let transfer = first(lines.next().unwrap()).ok_or(1usize)?;
    let mut fates = Vec::new();
    for (i, line) in lines.enumerate() {
        fates.push(FATES.iter().position(|f| f.as_bytes() == line).ok_or(i + 2)?);
    }
    Ok((transfer, fates))
}

/// Both ends: a read, or a write whose one XFER_RDY was taken and acknowledged.
struct Ends {
    writer: Writer,
    target: Target,
}

impl Ends {
    fn new(t: Transfer) -> Ends {
        let mut e = Ends { writer: Writer::default(), target: Target::default() };
        if !t.write {
            read_target::set_up(&mut e.writer.sender, t);
            read_initiator::set_up(&mut e.target.receiver, t);
            return e;
        }
        let mut area = [0; 1048];
        write_initiator::set_up(&mut e.writer, t);
        write_target::set_up(&mut e.target, t);
        let len = write_target::next_frame(&mut e.target, &mut area).len;
        write_initiator::frame_received(&mut e.writer, &area[..len]);
        write_target::ack_received(&mut e.target);
        e
    }
    fn next_frame(&mut self, data: &[u8], out: &mut [u8]) -> Answer {
        if self.writer.sender.transfer.write {
            write_initiator::next_frame(&mut self.writer, data, out)
        } else {
            read_target::next_frame(&mut self.writer.sender, data, out)
        }
    }
    fn frame_received(&mut self, bytes: &[u8], data: &mut [u8]) -> Answer {
        if self.writer.sender.transfer.write {
            write_target::frame_received(&mut self.target, bytes, data)
        } else {
            read_initiator::frame_received(&mut self.target.receiver, bytes, data)
        }
    }
    fn receiver(&self) -> &Receiver {
        &self.target.receiver
    }
}

pub fn text(input: &[u8]) -> String {
    let (transfer, fates) = match parse(input) {
        Ok(x) => x,
        Err(line) => return format!("refused\t{line}\n"),
    };
    let sent: Vec<u8> = (0..transfer.count).map(|i| (i % 256) as u8).collect();
    let mut stored = vec![0; sent.len()];
    let mut ends = Ends::new(transfer);
    let mut out = String::new();
    let (mut frames, mut faults) = (0, 0);
    loop {
        let mut turn = Vec::new();
        let mut area = [0; 1048];
        loop {
            let a = ends.next_frame(&sent, &mut area);
            if a.what != FRAME {
                break;
            }
            let fate = fates.get(frames).copied().unwrap_or(0);
            frames += 1;
            faults += usize::from(fate != 0);
            let h = frame::header_of(&area);
            let bytes = frame::shape(&area[..a.len]).unwrap() - 24;
            let verdict = if fate < 2 {
                let r = ends.frame_received(&area[..a.len], &mut stored);
                match r.what {
                    STORED | RECEIVED => "stored".to_string(),
                    DISCARDED => "discarded".to_string(),
                    _ => r.number.to_string(),
                }
            } else {
                "none".to_string()
            };
            writeln!(out, "{frames}\t{}\t{bytes}\t{}\t{}\t{verdict}", h.offset, u8::from(h.cdp), FATES[fate]).unwrap();
            turn.push(fate);
        }
        let s = &mut ends.writer.sender;
        let mut last = Answer::default();
        for fate in &turn {
            match fate {
                0 => last = sender::ack_received(s),
                2 => last = sender::nak_received(s),
                _ => {}
            }
        }
        if turn.iter().any(|f| [1, 3, 4].contains(f)) {
            last = sender::bad(s, sender::Bad::Timeout);
        }
        if last.what == DELIVERED || last.what == FAILED {
            let word = if last.what == DELIVERED { "delivered" } else { "failed" };
            writeln!(out, "{word}\t{}\t{}\t{faults}\t{}", last.number, last.frames, ends.receiver().filled).unwrap();
            return out;
        }
    }
}
