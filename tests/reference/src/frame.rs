//! The frame and the IU of an XFER_RDY: reader and writer; the IU of a RESPONSE: reader.
use crate::records::*;

pub const DATA: u8 = 0x01;
pub const XFER_RDY: u8 = 0x05;
pub const COMMAND: u8 = 0x06;
pub const RESPONSE_TYPE: u8 = 0x07;
pub const TASK: u8 = 0x16;

fn known(kind: u8) -> bool {
    [DATA, XFER_RDY, COMMAND, RESPONSE_TYPE, TASK].contains(&kind)
}

fn number(bytes: &[u8]) -> u32 {
    bytes.iter().fold(0, |n, b| n << 8 | u32::from(*b))
}

/// 5, without a look at the type: where the IU ends.
pub fn shape(bytes: &[u8]) -> Result<usize, u8> {
    if bytes.len() < 24 || bytes.len() > 1048 || bytes.len() % 4 != 0 {
        return Err(5);
    }
    let fill = usize::from(bytes[11] & 3);
    if fill > bytes.len() - 24 {
        return Err(5);
    }
    Ok(bytes.len() - fill)
}

pub fn header_of(bytes: &[u8]) -> Header {
    Header {
        kind: bytes[0],
        dest: number(&bytes[1..4]),
        source: number(&bytes[5..8]),
        retry: bytes[10] & 4 != 0,
        retransmit: bytes[10] & 2 != 0,
        cdp: bytes[10] & 1 != 0,
        tlr: bytes[10] >> 3 & 3,
        tag: number(&bytes[16..18]) as u16,
        tptt: number(&bytes[18..20]) as u16,
        offset: number(&bytes[20..24]),
    }
}

pub fn read(header: &mut Header, bytes: &[u8]) -> Answer {
    let end = match shape(bytes) {
        Ok(end) => end,
        Err(n) => return Answer::refused(n),
    };
    if !known(bytes[0]) {
        return Answer::refused(6);
    }
    *header = header_of(bytes);
    Answer { what: PARSED, start: 24, len: end - 24, ..Answer::default() }
}

/// Bytes of a frame with an IU of so many bytes.
pub fn room(iu: usize) -> usize {
    24 + iu.div_ceil(4) * 4
}

/// Bytes of the frame that is due, else 1 (K8: also a TLR CONTROL above 3) or 3; the writer and its steps refuse alike.
fn due(header: &Header, iu: &[u8], out: &[u8]) -> Result<usize, u8> {
    let fits = header.dest < 1 << 24 && header.source < 1 << 24 && header.tlr <= 3;
    if !known(header.kind) || !fits || iu.len() > 1024 {
        return Err(1);
    }
    let len = room(iu.len());
    if out.len() < len {
        return Err(3);
    }
    Ok(len)
}

/// K2, the first step: data and fill.
pub fn write_data(header: &Header, iu: &[u8], out: &mut [u8]) -> Answer {
    let len = match due(header, iu, out) {
        Ok(len) => len,
        Err(n) => return Answer::refused(n),
    };
    let (data, fill) = out[24..len].split_at_mut(iu.len());
    data.copy_from_slice(iu);
    fill.fill(0);
    Answer::length(len)
}

/// K2, the second step: the header.
pub fn write_header(header: &Header, iu: &[u8], out: &mut [u8]) -> Answer {
    let len = match due(header, iu, out) {
        Ok(len) => len,
        Err(n) => return Answer::refused(n),
    };
    let out = &mut out[..24];
    out.fill(0);
    out[0] = header.kind;
    out[1..4].copy_from_slice(&header.dest.to_be_bytes()[1..]);
    out[5..8].copy_from_slice(&header.source.to_be_bytes()[1..]);
    out[10] = header.tlr * 8 + u8::from(header.retry) * 4 + u8::from(header.retransmit) * 2 + u8::from(header.cdp);
    out[11] = (len - 24 - iu.len()) as u8;
    out[16..18].copy_from_slice(&header.tag.to_be_bytes());
    out[18..20].copy_from_slice(&header.tptt.to_be_bytes());
    out[20..24].copy_from_slice(&header.offset.to_be_bytes());
    Answer::length(len)
}

/// K2: one after the other they are the writer.
pub fn write(header: &Header, iu: &[u8], out: &mut [u8]) -> Answer {
    write_data(header, iu, out);
    write_header(header, iu, out)
}

pub fn xfer_rdy_write(xfer_rdy: &XferRdy, out: &mut [u8]) -> Answer {
    if out.len() < 12 {
        return Answer::refused(3);
    }
    out[0..4].copy_from_slice(&xfer_rdy.offset.to_be_bytes());
    out[4..8].copy_from_slice(&xfer_rdy.len.to_be_bytes());
    out[8..12].fill(0);
    Answer::length(12)
}

pub fn xfer_rdy_read(xfer_rdy: &mut XferRdy, iu: &[u8]) -> Answer {
    if iu.len() < 12 {
        return Answer::failed(23, 0);
    }
    if iu.len() > 12 {
        return Answer::failed(24, 0);
    }
    *xfer_rdy = XferRdy { offset: number(&iu[..4]), len: number(&iu[4..8]) };
    Answer { what: PARSED, len: 12, ..Answer::default() }
}

/// K9: the IU of a RESPONSE, without its fill. 32, 34, or kind, status and how many bytes of sense data.
pub fn response_read(iu: &[u8]) -> Answer {
    if iu.len() < 24 {
        return Answer::failed(32, 0);
    }
    let kind = iu[10] & 3;
    let [sense, response] = [number(&iu[16..20]), number(&iu[20..24])];
    // The length of the other list is not looked at, so that with no data neither is.
    let list = match kind {
        NO_DATA => 0,
        RESPONSE_DATA if response == 4 => 4,
        SENSE_DATA if (1..=1000).contains(&sense) => sense as usize,
        _ => return Answer::failed(34, 0),
    };
    if iu.len() != 24 + list {
        return Answer::failed(34, 0);
    }
    let sense = if kind == SENSE_DATA { list } else { 0 };
    Answer { what: PARSED, kind, status: iu[11], len: iu.len(), sense, ..Answer::default() }
}

/// K9: the sense data as a part of the bytes that `answer` is about. Lists begin at byte 24 of the IU.
pub fn sense_data<'a>(answer: &Answer, bytes: &'a [u8]) -> &'a [u8] {
    if ![RESPONSE, PARSED].contains(&answer.what) || answer.kind != SENSE_DATA {
        return &[];
    }
    // Other bytes than those of the answer may be too short, and a made-up answer may say anything (OPEN.md).
    let iu = bytes.get(answer.start..).and_then(|rest| rest.get(..answer.len));
    iu.and_then(|iu| iu.get(24..)).and_then(|list| list.get(..answer.sense)).unwrap_or(&[])
}

/// 5, 6, 7, 8 of an arrival; `takes` says which types the role takes. Header and IU.
pub fn arrive<'a>(transfer: &Transfer, bytes: &'a [u8], takes: &[u8]) -> Result<(Header, &'a [u8]), u8> {
    let end = shape(bytes)?;
    let header = header_of(bytes);
    if !takes.contains(&header.kind) {
        return Err(6);
    }
    if header.dest != transfer.local || header.source != transfer.remote {
        return Err(7);
    }
    if header.tag != transfer.tag {
        return Err(8);
    }
    Ok((header, &bytes[24..end]))
}
