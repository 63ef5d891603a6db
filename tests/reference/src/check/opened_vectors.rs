//! K9 by hand: whole frames, byte for byte, each with the answer that is due. Status codes, sense data and response codes are those of SAM,
//! SPC and SAS from general knowledge: the papers here do not hold them, and neither side looks at them. Of each frame the first line is
//! the header, byte 11 of it the fill; the second line is the IU up to its lists: byte 10 DATAPRES, byte 11 status, and at its end four
//! bytes of sense length and four of response length; the third is the list, from byte 48 of the frame, with the fill.
use super::opened::{reads, reference_place};
use super::opened_ports::closed;
use super::pair::Call;
use super::states::{asked, sends, taken};
use super::vectors::*;
use crate::records::*;
use crate::{ffi, frame};

struct Vector {
    name: &'static str,
    frame: &'static str,
    /// Bytes of the IU: those of the frame, less 24 of header, less the fill.
    len: usize,
    /// 0: taken.
    number: u8,
    kind: u8,
    status: u8,
    /// The sense data, which stand at byte 48 of the frame.
    sense: &'static str,
}

fn hex(text: &str) -> Vec<u8> {
    text.split_whitespace().map(|byte| u8::from_str_radix(byte, 16).unwrap()).collect()
}

const fn no_data(name: &'static str, status: u8, frame: &'static str) -> Vector {
    Vector { name, frame, len: 24, number: 0, kind: NO_DATA, status, sense: "" }
}

const fn response_data(name: &'static str, status: u8, frame: &'static str) -> Vector {
    Vector { name, frame, len: 28, number: 0, kind: RESPONSE_DATA, status, sense: "" }
}

const fn sense_data(name: &'static str, status: u8, len: usize, sense: &'static str, frame: &'static str) -> Vector {
    Vector { name, frame, len, number: 0, kind: SENSE_DATA, status, sense }
}

/// A failure tells neither kind nor status.
const fn wrong(name: &'static str, number: u8, len: usize, frame: &'static str) -> Vector {
    Vector { name, frame, len, number, kind: 0, status: 0, sense: "" }
}

/// Fixed format, 18 bytes: response code, 0, sense key, information (4), additional length 10, 4 bytes, code, qualifier, 0, 3 bytes.
const NOT_READY: &str = "70 00 02 00 00 00 00 0A 00 00 00 00 04 01 00 00 00 00";
const MEDIUM_ERROR: &str = "70 00 03 00 00 00 00 0A 00 00 00 00 11 00 00 00 00 00";
const AT_BLOCK: &str = "F0 00 03 00 12 34 56 0A 00 00 00 00 11 00 00 00 00 00";
const ILLEGAL_REQUEST: &str = "70 00 05 00 00 00 00 0A 00 00 00 00 24 00 00 C0 00 02";
const ABORTED_COMMAND: &str = "70 00 0B 00 00 00 00 0A 00 00 00 00 4B 03 00 00 00 00";
const RECOVERED_ERROR: &str = "70 00 01 00 00 00 00 0A 00 00 00 00 17 01 00 00 00 00";

#[rustfmt::skip]
const TAKEN_ONES: &[Vector] = &[
    // 48 bytes, no fill: 48 - 24 = 24, what kind 0 needs.
    no_data("GOOD", 0x00, "
        07 AB CD EF 00 12 34 56 00 00 00 00 00 00 00 00 00 12 00 00 00 00 00 00
        00 00 00 00 00 00 00 00 00 00 00 00 00 00 00 00 00 00 00 00 00 00 00 00"),
    no_data("BUSY", 0x08, "
        07 AB CD EF 00 12 34 56 00 00 00 00 00 00 00 00 00 12 00 00 00 00 00 00
        00 00 00 00 00 00 00 00 00 00 00 08 00 00 00 00 00 00 00 00 00 00 00 00"),
    no_data("RESERVATION CONFLICT", 0x18, "
        07 AB CD EF 00 12 34 56 00 00 00 00 00 00 00 00 00 12 00 00 00 00 00 00
        00 00 00 00 00 00 00 00 00 00 00 18 00 00 00 00 00 00 00 00 00 00 00 00"),
    no_data("TASK SET FULL", 0x28, "
        07 AB CD EF 00 12 34 56 00 00 00 00 00 00 00 00 00 12 00 00 00 00 00 00
        00 00 00 00 00 00 00 00 00 00 00 28 00 00 00 00 00 00 00 00 00 00 00 00"),
    // No need speaks of the status: CHECK CONDITION without sense data.
    no_data("CHECK CONDITION alone", 0x02, "
        07 AB CD EF 00 12 34 56 00 00 00 00 00 00 00 00 00 12 00 00 00 00 00 00
        00 00 00 00 00 00 00 00 00 00 00 02 00 00 00 00 00 00 00 00 00 00 00 00"),
    // Lengths 18 and 4 in an IU without data: there is no list, so both are of the other one.
    no_data("no data, lengths", 0x00, "
        07 AB CD EF 00 12 34 56 00 00 00 00 00 00 00 00 00 12 00 00 00 00 00 00
        00 00 00 00 00 00 00 00 00 00 00 00 00 00 00 00 00 00 00 12 00 00 00 04"),
    // Byte 10 is FCh: bits 1 and 0 are zero. Every byte that does not count is FFh.
    no_data("no data, ones", 0xff, "
        07 AB CD EF FF 12 34 56 FF FF FF FC FF FF FF FF 00 12 FF FF FF FF FF FF
        FF FF FF FF FF FF FF FF FF FF FC FF FF FF FF FF FF FF FF FF FF FF FF FF"),
    // Fill 2: 68 - 24 - 2 = 42 = 24 + 18, and the sense length is 12h = 18.
    sense_data("NOT READY", 0x02, 42, NOT_READY, "
        07 AB CD EF 00 12 34 56 00 00 00 02 00 00 00 00 00 12 00 00 00 00 00 00
        00 00 00 00 00 00 00 00 00 00 02 02 00 00 00 00 00 00 00 12 00 00 00 00
        70 00 02 00 00 00 00 0A 00 00 00 00 04 01 00 00 00 00 00 00"),
    sense_data("MEDIUM ERROR", 0x02, 42, MEDIUM_ERROR, "
        07 AB CD EF 00 12 34 56 00 00 00 02 00 00 00 00 00 12 00 00 00 00 00 00
        00 00 00 00 00 00 00 00 00 00 02 02 00 00 00 00 00 00 00 12 00 00 00 00
        70 00 03 00 00 00 00 0A 00 00 00 00 11 00 00 00 00 00 00 00"),
    // VALID one, the block in the information; RETRANSMIT one; fill that is not zero.
    sense_data("MEDIUM ERROR, block", 0x02, 42, AT_BLOCK, "
        07 AB CD EF 00 12 34 56 00 00 02 02 00 00 00 00 00 12 00 00 00 00 00 00
        00 00 00 00 00 00 00 00 00 00 02 02 00 00 00 00 00 00 00 12 00 00 00 00
        F0 00 03 00 12 34 56 0A 00 00 00 00 11 00 00 00 00 00 A5 5A"),
    // The last three bytes point to byte 2 of the CDB.
    sense_data("ILLEGAL REQUEST", 0x02, 42, ILLEGAL_REQUEST, "
        07 AB CD EF 00 12 34 56 00 00 00 02 00 00 00 00 00 12 00 00 00 00 00 00
        00 00 00 00 00 00 00 00 00 00 02 02 00 00 00 00 00 00 00 12 00 00 00 00
        70 00 05 00 00 00 00 0A 00 00 00 00 24 00 00 C0 00 02 00 00"),
    // 000: ABORTED COMMAND, ACK/NAK TIMEOUT, as a target without retries ends a read.
    sense_data("ABORTED COMMAND", 0x02, 42, ABORTED_COMMAND, "
        07 AB CD EF 00 12 34 56 00 00 00 02 00 00 00 00 00 12 00 00 00 00 00 00
        00 00 00 00 00 00 00 00 00 00 02 02 00 00 00 00 00 00 00 12 00 00 00 00
        70 00 0B 00 00 00 00 0A 00 00 00 00 4B 03 00 00 00 00 00 00"),
    // GOOD with sense data; byte 10 is FEh: bits 1 and 0 are 2.
    sense_data("RECOVERED ERROR", 0x00, 42, RECOVERED_ERROR, "
        07 AB CD EF 00 12 34 56 00 00 00 02 00 00 00 00 00 12 00 00 00 00 00 00
        00 00 00 00 00 00 00 00 00 00 FE 00 00 00 00 00 00 00 00 12 00 00 00 00
        70 00 01 00 00 00 00 0A 00 00 00 00 17 01 00 00 00 00 00 00"),
    // A response length of 4 beside them is ignored: the sense data begin at byte 48 all the same.
    sense_data("NOT READY, response length", 0x02, 42, NOT_READY, "
        07 AB CD EF 00 12 34 56 00 00 00 02 00 00 00 00 00 12 00 00 00 00 00 00
        00 00 00 00 00 00 00 00 00 00 02 02 00 00 00 00 00 00 00 12 00 00 00 04
        70 00 02 00 00 00 00 0A 00 00 00 00 04 01 00 00 00 00 00 00"),
    // Descriptor format, 8 bytes, no fill: 56 - 24 = 32 = 24 + 8.
    sense_data("descriptor format", 0x02, 32, "72 05 24 00 00 00 00 00", "
        07 AB CD EF 00 12 34 56 00 00 00 00 00 00 00 00 00 12 00 00 00 00 00 00
        00 00 00 00 00 00 00 00 00 00 02 02 00 00 00 00 00 00 00 08 00 00 00 00
        72 05 24 00 00 00 00 00"),
    // The fewest: one byte, fill 3: 52 - 24 - 3 = 25.
    sense_data("one byte", 0x02, 25, "70", "
        07 AB CD EF 00 12 34 56 00 00 00 03 00 00 00 00 00 12 00 00 00 00 00 00
        00 00 00 00 00 00 00 00 00 00 02 02 00 00 00 00 00 00 00 01 00 00 00 00
        70 00 00 00"),
    // Four bytes of sense data are as long as response data: kind and length tell them apart. 52 - 24 = 28.
    sense_data("four bytes", 0x02, 28, "70 00 02 00", "
        07 AB CD EF 00 12 34 56 00 00 00 00 00 00 00 00 00 12 00 00 00 00 00 00
        00 00 00 00 00 00 00 00 00 00 02 02 00 00 00 00 00 00 00 04 00 00 00 04
        70 00 02 00"),
    // 001, 9.2.6.3.3.7.1: status zero, response length 4; here TASK MANAGEMENT FUNCTION COMPLETE, then FAILED. 52 - 24 = 28; no sense data.
    response_data("FUNCTION COMPLETE", 0x00, "
        07 AB CD EF 00 12 34 56 00 00 00 00 00 00 00 00 00 12 00 00 00 00 00 00
        00 00 00 00 00 00 00 00 00 00 01 00 00 00 00 00 00 00 00 00 00 00 00 04
        00 00 00 00"),
    response_data("FUNCTION FAILED", 0x00, "
        07 AB CD EF 00 12 34 56 00 00 00 00 00 00 00 00 00 12 00 00 00 00 00 00
        00 00 00 00 00 00 00 00 00 00 01 00 00 00 00 00 00 00 00 00 00 00 00 04
        00 00 00 05"),
    // A sense length of 4 beside it is ignored, and so are the reserved bits (FDh) and the status.
    response_data("INVALID FRAME, sense length", 0x02, "
        07 AB CD EF 00 12 34 56 00 00 00 00 00 00 00 00 00 12 00 00 00 00 00 00
        00 00 00 00 00 00 00 00 00 00 FD 02 00 00 00 00 00 00 00 04 00 00 00 04
        00 00 00 02"),
];

#[rustfmt::skip]
const WRONG_ONES: &[Vector] = &[
    // Kind 3, with all that the other kinds need.
    wrong("kind 3", 34, 24, "
        07 AB CD EF 00 12 34 56 00 00 00 00 00 00 00 00 00 12 00 00 00 00 00 00
        00 00 00 00 00 00 00 00 00 00 03 00 00 00 00 00 00 00 00 00 00 00 00 00"),
    wrong("kind 3, list", 34, 28, "
        07 AB CD EF 00 12 34 56 00 00 00 00 00 00 00 00 00 12 00 00 00 00 00 00
        00 00 00 00 00 00 00 00 00 00 03 02 00 00 00 00 00 00 00 04 00 00 00 04
        00 00 00 00"),
    // NOT READY with its fill told as none, one and three bytes: IUs of 44, 43 and 41, where 42 is due.
    wrong("NOT READY, fill 0", 34, 44, "
        07 AB CD EF 00 12 34 56 00 00 00 00 00 00 00 00 00 12 00 00 00 00 00 00
        00 00 00 00 00 00 00 00 00 00 02 02 00 00 00 00 00 00 00 12 00 00 00 00
        70 00 02 00 00 00 00 0A 00 00 00 00 04 01 00 00 00 00 00 00"),
    wrong("NOT READY, fill 1", 34, 43, "
        07 AB CD EF 00 12 34 56 00 00 00 01 00 00 00 00 00 12 00 00 00 00 00 00
        00 00 00 00 00 00 00 00 00 00 02 02 00 00 00 00 00 00 00 12 00 00 00 00
        70 00 02 00 00 00 00 0A 00 00 00 00 04 01 00 00 00 00 00 00"),
    wrong("NOT READY, fill 3", 34, 41, "
        07 AB CD EF 00 12 34 56 00 00 00 03 00 00 00 00 00 12 00 00 00 00 00 00
        00 00 00 00 00 00 00 00 00 00 02 02 00 00 00 00 00 00 00 12 00 00 00 00
        70 00 02 00 00 00 00 0A 00 00 00 00 04 01 00 00 00 00 00 00"),
    // The sense length with its bytes the other way round; in the response length's place; with a bit more.
    wrong("length reversed", 34, 42, "
        07 AB CD EF 00 12 34 56 00 00 00 02 00 00 00 00 00 12 00 00 00 00 00 00
        00 00 00 00 00 00 00 00 00 00 02 02 00 00 00 00 12 00 00 00 00 00 00 00
        70 00 02 00 00 00 00 0A 00 00 00 00 04 01 00 00 00 00 00 00"),
    wrong("lengths exchanged", 34, 42, "
        07 AB CD EF 00 12 34 56 00 00 00 02 00 00 00 00 00 12 00 00 00 00 00 00
        00 00 00 00 00 00 00 00 00 00 02 02 00 00 00 00 00 00 00 00 00 00 00 12
        70 00 02 00 00 00 00 0A 00 00 00 00 04 01 00 00 00 00 00 00"),
    wrong("length 10012h", 34, 42, "
        07 AB CD EF 00 12 34 56 00 00 00 02 00 00 00 00 00 12 00 00 00 00 00 00
        00 00 00 00 00 00 00 00 00 00 02 02 00 00 00 00 00 01 00 12 00 00 00 00
        70 00 02 00 00 00 00 0A 00 00 00 00 04 01 00 00 00 00 00 00"),
    // Sense data of no bytes; no data, and 18 bytes or 4 of them.
    wrong("sense length 0", 34, 24, "
        07 AB CD EF 00 12 34 56 00 00 00 00 00 00 00 00 00 12 00 00 00 00 00 00
        00 00 00 00 00 00 00 00 00 00 02 02 00 00 00 00 00 00 00 00 00 00 00 00"),
    wrong("no data, a list", 34, 42, "
        07 AB CD EF 00 12 34 56 00 00 00 02 00 00 00 00 00 12 00 00 00 00 00 00
        00 00 00 00 00 00 00 00 00 00 00 02 00 00 00 00 00 00 00 12 00 00 00 00
        70 00 02 00 00 00 00 0A 00 00 00 00 04 01 00 00 00 00 00 00"),
    wrong("no data, four bytes", 34, 28, "
        07 AB CD EF 00 12 34 56 00 00 00 00 00 00 00 00 00 12 00 00 00 00 00 00
        00 00 00 00 00 00 00 00 00 00 00 00 00 00 00 00 00 00 00 00 00 00 00 04
        00 00 00 00"),
    // Both lists, as SAS has room for: response data and sense data of 18 bytes, 24 + 4 + 18 = 46; fill 2.
    wrong("both lists, kind 2", 34, 46, "
        07 AB CD EF 00 12 34 56 00 00 00 02 00 00 00 00 00 12 00 00 00 00 00 00
        00 00 00 00 00 00 00 00 00 00 02 02 00 00 00 00 00 00 00 12 00 00 00 04
        00 00 00 00 70 00 02 00 00 00 00 0A 00 00 00 00 04 01 00 00 00 00 00 00"),
    wrong("both lists, kind 1", 34, 46, "
        07 AB CD EF 00 12 34 56 00 00 00 02 00 00 00 00 00 12 00 00 00 00 00 00
        00 00 00 00 00 00 00 00 00 00 01 02 00 00 00 00 00 00 00 12 00 00 00 04
        00 00 00 00 70 00 02 00 00 00 00 0A 00 00 00 00 04 01 00 00 00 00 00 00"),
    // Response data of 0, 3, 5 and 8 bytes, each in an IU that is as long; four told and none there; four there and none told.
    wrong("response length 0", 34, 24, "
        07 AB CD EF 00 12 34 56 00 00 00 00 00 00 00 00 00 12 00 00 00 00 00 00
        00 00 00 00 00 00 00 00 00 00 01 00 00 00 00 00 00 00 00 00 00 00 00 00"),
    wrong("response length 3", 34, 27, "
        07 AB CD EF 00 12 34 56 00 00 00 01 00 00 00 00 00 12 00 00 00 00 00 00
        00 00 00 00 00 00 00 00 00 00 01 00 00 00 00 00 00 00 00 00 00 00 00 03
        00 00 00 00"),
    wrong("response length 5", 34, 29, "
        07 AB CD EF 00 12 34 56 00 00 00 03 00 00 00 00 00 12 00 00 00 00 00 00
        00 00 00 00 00 00 00 00 00 00 01 00 00 00 00 00 00 00 00 00 00 00 00 05
        00 00 00 05 00 00 00 00"),
    wrong("response length 8", 34, 32, "
        07 AB CD EF 00 12 34 56 00 00 00 00 00 00 00 00 00 12 00 00 00 00 00 00
        00 00 00 00 00 00 00 00 00 00 01 00 00 00 00 00 00 00 00 00 00 00 00 08
        00 00 00 00 00 00 00 00"),
    wrong("response data missing", 34, 24, "
        07 AB CD EF 00 12 34 56 00 00 00 00 00 00 00 00 00 12 00 00 00 00 00 00
        00 00 00 00 00 00 00 00 00 00 01 00 00 00 00 00 00 00 00 00 00 00 00 04"),
    wrong("response data not told", 34, 28, "
        07 AB CD EF 00 12 34 56 00 00 00 00 00 00 00 00 00 12 00 00 00 00 00 00
        00 00 00 00 00 00 00 00 00 00 01 00 00 00 00 00 00 00 00 04 00 00 00 00
        00 00 00 00"),
    // FUNCTION COMPLETE with a bit more in the response length; with its bytes the other way round.
    wrong("response length 10004h", 34, 28, "
        07 AB CD EF 00 12 34 56 00 00 00 00 00 00 00 00 00 12 00 00 00 00 00 00
        00 00 00 00 00 00 00 00 00 00 01 00 00 00 00 00 00 00 00 00 00 01 00 04
        00 00 00 00"),
    wrong("response length 104h", 34, 28, "
        07 AB CD EF 00 12 34 56 00 00 00 00 00 00 00 00 00 12 00 00 00 00 00 00
        00 00 00 00 00 00 00 00 00 00 01 00 00 00 00 00 00 00 00 00 00 00 01 04
        00 00 00 00"),
    wrong("response length reversed", 34, 28, "
        07 AB CD EF 00 12 34 56 00 00 00 00 00 00 00 00 00 12 00 00 00 00 00 00
        00 00 00 00 00 00 00 00 00 00 01 00 00 00 00 00 00 00 00 00 04 00 00 00
        00 00 00 00"),
    // 32 goes first: 23 bytes, of kind 3; no IU at all.
    wrong("23 bytes", 32, 23, "
        07 AB CD EF 00 12 34 56 00 00 00 01 00 00 00 00 00 12 00 00 00 00 00 00
        00 00 00 00 00 00 00 00 00 00 03 02 00 00 00 00 00 00 00 00 00 00 00 00"),
    wrong("no IU", 32, 0, "
        07 AB CD EF 00 12 34 56 00 00 00 00 00 00 00 00 00 12 00 00 00 00 00 00"),
    // RETRANSMIT one: a RESPONSE that is sent again is opened too.
    wrong("sent again, sense length 0", 34, 24, "
        07 AB CD EF 00 12 34 56 00 00 02 00 00 00 00 00 00 12 00 00 00 00 00 00
        00 00 00 00 00 00 00 00 00 00 02 02 00 00 00 00 00 00 00 00 00 00 00 00"),
];

/// Records at which the frames arrive, each with the frames of the burst in service.
fn records(name: &'static str) -> Result<Vec<(Script, u64)>, String> {
    let mut stored = read_receiver(name, 8, 1)?;
    stored.arrives(bytes(1, 0, 0, 0, &[7; 4]), (STORED, 0))?;
    let out = |len| -> Result<Script, String> {
        let mut s = asked(name, 12, 2, 1, len)?;
        sends(&mut s, 0, if len == 4 { &[0] } else { &[0, 4] })?;
        Ok(s)
    };
    let mut nak = out(8)?;
    taken(&mut nak, &[Call::Nak])?;
    let mut waits = out(4)?;
    waits.arrives(ready(4, 8, 4, 1), (NEXT_BURST_DELIVERS, 0))?;
    Ok(vec![(read_receiver(name, 8, 1)?, 0), (stored, 0), (writer(name, 12, 2, 1)?, 0), (out(8)?, 2), (nak, 2), (waits, 1)])
}

impl Vector {
    fn fault(&self, what: String) -> String {
        format!("K9 {}: {what}\n  {}", self.name, self.frame)
    }

    /// The IU by itself, then the frame at the frame reader and at both initiators.
    fn tried(&self) -> Result<u64, String> {
        let (f, sense) = (hex(self.frame), hex(self.sense));
        let (taken, n) = (self.number == 0, sense.len());
        if f.len() != 24 + self.len + usize::from(f[11] & 3) || f.len() % 4 != 0 || taken && f[48..48 + n] != sense {
            return Err(self.fault("the vector does not fit together".into()));
        }
        let alone = Answer {
            number: self.number,
            what: if taken { PARSED } else { FAILED },
            kind: self.kind,
            status: self.status,
            frames: 0,
            start: 0,
            len: if taken { self.len } else { 0 },
            sense: n,
        };
        let iu = &f[24..24 + self.len];
        let a = reads(iu).map_err(|e| self.fault(e))?;
        if a != alone || reference_place(&a, iu)? != (n > 0).then_some((24, n)) {
            return Err(self.fault(format!("IU reader {a:?} at both sides, due {alone:?}")));
        }
        // The frame reader does not open it.
        let due = Answer { what: PARSED, start: 24, len: self.len, ..Answer::default() };
        let mut header = Header::default();
        let read = [frame::read(&mut header, &f), unsafe { ffi::ssp_frame_read(&mut header, f.as_ptr(), f.len()) }];
        if read != [due; 2] {
            return Err(self.fault(format!("frame reader\n  reference {:?}\n  library   {:?}\n  due       {due:?}", read[0], read[1])));
        }
        let mut calls = 3;
        for (mut s, frames) in records(self.name)? {
            let due = Answer { what: if taken { RESPONSE } else { FAILED }, frames, start: if taken { 24 } else { 0 }, ..alone };
            let before = s.pair.rec[1];
            let a = s.arrives(f.clone(), (due.what, due.number)).map_err(|e| self.fault(e))?;
            if a != due || s.pair.rec[1] != closed(before) || reference_place(&a, &f)? != (n > 0).then_some((48, n)) {
                return Err(self.fault(format!("{a:?} at both sides, due {due:?}\n  {before:?}\n  {:?}", s.pair.rec[1])));
            }
            let again = s.arrives(f.clone(), (REFUSED, 2))?;
            calls += s.holds(again == Answer::refused(2) && reference_place(&again, &f)?.is_none())?;
        }
        Ok(calls)
    }
}

/// The most: 1,000 bytes of sense data, 03E8h, in an IU of 1,024 and a frame of 1,048 bytes. Each: sense length, bytes of IU, fill, number.
fn longest() -> Result<u64, String> {
    let mut calls = 0;
    for (sense, len, fill, number) in [
        (1000, 1024, 0, 0),
        (999, 1023, 1, 0),
        (998, 1022, 2, 0),
        (1001, 1024, 0, 34),
        (999, 1024, 0, 34),
        (1000, 1023, 1, 34),
        (0, 1024, 0, 34),
    ] {
        let [high, low] = u16::to_be_bytes(sense);
        let head = [7, 0xab, 0xcd, 0xef, 0, 0x12, 0x34, 0x56, 0, 0, 0, fill, 0, 0, 0, 0, 0, 0x12, 0, 0, 0, 0, 0, 0];
        let iu = [0, 0, 0, 0, 0, 0, 0, 0, 0, 0, 2, 2, 0, 0, 0, 0, 0, 0, high, low, 0, 0, 0, 0];
        let f = [&head[..], &iu, &[0x72; 1000]].concat();
        let due = if number == 0 {
            Answer { what: RESPONSE, kind: 2, status: 2, start: 24, len, sense: sense.into(), ..Answer::default() }
        } else {
            Answer { what: FAILED, number, ..Answer::default() }
        };
        for (mut s, frames) in records("K9 longest")? {
            let a = s.arrives(f.clone(), (due.what, number))?;
            let part = reference_place(&a, &f)?;
            calls += s.holds(a == Answer { frames, ..due } && part == (number == 0).then_some((48, sense.into())))?;
        }
    }
    // One more fits in no frame; the IU by itself is 34: no need is met.
    let mut iu = response_iu(0, 1025);
    for (high, low) in [(3, 0xe9), (3, 0xe8), (0, 0)] {
        (iu[18], iu[19]) = (high, low);
        if reads(&iu)? != Answer::failed(34, 0) {
            return Err("K9 IU of 1,025 bytes: not 34 at both sides".into());
        }
        calls += 2;
    }
    // A need in the low 8 or 16 bits of the IU's length only: 100h or 10000h more than 24, 28 and 25. Sense length 1, response length 4.
    for (kind, len) in [(0, 0x118), (1, 0x11c), (2, 0x119), (0, 0x1_0018), (1, 0x1_001c), (2, 0x1_0019)] {
        let mut iu = vec![0; len];
        (iu[10], iu[19], iu[23]) = (kind, 1, 4);
        if reads(&iu)? != Answer::failed(34, 0) {
            return Err(format!("K9 IU of {len} bytes: not 34 at both sides"));
        }
        calls += 2;
    }
    Ok(calls)
}

/// Calls compared, or the first difference.
pub fn all() -> Result<u64, String> {
    let mut calls = longest()?;
    for vector in TAKEN_ONES.iter().chain(WRONG_ONES) {
        calls += vector.tried()?;
    }
    Ok(calls)
}
