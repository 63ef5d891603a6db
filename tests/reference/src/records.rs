//! The records, field for field those of the C boundary, and what number 1 tests of each.

#[repr(C)]
#[derive(Clone, Copy, PartialEq, Eq, Debug, Default)]
pub struct Answer {
    pub number: u8,
    pub what: u8,
    /// K9, of a RESPONSE: DATAPRES, status, bytes of sense data.
    pub kind: u8,
    pub status: u8,
    pub frames: u64,
    pub start: usize,
    pub len: usize,
    pub sense: usize,
}

pub const REFUSED: u8 = 0;
pub const FAILED: u8 = 1;
pub const WAIT: u8 = 2;
pub const FRAME: u8 = 3;
pub const TAKEN: u8 = 4;
pub const RETRY: u8 = 5;
pub const UNCHANGED: u8 = 6;
pub const DELIVERED: u8 = 7;
pub const ACKNOWLEDGED: u8 = 8;
pub const DISCARDED: u8 = 9;
pub const STORED: u8 = 10;
pub const RECEIVED: u8 = 11;
pub const NEXT_BURST: u8 = 12;
pub const NEXT_BURST_DELIVERS: u8 = 13;
pub const REPEATED: u8 = 14;
pub const RESPONSE: u8 = 15;
pub const READY: u8 = 16;
pub const PARSED: u8 = 17;

impl Answer {
    pub fn is(what: u8) -> Answer {
        Answer { what, ..Answer::default() }
    }
    pub fn refused(number: u8) -> Answer {
        Answer { number, what: REFUSED, ..Answer::default() }
    }
    pub fn failed(number: u8, frames: u64) -> Answer {
        Answer { number, what: FAILED, frames, ..Answer::default() }
    }
    pub fn count(what: u8, frames: u64) -> Answer {
        Answer { what, frames, ..Answer::default() }
    }
    pub fn length(len: usize) -> Answer {
        Answer { what: FRAME, len, ..Answer::default() }
    }
}

#[repr(C)]
#[derive(Clone, Copy, PartialEq, Eq, Hash, Debug, Default)]
pub struct Transfer {
    pub count: u32,
    pub size: u32,
    pub window: u32,
    pub limit: u32,
    pub burst: u32,
    pub local: u32,
    pub remote: u32,
    pub tag: u16,
    pub write: bool,
    /// K7: the edition, SAS-1.1 or SAS-2, and the value that the caller gives.
    pub sas2: bool,
    pub value: u16,
    /// K4: the Initiator Response Timeout in milliseconds; 0 switches it off. Only the target of a write goes by it.
    pub irt: u16,
    /// K5: where a read begins in the initiator's buffer; 0 in a write.
    pub start: u32,
}

#[repr(C)]
#[derive(Clone, Copy, PartialEq, Eq, Hash, Debug, Default)]
pub struct Burst {
    pub base: u32,
    pub end: u32,
    pub limit: u32,
    pub tptt: u16,
}

#[repr(C)]
#[derive(Clone, Copy, PartialEq, Eq, Hash, Debug, Default)]
pub struct Sender {
    pub transfer: Transfer,
    pub burst: Burst,
    pub next: u32,
    pub balance: u32,
    pub unanswered: u32,
    pub nak: bool,
    pub cdp: bool,
    pub ended: bool,
    pub retries: u32,
    pub frames: u64,
}

#[repr(C)]
#[derive(Clone, Copy, PartialEq, Eq, Hash, Debug, Default)]
pub struct Receiver {
    pub transfer: Transfer,
    pub base: u32,
    pub end: u32,
    pub expected: u32,
    pub filled: u32,
    pub waiting: bool,
    pub ended: bool,
}

#[repr(C)]
#[derive(Clone, Copy, PartialEq, Eq, Hash, Debug, Default)]
pub struct Writer {
    pub sender: Sender,
    pub reached: u32,
    pub pending: bool,
    pub taken: Burst,
}

#[repr(C)]
#[derive(Clone, Copy, PartialEq, Eq, Hash, Debug, Default)]
pub struct Target {
    pub receiver: Receiver,
    pub retries: u32,
    pub tptt: u16,
    pub under: u16,
    pub since: u16,
    pub state: u8,
    pub stored: bool,
    /// K4: the sum of the reports of time.
    pub elapsed: u16,
}

#[repr(C)]
#[derive(Clone, Copy, PartialEq, Eq, Hash, Debug, Default)]
pub struct Responder {
    pub transfer: Transfer,
    pub len: u32,
    pub retries: u32,
    pub unanswered: bool,
    pub ended: bool,
}

#[repr(C)]
#[derive(Clone, Copy, PartialEq, Eq, Debug, Default)]
pub struct Header {
    pub kind: u8,
    pub dest: u32,
    pub source: u32,
    pub retry: bool,
    pub retransmit: bool,
    pub cdp: bool,
    pub tlr: u8,
    pub tag: u16,
    pub tptt: u16,
    pub offset: u32,
}

#[repr(C)]
#[derive(Clone, Copy, PartialEq, Eq, Debug, Default)]
pub struct XferRdy {
    pub offset: u32,
    pub len: u32,
}

pub const NO_DATA: u8 = 0;
pub const RESPONSE_DATA: u8 = 1;
pub const SENSE_DATA: u8 = 2;

pub const STATE_NONE: u8 = 0;
pub const STATE_UNANSWERED: u8 = 1;
pub const STATE_AGAIN: u8 = 2;
pub const STATE_READY: u8 = 3;

impl Transfer {
    /// "Limits of a transfer", and hashed addresses of 24 bits. K7: "a nonzero value under SAS-1.1 is 1".
    /// K5: "1 gains the sum and a write's start other than 0".
    pub fn fits(&self) -> bool {
        (1..=16_777_216).contains(&self.count)
            && (4..=1024).contains(&self.size)
            && self.size % 4 == 0
            && (1..=64).contains(&self.window)
            && self.limit <= 15
            && self.burst >= 1
            && self.burst <= self.count
            && self.local < 1 << 24
            && self.remote < 1 << 24
            && (self.sas2 || self.value == 0)
            && self.end() <= 16_777_216
            && (!self.write || self.start == 0)
    }
    /// K5: start plus count. Any two numbers have a sum.
    pub fn end(&self) -> u64 {
        u64::from(self.start) + u64::from(self.count)
    }
    /// K7: the TPTT of read DATA and RESPONSE.
    pub fn carried(&self) -> u16 {
        if self.sas2 {
            self.value
        } else {
            0
        }
    }
}

impl Burst {
    pub fn fits(&self, transfer: &Transfer) -> bool {
        self.base <= self.end && u64::from(self.end) <= transfer.end() && self.limit <= transfer.limit
    }
}

impl Sender {
    pub fn fits(&self) -> bool {
        self.transfer.fits()
            && self.burst.fits(&self.transfer)
            && self.transfer.start <= self.burst.base
            && self.burst.base <= self.balance
            && self.balance <= self.next
            && self.next <= self.burst.end
            && self.unanswered <= self.transfer.window
            && self.retries <= self.burst.limit
            && self.frames < 1 << 60
    }
}

impl Receiver {
    pub fn fits(&self) -> bool {
        self.transfer.fits()
            && self.transfer.start <= self.base
            && self.base <= self.expected
            && self.expected <= self.filled
            && self.filled <= self.end
            && u64::from(self.end) <= self.transfer.end()
    }
}

impl Writer {
    pub fn fits(&self) -> bool {
        let b = &self.sender.burst;
        self.sender.fits()
            && self.sender.transfer.write
            && b.base <= self.reached
            && self.sender.next <= self.reached
            && self.reached <= b.end
            && self.taken.fits(&self.sender.transfer)
    }
}

impl Target {
    pub fn fits(&self) -> bool {
        let r = &self.receiver;
        let t = &r.transfer;
        // A burst that was handed out is at least 1 byte; at most 16 tags go out between two stores (15 retries).
        let burst = self.state == STATE_NONE || r.base < r.end;
        let counts = self.retries <= t.limit && self.since <= 16 && self.elapsed <= t.irt;
        r.fits() && t.write && self.state <= 3 && burst && counts
    }
}

impl Responder {
    pub fn most(&self) -> u32 {
        self.transfer.limit.max(1)
    }
    pub fn fits(&self) -> bool {
        self.transfer.fits() && (24..=1024).contains(&self.len) && self.retries <= self.most()
    }
}
