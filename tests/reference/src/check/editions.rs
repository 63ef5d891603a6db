//! K7, SAS-2 beside SAS-1.1: what the part has in common. `editions_vectors` has whole frames by hand, `editions_values` every value,
//! `editions_ports` records at every stage with every sort of call, `editions_runs` both ends together. The sides are compared at every call;
//! then K7's sentences are held against what the library did.
use super::opened::counted;
use super::pair::{Pair, Rec};
use super::rng::Rng;
use crate::records::*;

/// Where a value of 16 bits has its ends and its bytes theirs.
pub const EDGES: [u16; 6] = [0, 1, 255, 256, 65_534, 65_535];

/// SAS-2 or not, and the value.
pub type Edition = (bool, u16);

pub(super) const TODAY: Edition = (false, 0);

fn value(g: &mut Rng) -> u16 {
    if g.one_in(3) {
        g.next() as u16
    } else {
        g.of(&EDGES)
    }
}

/// One that is taken.
pub fn drawn(g: &mut Rng) -> Edition {
    if g.one_in(2) {
        TODAY
    } else {
        (true, value(g))
    }
}

/// Now and then one that is not: "a nonzero value under SAS-1.1".
pub fn any(g: &mut Rng) -> Edition {
    if g.one_in(20) {
        (false, value(g).max(1))
    } else {
        drawn(g)
    }
}

/// A TPTT that arrives where none counts; `own` is the value that the record has.
pub fn tptt(g: &mut Rng, own: u16) -> u16 {
    let any = g.next() as u16;
    g.of(&[0, 1, own, own, own ^ 1, own.swap_bytes(), any, any, 0xffff])
}

/// "Under SAS-1.1 frames are as today"; "under SAS-2 .. every read DATA and RESPONSE of the command carries it".
pub(super) fn carried((sas2, value): Edition) -> [u8; 2] {
    if sas2 {
        value.to_be_bytes()
    } else {
        [0, 0]
    }
}

pub(super) fn transfer_of(rec: &mut Rec) -> &mut Transfer {
    match rec {
        Rec::Sender(s) => &mut s.transfer,
        Rec::Receiver(r) => &mut r.transfer,
        Rec::Writer(w) => &mut w.sender.transfer,
        Rec::Target(t) => &mut t.receiver.transfer,
        Rec::Responder(r) => &mut r.transfer,
    }
}

pub(super) fn edition_of(mut rec: Rec) -> Edition {
    let t = transfer_of(&mut rec);
    (t.sas2, t.value)
}

/// The record, but with this edition and value.
pub(super) fn named(mut rec: Rec, (sas2, value): Edition) -> Rec {
    let t = transfer_of(&mut rec);
    (t.sas2, t.value) = (sas2, value);
    rec
}

/// The same of both sides.
pub(super) fn name(pair: &mut Pair, edition: Edition) {
    pair.rec = pair.rec.map(|rec| named(rec, edition));
}

/// The roles that write what carries the value.
pub(super) fn carries(rec: &Rec) -> bool {
    matches!(rec, Rec::Sender(_) | Rec::Responder(_))
}

/// Calls compared, or the first difference.
pub fn all() -> Result<u64, String> {
    counted(|| {
        let by_hand = super::editions_vectors::all().map_err(|e| format!("by hand: {e}"))?;
        let values = super::editions_values::all().map_err(|e| format!("values: {e}"))?;
        Ok(by_hand + values + super::editions_ports::all()? + super::editions_runs::all()?)
    })
}
