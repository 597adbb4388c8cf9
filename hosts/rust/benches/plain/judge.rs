//! What two options come to, written as one reads document 01: suboptions in an array, walked again for each question.

use super::area::{find, Finding};
use super::suboptions::{Class, Contents};
use super::{known, Session};
use crate::driver::calls::Cause;

/// A judgement, with the whole transcript as a value; zeros where there is none.
#[derive(Clone, Copy, PartialEq, Eq, Debug)]
pub struct Judged {
    /// The refusal, the reason, or the length of the transcript.
    pub number: usize,
    pub kind: u8,
    pub role: u8,
    pub tep: u8,
    pub resumed: u8,
    /// Of an unreadable area: where the option begins that makes it so, and its kind.
    pub place: u8,
    pub option: u8,
    pub transcript: [u8; 80],
}

pub const REFUSED: u8 = 0;
pub const PLAIN: u8 = 2;
pub const ENCRYPTED: u8 = 4;

impl Judged {
    pub fn short(kind: u8, number: usize) -> Judged {
        Judged {
            number,
            kind,
            role: 0,
            tep: 0,
            resumed: 0,
            place: 0,
            option: 0,
            transcript: [0; 80],
        }
    }

    pub fn plain(cause: Cause) -> Judged {
        Judged {
            place: cause.place,
            option: cause.kind,
            ..Judged::short(PLAIN, usize::from(cause.reason))
        }
    }

    pub fn encrypted(role: u8, tep: u8, resumed: bool, a: &[u8], b: &[u8]) -> Judged {
        let mut transcript = [0; 80];
        transcript[..a.len()].copy_from_slice(a);
        transcript[a.len()..a.len() + b.len()].copy_from_slice(b);
        Judged {
            number: a.len() + b.len(),
            kind: ENCRYPTED,
            role,
            tep,
            resumed: u8::from(resumed),
            place: 0,
            option: 0,
            transcript,
        }
    }
}

/// Judges two option areas for the end that sent `own`.
#[inline(never)]
pub fn judge(own: &[u8], peer: &[u8], mandatory: bool, hand: Option<&Session>) -> Judged {
    if own.len() > 40 || peer.len() > 40 {
        return Judged::short(REFUSED, 2);
    }
    let (own, peer) = match (find(own, true), find(peer, true)) {
        (Finding::Unreadable { place, kind }, _) | (_, Finding::Unreadable { place, kind }) => {
            return Judged::plain(Cause::unreadable(place, kind));
        }
        (Finding::Found(own), Finding::Found(peer)) => (own, peer),
        _ => return Judged::short(PLAIN, 2),
    };
    let (Some(mine), Some(theirs)) = (Contents::read(own), Contents::read(peer)) else {
        return Judged::short(PLAIN, 3);
    };
    if mine.b() == theirs.b() {
        return Judged::short(PLAIN, 4);
    }
    if mandatory && !theirs.aware() {
        return Judged::short(PLAIN, 5);
    }
    let own_is_a = mine.b() == 0;
    let (a, b) = if own_is_a {
        (&mine, &theirs)
    } else {
        (&theirs, &mine)
    };
    let mut last = None;
    for suboption in b.teps() {
        let tep = suboption.tep();
        if !known(tep) {
            continue;
        }
        let (Some(from_a), Some(from_b)) = (a.once(tep), b.once(tep)) else {
            continue;
        };
        match (from_a.class(), from_b.class()) {
            (Class::Bad, _) | (_, Class::Bad) | (Class::Fresh, Class::Resumption(_)) => {}
            (_, Class::Fresh) => last = Some((from_b.byte, false)),
            (Class::Resumption(of_a), Class::Resumption(of_b)) => {
                let halves = if own_is_a { (of_a, of_b) } else { (of_b, of_a) };
                if hand.is_some_and(|record| record.tep == tep && record.halves() == halves) {
                    last = Some((from_b.byte, true));
                }
            }
        }
    }
    let Some((tep, resumed)) = last else {
        return Judged::short(PLAIN, 6);
    };
    if own_is_a {
        Judged::encrypted(0, tep, resumed, own, peer)
    } else {
        Judged::encrypted(1, tep, resumed, peer, own)
    }
}
