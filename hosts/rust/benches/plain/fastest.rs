//! The judge again, as fast as we could write it: each option is walked once, and what matters of it is kept in an entry for each TEP.

use super::judge::{Judged, PLAIN, REFUSED};
use super::Session;
use crate::driver::calls::Cause;

/// What an option sent of one known TEP: how often, the byte, its place in the option, and the place and length of its data.
#[derive(Clone, Copy)]
struct Entry {
    times: u8,
    byte: u8,
    place: u8,
    data: u8,
    length: u8,
}

const UNSENT: Entry = Entry {
    times: 0,
    byte: 0,
    place: 0,
    data: 0,
    length: 0,
};

struct Table {
    global: u8,
    entries: [Entry; 4],
}

/// The place of the only ENO option, as start and end; or reason 1 with its place and kind, or reason 2.
#[inline(always)]
fn find(area: &[u8]) -> Result<(usize, usize), Cause> {
    let mut at = 0;
    let mut found = None;
    let mut twice = false;
    while at < area.len() {
        let kind = area[at];
        if kind <= 1 {
            if kind == 0 {
                break;
            }
            at += 1;
            continue;
        }
        if at + 1 >= area.len() {
            return Err(Cause::unreadable(at as u8, kind));
        }
        let length = usize::from(area[at + 1]);
        if length < 2 || at + length > area.len() {
            return Err(Cause::unreadable(at as u8, kind));
        }
        if kind == 0x45 {
            twice |= found.is_some();
            found = Some((at, at + length));
        }
        at += length;
    }
    match found {
        Some(place) if !twice => Ok(place),
        _ => Err(Cause::bare(2)),
    }
}

/// Walks an option's suboptions; nothing if it is ill-formed.
#[inline(always)]
fn table(option: &[u8]) -> Option<Table> {
    let mut entries = [UNSENT; 4];
    let mut global = None;
    let mut at = 2;
    while at < option.len() {
        let first = option[at];
        let (byte, data, length);
        if first < 0x20 {
            global = global.or(Some(first));
            at += 1;
            continue;
        } else if first < 0x80 {
            (byte, data, length) = (first, at + 1, 0);
        } else if first < 0xa0 {
            length = usize::from(first & 0x1f) + 1;
            data = at + 2;
            if data + length > option.len() || option[at + 1] < 0xa0 {
                return None;
            }
            byte = option[at + 1];
        } else {
            (byte, data, length) = (first, at + 1, option.len() - at - 1);
        }
        let index = (byte & 0x7f).wrapping_sub(0x21);
        if let Some(entry) = entries.get_mut(usize::from(index)) {
            *entry = Entry {
                times: entry.times + 1,
                byte,
                place: at as u8,
                data: data as u8,
                length: length as u8,
            };
        }
        at = data + length;
    }
    Some(Table {
        global: global.unwrap_or(0),
        entries,
    })
}

/// Judges two option areas for the end that sent `own`.
#[inline(never)]
pub fn judge(own: &[u8], peer: &[u8], mandatory: bool, hand: Option<&Session>) -> Judged {
    if own.len() > 40 || peer.len() > 40 {
        return Judged::short(REFUSED, 2);
    }
    let (own, peer) = match (find(own), find(peer)) {
        (Ok((begin, end)), Ok((start, stop))) => (&own[begin..end], &peer[start..stop]),
        (Err(cause @ Cause { reason: 1, .. }), _) | (_, Err(cause @ Cause { reason: 1, .. })) => {
            return Judged::plain(cause);
        }
        _ => return Judged::short(PLAIN, 2),
    };
    let (Some(mine), Some(theirs)) = (table(own), table(peer)) else {
        return Judged::short(PLAIN, 3);
    };
    if (mine.global ^ theirs.global) & 1 == 0 {
        return Judged::short(PLAIN, 4);
    }
    if mandatory && theirs.global & 2 == 0 {
        return Judged::short(PLAIN, 5);
    }
    let own_is_a = mine.global & 1 == 0;
    let (a, b) = if own_is_a {
        (&mine, &theirs)
    } else {
        (&theirs, &mine)
    };
    let mut last = (0, 0, false);
    for index in 0..4 {
        let (from_a, from_b) = (a.entries[index], b.entries[index]);
        if from_a.times != 1 || from_b.times != 1 || from_a.length > 17 || from_b.place < last.0 {
            continue;
        }
        if from_b.length < 9 {
            last = (from_b.place, from_b.byte, false);
        } else if from_b.length <= 17 && from_a.length >= 9 {
            if let Some(record) = hand {
                let (sent, expected) = if own_is_a {
                    (from_a.data, from_b.data)
                } else {
                    (from_b.data, from_a.data)
                };
                let (sent, expected) = (usize::from(sent), usize::from(expected));
                let halves = (&own[sent..sent + 9], &peer[expected..expected + 9]);
                if record.tep == 0x21 + index as u8 && record.halves() == halves {
                    last = (from_b.place, from_b.byte, true);
                }
            }
        }
    }
    if last.0 == 0 {
        return Judged::short(PLAIN, 6);
    }
    if own_is_a {
        Judged::encrypted(0, last.1, last.2, own, peer)
    } else {
        Judged::encrypted(1, last.1, last.2, peer, own)
    }
}
