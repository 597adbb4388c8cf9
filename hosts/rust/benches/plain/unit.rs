//! The unit, changed in place: the same doors, pool of rows and lists of row numbers as the library's, with its zeros in freed rows.

use super::area::{find, Finding};
use super::judge::{judge, Judged, ENCRYPTED};
use super::suboptions::{Class, Contents};
use super::{known, Session};
use crate::driver::calls::{Cause, PhaseNow, Reply, Unit};

use door_link::{DOORS, ROWS};

const EACH: usize = 4;

/// An option as it was sent or received.
#[derive(Clone, Copy)]
struct Kept {
    bytes: [u8; 40],
    length: u8,
}

impl Kept {
    const NONE: Kept = Kept {
        bytes: [0; 40],
        length: 0,
    };

    fn of(option: &[u8]) -> Kept {
        let mut kept = Kept::NONE;
        kept.bytes[..option.len()].copy_from_slice(option);
        kept.length = option.len() as u8;
        kept
    }

    fn push(&mut self, bytes: &[u8]) {
        let at = usize::from(self.length);
        self.bytes[at..at + bytes.len()].copy_from_slice(bytes);
        self.length += bytes.len() as u8;
    }

    fn bytes(&self) -> &[u8] {
        &self.bytes[..usize::from(self.length)]
    }

    fn write(&self, out: &mut [u8]) -> Option<usize> {
        let length = usize::from(self.length);
        out.get_mut(..length)?.copy_from_slice(self.bytes());
        Some(length)
    }
}

#[derive(Clone, Copy, PartialEq, Eq)]
enum Phase {
    Idle,
    Offered,
    Crossed,
    Answered,
    Open,
    Plain(Cause),
}

#[derive(Clone, Copy)]
struct Door {
    phase: Phase,
    mandatory: bool,
    role: u8,
    tep: u8,
    resumed: bool,
    held: bool,
    own: Kept,
    peer: Kept,
    hand: Session,
    list: [u8; EACH],
    count: u8,
}

const IDLE: Door = Door {
    phase: Phase::Idle,
    mandatory: false,
    role: 0,
    tep: 0,
    resumed: false,
    held: false,
    own: Kept::NONE,
    peer: Kept::NONE,
    hand: Session::NONE,
    list: [0; EACH],
    count: 0,
};

#[derive(Clone)]
pub struct Plain {
    doors: [Door; DOORS],
    rows: [Session; ROWS],
    /// A bit for each row in use.
    used: [u64; ROWS.div_ceil(64)],
}

/// The option that an offer or an answer sends.
fn option(b: u8, aware: bool, teps: &[u8], record: Option<&Session>, nonce: &[u8]) -> Kept {
    let mut own = Kept::of(&[0x45, 0]);
    let global = b | u8::from(aware) << 1;
    if global != 0 {
        own.push(&[global]);
    }
    for tep in teps {
        if record.is_none_or(|record| record.tep != *tep) {
            own.push(&[*tep]);
        }
    }
    if let Some(record) = record {
        own.push(&[0x80 | record.tep]);
        own.push(record.halves().0);
        own.push(nonce);
    }
    own.bytes[1] = own.length;
    own
}

/// Whether a TEP list and the arguments beside it are refused with 3.
fn unfit(teps: &[u8], nonce: &[u8], aware: bool, mandatory: bool) -> bool {
    let mut seen = 0_u8;
    for tep in teps {
        if !known(*tep) || seen & 1 << (tep - 0x21) != 0 {
            return true;
        }
        seen |= 1 << (tep - 0x21);
    }
    teps.is_empty() || nonce.len() > 8 || (mandatory && !aware)
}

impl Door {
    fn enter(&mut self, phase: Phase) {
        let keeps = match phase {
            Phase::Idle | Phase::Plain(_) => false,
            Phase::Open => self.resumed,
            _ => true,
        };
        if !keeps && self.held {
            self.held = false;
            self.hand = Session::NONE;
        }
        self.phase = phase;
    }

    fn now(&self) -> Reply {
        Reply::Now(match self.phase {
            Phase::Idle => PhaseNow::Idle,
            Phase::Offered => PhaseNow::Offered,
            Phase::Crossed => PhaseNow::Crossed,
            Phase::Answered => PhaseNow::Answered,
            Phase::Open => PhaseNow::Open,
            Phase::Plain(cause) => PhaseNow::Plain(cause),
        })
    }

    fn rows(&self) -> &[u8] {
        &self.list[..usize::from(self.count)]
    }

    /// Judges a SYN or a SYN+ACK in Offered.
    fn judged(&mut self, ack: bool, area: &[u8]) -> Phase {
        let hand = Some(&self.hand).filter(|_| self.held);
        let Judged {
            number,
            kind,
            role,
            tep,
            resumed,
            place,
            option,
            ..
        } = judge(self.own.bytes(), area, self.mandatory, hand);
        if kind != ENCRYPTED {
            return Phase::Plain(Cause {
                reason: number as u8,
                place,
                kind: option,
            });
        }
        if let Finding::Found(option) = find(area, true) {
            self.peer = Kept::of(option);
        }
        (self.role, self.tep, self.resumed) = (role, tep, resumed == 1);
        if ack {
            Phase::Open
        } else {
            Phase::Crossed
        }
    }

    /// The phase after a second SYN, which must have the same option.
    fn again(&self, area: &[u8], same: Phase) -> Phase {
        match find(area, true) {
            Finding::Unreadable { place, kind } => Phase::Plain(Cause::unreadable(place, kind)),
            Finding::Nothing => Phase::Plain(Cause::bare(2)),
            Finding::Found(option) if option == self.peer.bytes() => same,
            Finding::Found(option) if Contents::read(option).is_none() => {
                Phase::Plain(Cause::bare(3))
            }
            Finding::Found(_) => Phase::Plain(Cause::bare(7)),
        }
    }
}

impl Plain {
    pub fn new() -> Plain {
        Plain {
            doors: [IDLE; DOORS],
            rows: [Session::NONE; ROWS],
            used: [0; ROWS.div_ceil(64)],
        }
    }

    /// Takes a record from a door's list; its row becomes zeros.
    fn remove(&mut self, door: usize, place: usize) -> Session {
        let door = &mut self.doors[door];
        let row = usize::from(door.list[place]);
        door.list.copy_within(place + 1.., place);
        door.count -= 1;
        self.used[row / 64] &= !(1 << (row % 64));
        std::mem::replace(&mut self.rows[row], Session::NONE)
    }

    fn place(&self, door: &Door, fits: impl Fn(&Session) -> bool) -> Option<usize> {
        let row = |row: &u8| fits(&self.rows[usize::from(*row)]);
        door.rows().iter().position(row)
    }

    /// The TEP to answer with, and the place of the record to resume; or why it ends in Plain.
    fn choose(
        &self,
        door: &Door,
        area: &[u8],
        mandatory: bool,
        teps: &[u8],
    ) -> Result<(Kept, u8, Option<usize>), Cause> {
        let option = match find(area, true) {
            Finding::Unreadable { place, kind } => return Err(Cause::unreadable(place, kind)),
            Finding::Nothing => return Err(Cause::bare(2)),
            Finding::Found(option) => option,
        };
        let contents = Contents::read(option).ok_or(Cause::bare(3))?;
        if contents.b() == 1 {
            return Err(Cause::bare(4));
        }
        if mandatory && !contents.aware() {
            return Err(Cause::bare(5));
        }
        let mut fresh = None;
        for tep in teps.iter().rev() {
            let Some(sent) = contents.once(*tep) else {
                continue;
            };
            let half = match sent.class() {
                Class::Bad => continue,
                Class::Fresh => None,
                Class::Resumption(half) => Some(half),
            };
            let fits = |half| self.place(door, |r| r.tep == *tep && r.halves().1 == half);
            if let Some(place) = half.and_then(fits) {
                return Ok((Kept::of(option), *tep, Some(place)));
            }
            fresh = fresh.or(Some(*tep));
        }
        Ok((Kept::of(option), fresh.ok_or(Cause::bare(6))?, None))
    }
}

impl Unit for Plain {
    fn offer(
        &mut self,
        door: usize,
        b: u8,
        aware: bool,
        mandatory: bool,
        teps: &[u8],
        resume: bool,
        nonce: &[u8],
        out: &mut [u8],
    ) -> Reply {
        let Some(at) = self.doors.get(door) else {
            return Reply::Refused(1);
        };
        if b > 1 || unfit(teps, nonce, aware, mandatory) {
            return Reply::Refused(3);
        }
        if at.phase != Phase::Idle {
            return Reply::Refused(4);
        }
        let listed = |record: &Session| teps.contains(&record.tep);
        let place = if resume { self.place(at, listed) } else { None };
        let record = place.map(|place| &self.rows[usize::from(at.list[place])]);
        let own = option(b, aware, teps, record, nonce);
        let Some(length) = own.write(out) else {
            return Reply::Refused(5);
        };
        let taken = place.map(|place| self.remove(door, place));
        let door = &mut self.doors[door];
        if let Some(record) = taken {
            (door.hand, door.held) = (record, true);
        }
        (door.own, door.mandatory, door.phase) = (own, mandatory, Phase::Offered);
        Reply::Written(length)
    }

    fn answer(
        &mut self,
        door: usize,
        area: &[u8],
        aware: bool,
        mandatory: bool,
        teps: &[u8],
        nonce: &[u8],
        out: &mut [u8],
    ) -> Reply {
        let Some(at) = self.doors.get(door) else {
            return Reply::Refused(1);
        };
        if area.len() > 40 {
            return Reply::Refused(2);
        }
        if unfit(teps, nonce, aware, mandatory) {
            return Reply::Refused(3);
        }
        if at.phase != Phase::Idle {
            return Reply::Refused(4);
        }
        let (peer, tep, place) = match self.choose(at, area, mandatory, teps) {
            Ok(choice) => choice,
            Err(cause) => {
                self.doors[door].enter(Phase::Plain(cause));
                return Reply::Plain(cause);
            }
        };
        let record = place.map(|place| &self.rows[usize::from(at.list[place])]);
        let own = option(1, aware, &[tep], record, nonce);
        let Some(length) = own.write(out) else {
            return Reply::Refused(5);
        };
        let taken = place.map(|place| self.remove(door, place));
        let door = &mut self.doors[door];
        (door.role, door.tep, door.resumed) = (1, tep, taken.is_some());
        if let Some(record) = taken {
            (door.hand, door.held, door.tep) = (record, true, tep | 0x80);
        }
        (door.own, door.peer, door.phase) = (own, peer, Phase::Answered);
        Reply::Written(length)
    }

    fn receive(&mut self, door: usize, syn: bool, ack: bool, area: &[u8]) -> Reply {
        let Some(door) = self.doors.get_mut(door) else {
            return Reply::Refused(1);
        };
        if area.len() > 40 {
            return Reply::Refused(2);
        }
        let next = match (door.phase, syn, ack) {
            (Phase::Open | Phase::Plain(_), _, _) => return door.now(),
            (Phase::Offered, true, _) => door.judged(ack, area),
            (Phase::Crossed, true, true) => door.again(area, Phase::Open),
            (Phase::Answered, true, false) => door.again(area, Phase::Answered),
            (Phase::Crossed | Phase::Answered, false, true) => match find(area, false) {
                Finding::Unreadable { place, kind } => Phase::Plain(Cause::unreadable(place, kind)),
                Finding::Nothing => Phase::Plain(Cause::bare(2)),
                Finding::Found(_) => Phase::Open,
            },
            _ => return Reply::Refused(4),
        };
        door.enter(next);
        door.now()
    }

    fn resend(&mut self, door: usize, out: &mut [u8]) -> Reply {
        let Some(door) = self.doors.get(door) else {
            return Reply::Refused(1);
        };
        match door.phase {
            Phase::Offered | Phase::Crossed | Phase::Answered => match door.own.write(out) {
                Some(length) => Reply::Written(length),
                None => Reply::Refused(5),
            },
            _ => Reply::Refused(4),
        }
    }

    fn result(&mut self, door: usize, out: &mut [u8]) -> (Reply, [u8; 32]) {
        let none = [0; 32];
        let Some(door) = self.doors.get(door) else {
            return (Reply::Refused(1), none);
        };
        match door.phase {
            Phase::Plain(cause) => return (Reply::Plain(cause), none),
            Phase::Open => {}
            _ => return (Reply::Refused(4), none),
        }
        let (a, b) = if door.role == 0 {
            (door.own.bytes(), door.peer.bytes())
        } else {
            (door.peer.bytes(), door.own.bytes())
        };
        let transcript = a.len() + b.len();
        let Some(out) = out.get_mut(..transcript) else {
            return (Reply::Refused(5), none);
        };
        out[..a.len()].copy_from_slice(a);
        out[a.len()..].copy_from_slice(b);
        let reply = Reply::Open {
            role: door.role,
            tep: door.tep,
            resumed: door.resumed,
            transcript,
        };
        (reply, if door.resumed { door.hand.secret } else { none })
    }

    fn close(&mut self, door: usize) -> Reply {
        let Some(door) = self.doors.get_mut(door) else {
            return Reply::Refused(1);
        };
        door.enter(Phase::Idle);
        Reply::Done
    }

    fn store(&mut self, door: usize, tep: u8, role: u8, identifier: &[u8], secret: &[u8]) -> Reply {
        let Some(at) = self.doors.get(door) else {
            return Reply::Refused(1);
        };
        let (Ok(&identifier), Ok(&secret)) = (
            <&[u8; 18]>::try_from(identifier),
            <&[u8; 32]>::try_from(secret),
        ) else {
            return Reply::Refused(3);
        };
        if !known(tep) || role > 1 {
            return Reply::Refused(3);
        }
        if usize::from(at.count) == EACH {
            return Reply::Refused(6);
        }
        let same = |record: &Session| record.tep == tep && record.identifier == identifier;
        if self.place(at, same).is_some() || (at.held && same(&at.hand)) {
            return Reply::Refused(7);
        }
        let full = self.used.iter().take_while(|word| **word == u64::MAX);
        let word = full.count();
        let row = 64 * word + self.used[word].trailing_ones() as usize;
        self.used[word] |= 1 << (row % 64);
        self.rows[row] = Session {
            tep,
            role,
            identifier,
            secret,
        };
        let at = &mut self.doors[door];
        at.list[usize::from(at.count)] = row as u8;
        at.count += 1;
        Reply::Done
    }

    fn forget(&mut self, door: usize, tep: u8, identifier: &[u8]) -> Reply {
        let Some(at) = self.doors.get(door) else {
            return Reply::Refused(1);
        };
        if !known(tep) || identifier.len() != 18 {
            return Reply::Refused(3);
        }
        match self.place(at, |record| {
            record.tep == tep && record.identifier == identifier
        }) {
            Some(place) => {
                self.remove(door, place);
                Reply::Done
            }
            None => Reply::Refused(16),
        }
    }

    fn count(&mut self, door: usize) -> Reply {
        match self.doors.get(door) {
            Some(door) => Reply::Count(usize::from(door.count)),
            None => Reply::Refused(1),
        }
    }

    fn erase(&mut self) -> Reply {
        *self = Plain::new();
        Reply::Done
    }
}
