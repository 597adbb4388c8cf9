//! A door as its host sees it: followed by the replies alone, and held to them.

use std::collections::BTreeMap;

use super::calls::{Cause, PhaseNow, Record, Reply};
use super::counts::Counts;
use super::list::{Call, Told};
use super::options::Quote;

/// What a host knows of a door from the replies alone.
#[derive(Clone)]
pub struct Seen {
    pub phase: PhaseNow,
    pub held: Vec<Record>,
    pub in_hand: Option<Record>,
    /// The option that this door wrote.
    pub own: Vec<u8>,
    /// Whether the result of this Open was asked for before.
    told: bool,
    /// Whether this Open came by a crossed open.
    crossed: bool,
    /// A link uses this door.
    pub busy: bool,
    /// For each TEP and identifier: stores accepted less resumed opens.
    spare: BTreeMap<(u8, [u8; 18]), u64>,
}

/// A new door.
pub fn unseen() -> Seen {
    Seen {
        phase: PhaseNow::Idle,
        held: Vec::new(),
        in_hand: None,
        own: Vec::new(),
        told: false,
        crossed: false,
        busy: false,
        spare: BTreeMap::new(),
    }
}

/// The half that a door sends and the half that it expects.
pub fn halves(record: &Record) -> (Vec<u8>, Vec<u8>) {
    let (first, second) = record.identifier.split_at(9);
    match record.role {
        0 => (first.to_vec(), second.to_vec()),
        _ => (second.to_vec(), first.to_vec()),
    }
}

/// Whether a cause can be about this area: of an unreadable one, the place is in it and has the kind; of any other, both are 0.
fn is_about(cause: Cause, area: &[u8]) -> bool {
    match cause.reason {
        1 => cause.kind > 1 && area.get(usize::from(cause.place)) == Some(&cause.kind),
        reason => cause == Cause::bare(reason),
    }
}

impl Seen {
    fn enter(&mut self, phase: PhaseNow) {
        self.crossed = phase == PhaseNow::Open && self.phase == PhaseNow::Crossed;
        self.told = false;
        self.phase = phase;
        if matches!(phase, PhaseNow::Idle | PhaseNow::Plain(_)) {
            self.in_hand = None;
        }
    }

    fn take(&mut self, place: Option<usize>) {
        self.in_hand = place.map(|place| self.held.remove(place));
    }

    /// What a made-up option may quote: each TEP with each half that means something at this door.
    pub fn quotes(&self) -> Vec<Quote> {
        let records = self.held.iter().chain(&self.in_hand);
        let both = records.map(|record| (record.tep, halves(record)));
        both.flat_map(|(tep, (sent, expected))| [(tep, sent), (tep, expected)])
            .collect()
    }

    /// After *erase*.
    pub fn forget_all(&mut self) {
        let busy = self.busy;
        *self = unseen();
        self.busy = busy;
    }

    /// Follows a call by what it told, and counts what was met. Fails where the door contradicts what it told before.
    pub fn follow(&mut self, call: &Call, told: &Told, counts: &mut Counts) -> Result<(), String> {
        match (call, told.reply) {
            (_, Reply::Refused(6)) if self.held.len() < 4 => {
                return Err(format!("full at {}: {call:?}", self.held.len()));
            }
            (Call::Offer { teps, resume, .. }, Reply::Written(length)) => {
                let oldest = self.held.iter().position(|r| teps.contains(&r.tep));
                self.take(oldest.filter(|_| *resume));
                if self.in_hand.is_some() {
                    counts.meet("offer resuming");
                }
                self.own = told.buffer[..length].to_vec();
                self.enter(PhaseNow::Offered);
            }
            (Call::Answer { area, .. }, Reply::Written(length)) => {
                self.own = told.buffer[..length].to_vec();
                let own = &self.own;
                let fits = |record: &Record| {
                    let (sent, expected) = halves(record);
                    own[3] == record.tep | 0x80
                        && own[4..13] == sent
                        && area.windows(9).any(|part| part == expected)
                };
                let place = self.held.iter().position(fits).filter(|_| own[3] >= 0x80);
                if own[3] >= 0x80 && place.is_none() {
                    return Err(format!("resumed what it does not hold: {call:?}"));
                }
                self.take(place);
                self.enter(PhaseNow::Answered);
            }
            (Call::Answer { area, .. }, Reply::Plain(cause)) => {
                if !is_about(cause, area) {
                    return Err(format!("another area's cause: {cause:?} {call:?}"));
                }
                counts.cause(cause);
                counts.meet("answer ending in Plain");
                self.enter(PhaseNow::Plain(cause));
            }
            (Call::Receive { area, .. }, Reply::Now(phase)) if phase != self.phase => {
                if let PhaseNow::Plain(Cause { reason: 1, .. }) = self.phase {
                    return Err(format!("was {:?}, is {phase:?}: {call:?}", self.phase));
                }
                if let PhaseNow::Plain(cause) = phase {
                    if !is_about(cause, area) {
                        return Err(format!("another area's cause: {cause:?} {call:?}"));
                    }
                    counts.cause(cause);
                }
                self.enter(phase);
            }
            (Call::Result { .. }, Reply::Plain(cause @ Cause { reason: 1, .. })) => {
                if self.phase != PhaseNow::Plain(cause) {
                    return Err(format!("was {:?}, is {cause:?}: {call:?}", self.phase));
                }
                counts.meet("result of an unreadable area");
            }
            (
                Call::Result { .. },
                Reply::Open {
                    role, resumed, tep, ..
                },
            ) if !self.told => {
                self.told = true;
                let way = if resumed { "resumed" } else { "fresh" };
                counts.meet(&format!(
                    "{way} open as {}",
                    if role == 0 { "A" } else { "B" }
                ));
                if self.crossed {
                    counts.meet("crossed open");
                    if resumed {
                        counts.meet("crossed open, resumed");
                    }
                }
                if tep >= 0x80 && !resumed {
                    counts.meet("fresh open with v = 1");
                }
                if !resumed {
                    self.in_hand = None;
                } else {
                    let record = self
                        .in_hand
                        .as_ref()
                        .ok_or("resumed with no record in hand")?;
                    if told.secret != Some(record.secret) {
                        return Err(format!("another secret: {call:?}"));
                    }
                    let spare = self.spare.get_mut(&(record.tep, record.identifier));
                    let spare = spare.ok_or("resumed what was never stored")?;
                    *spare = spare
                        .checked_sub(1)
                        .ok_or("resumed more often than stored")?;
                }
            }
            (Call::Close { .. }, Reply::Done) => self.enter(PhaseNow::Idle),
            (
                Call::Store {
                    tep,
                    role,
                    identifier,
                    secret,
                    ..
                },
                Reply::Done,
            ) => {
                let record = Record {
                    tep: *tep,
                    role: *role,
                    identifier: identifier[..]
                        .try_into()
                        .map_err(|_| "stored a wrong length")?,
                    secret: secret[..].try_into().map_err(|_| "stored a wrong length")?,
                };
                *self.spare.entry((*tep, record.identifier)).or_insert(0) += 1;
                self.held.push(record);
            }
            (
                Call::Forget {
                    tep, identifier, ..
                },
                Reply::Done,
            ) => {
                let named = |r: &Record| r.tep == *tep && r.identifier == identifier[..];
                let place = self
                    .held
                    .iter()
                    .position(named)
                    .ok_or("forgot what is not held")?;
                self.held.remove(place);
                counts.meet("forget");
            }
            (Call::Count { .. }, Reply::Count(number)) if number != self.held.len() => {
                return Err(format!(
                    "counts {number}, holds {}: {call:?}",
                    self.held.len()
                ));
            }
            _ => {}
        }
        Ok(())
    }
}
