//! Random connections between the doors of two units: handshakes, crossed opens, resumption, damage on the way, and calls that nobody
//! should make. Each unit has a twin of the other implementation; both get every call.

use std::collections::VecDeque;

use super::alike;
use super::calls::{PhaseNow, Record, Reply, Unit};
use super::counts::Counts;
use super::list::{Call, Told};
use super::options::{bare, broken, damaged, made_up, wrap, Quote};
use super::random::Random;
use super::seen::{halves, unseen, Seen};

pub(super) use door_link::DOORS;
pub(super) const KNOWN: [u8; 4] = [0x21, 0x22, 0x23, 0x24];
/// How many calls before a difference are shown.
const SHOWN: usize = 16;

/// A door of one of the two units.
#[derive(Clone, Copy, PartialEq, Eq, Debug)]
pub(super) struct End {
    pub unit: usize,
    pub door: usize,
}

/// An answer to a resumption that fits another door's record and none of this door's.
pub const STRANGE: &str = "answer to another door's half";

/// Whether the half that a record expects stands in an area.
fn seen_in(record: &Record, area: &[u8]) -> bool {
    let (_, expected) = halves(record);
    area.windows(9).any(|part| part == expected)
}

/// A connection in the making.
struct Link {
    ends: [End; 2],
    crossed: bool,
    stage: usize,
    record: Option<Record>,
    written: [Option<Vec<u8>>; 2],
}

/// Two units of each implementation, the links between them, and what was met.
pub struct Links<R, T> {
    pub random: Random,
    pub counts: Counts,
    units: [(R, T); 2],
    pub(super) seen: [Vec<Seen>; 2],
    links: Vec<Link>,
    pub(super) known: Vec<Record>,
    made: usize,
    /// For each door the last calls, to be shown when one differs.
    recent: [Vec<VecDeque<Call>>; 2],
    /// The calls of the first unit, if they are kept.
    pub kept: Option<Vec<Call>>,
}

impl<R: Unit, T: Unit> Links<R, T> {
    pub fn new(seed: u64, reference: impl Fn() -> R, tested: impl Fn() -> T) -> Links<R, T> {
        Links {
            random: Random::new(seed),
            counts: Counts::default(),
            units: [(reference(), tested()), (reference(), tested())],
            seen: [vec![unseen(); DOORS], vec![unseen(); DOORS]],
            links: Vec::new(),
            known: Vec::new(),
            made: 0,
            recent: [vec![VecDeque::new(); DOORS], vec![VecDeque::new(); DOORS]],
            kept: None,
        }
    }

    /// Makes so many calls and compares each.
    pub fn run(&mut self, calls: usize) -> Result<(), String> {
        while self.made < calls {
            if self.random.chance(28) {
                self.stray()?;
                continue;
            }
            if self.links.len() < 8 {
                self.begin();
            }
            let at = self.random.below(self.links.len());
            let mut link = self.links.swap_remove(at);
            if self.advance(&mut link)? {
                for end in link.ends {
                    self.at(end).busy = false;
                }
            } else {
                self.links.push(link);
            }
        }
        for (reference, tested) in &self.units {
            for door in 0..DOORS {
                if let (Some(one), Some(other)) = (reference.records(door), tested.records(door)) {
                    alike(|| format!("records of door {door}"), &one, &other)?;
                }
            }
            self.counts.add(
                "freed row taken by another door",
                reference.rows_changed_hands(),
            );
        }
        Ok(())
    }

    pub(super) fn at(&mut self, end: End) -> &mut Seen {
        &mut self.seen[end.unit][end.door]
    }

    /// Makes one call of both twins of a unit.
    pub(super) fn call(&mut self, unit: usize, call: Call) -> Result<Told, String> {
        self.made += 1;
        let (reference, tested) = &mut self.units[unit];
        let told = call.on(reference);
        let other = call.on(tested);
        let same = alike(|| format!("{call:?}"), &told, &other);
        let outcome = same
            .and_then(|()| call.check(&told))
            .and_then(|()| self.note(unit, &call, &told));
        if let Err(what) = outcome {
            return Err(format!(
                "call {} of unit {unit}: {what}\n{}",
                self.made,
                self.before(unit, &call)
            ));
        }
        if let Some(recent) = call.door().and_then(|door| self.recent[unit].get_mut(door)) {
            recent.push_back(call.clone());
            if recent.len() > SHOWN {
                recent.pop_front();
            }
        }
        if let (0, Some(kept)) = (unit, &mut self.kept) {
            kept.push(call);
        }
        Ok(told)
    }

    /// The last calls of the door that a call names.
    fn before(&self, unit: usize, call: &Call) -> String {
        let recent = call.door().and_then(|door| self.recent[unit].get(door));
        let lines = recent
            .into_iter()
            .flatten()
            .map(|call| format!("  before: {call:?}\n"));
        lines.collect()
    }

    /// Counts what was met, and follows the door by what it said.
    fn note(&mut self, unit: usize, call: &Call, told: &Told) -> Result<(), String> {
        if let Reply::Refused(number) = told.reply {
            self.counts.refusal(number);
        }
        let Some(door) = call.door() else {
            self.counts.meet("erase");
            self.seen[unit].iter_mut().for_each(Seen::forget_all);
            return Ok(());
        };
        if door >= DOORS {
            return match told.reply {
                Reply::Refused(1) => Ok(()),
                _ => Err(format!("door {door} was taken: {call:?}")),
            };
        }
        if let (Call::Answer { area, .. }, Reply::Written(_)) = (call, told.reply) {
            let quoted = |seen: &Seen| seen.held.iter().any(|record| seen_in(record, area));
            let others = (0..DOORS).filter(|other| *other != door);
            if !quoted(&self.seen[unit][door])
                && others.map(|other| &self.seen[unit][other]).any(quoted)
            {
                self.counts.meet(STRANGE);
            }
        }
        self.seen[unit][door].follow(call, told, &mut self.counts)
    }

    /// A new link between two doors that no link uses; most doors have one partner.
    fn begin(&mut self) {
        loop {
            let door = self.random.below(DOORS);
            let mut partner = (door + 7) % DOORS;
            if self.random.chance(10) {
                partner = self.random.below(DOORS);
            }
            let mut ends = [
                End { unit: 0, door },
                End {
                    unit: 1,
                    door: partner,
                },
            ];
            if ends.iter().any(|end| self.seen[end.unit][end.door].busy) {
                continue;
            }
            if self.random.chance(50) {
                ends.swap(0, 1);
            }
            for end in ends {
                self.at(end).busy = true;
            }
            self.links.push(Link {
                ends,
                crossed: self.random.chance(40),
                stage: 0,
                record: None,
                written: [None, None],
            });
            return;
        }
    }

    pub(super) fn new_record(&mut self) -> Record {
        let record = Record {
            tep: self.random.pick(&KNOWN),
            role: self.random.below(2) as u8,
            identifier: self.random.array(),
            secret: self.random.array(),
        };
        if self.known.len() < 64 {
            self.known.push(record.clone());
        } else {
            let place = self.random.below(64);
            self.known[place] = record.clone();
        }
        record
    }

    fn store(&mut self, end: End, record: &Record) -> Result<Told, String> {
        let call = Call::Store {
            door: end.door,
            tep: record.tep,
            role: record.role,
            identifier: record.identifier.to_vec(),
            secret: record.secret.to_vec(),
        };
        self.call(end.unit, call)
    }

    /// A lent buffer, mostly with room for so many bytes.
    pub(super) fn buffer(&mut self, room: usize) -> Vec<u8> {
        let length = if self.random.chance(90) {
            room + self.random.below(20)
        } else {
            self.random.below(room + 1)
        };
        self.random.bytes(length)
    }

    /// One to four TEPs in random order, one of them mostly the given one.
    pub(super) fn teps(&mut self, wanted: Option<u8>) -> Vec<u8> {
        let mut teps = KNOWN.to_vec();
        for i in (1..4).rev() {
            let other = self.random.below(i + 1);
            teps.swap(i, other);
        }
        let length = self.random.from(1, 4);
        teps.truncate(length);
        if let Some(tep) = wanted.filter(|tep| !teps.contains(tep)) {
            if self.random.chance(85) {
                teps[0] = tep;
            }
        }
        teps
    }

    pub(super) fn nonce(&mut self) -> Vec<u8> {
        let length = self.random.below(9);
        self.random.bytes(length)
    }

    fn offer(&mut self, end: End, b: u8, wanted: Option<u8>) -> Result<Told, String> {
        let aware = self.random.chance(50);
        let call = Call::Offer {
            door: end.door,
            b: if self.random.chance(95) { b } else { 1 - b },
            aware,
            mandatory: aware && self.random.chance(20),
            teps: self.teps(wanted),
            resume: self.random.chance(80),
            nonce: self.nonce(),
            out: self.buffer(24),
        };
        self.call(end.unit, call)
    }

    fn answer(&mut self, end: End, area: Vec<u8>, wanted: Option<u8>) -> Result<Told, String> {
        let aware = self.random.chance(50);
        let call = Call::Answer {
            door: end.door,
            area,
            aware,
            mandatory: aware && self.random.chance(20),
            teps: self.teps(wanted),
            nonce: self.nonce(),
            out: self.buffer(24),
        };
        self.call(end.unit, call)
    }

    fn receive(&mut self, end: End, syn: bool, ack: bool, area: Vec<u8>) -> Result<Told, String> {
        let call = Call::Receive {
            door: end.door,
            syn,
            ack,
            area,
        };
        self.call(end.unit, call)
    }

    /// What an option made up for a door may quote; sometimes it is what another door holds.
    pub(super) fn quotes(&mut self, to: End) -> Vec<Quote> {
        let mut door = to.door;
        if door >= DOORS || self.random.chance(30) {
            door = self.random.below(DOORS);
        }
        self.seen[to.unit][door].quotes()
    }

    /// The area of a SYN on its way to `to`: mostly the option that the other end wrote, sometimes damaged or made up.
    fn deliver(&mut self, written: &Option<Vec<u8>>, to: End) -> Vec<u8> {
        let quotes = self.quotes(to);
        let chance = self.random.below(100);
        match written {
            Some(option) if chance < 75 => wrap(&mut self.random, option),
            Some(option) if chance < 85 => damaged(&mut self.random, option, &quotes),
            Some(option) if chance < 90 => broken(&mut self.random, option),
            None if chance < 70 => bare(&mut self.random),
            _ => {
                let own = self.at(to).own.clone();
                let b = match own.get(2) {
                    Some(global @ 0..=0x1f) if self.at(to).phase != PhaseNow::Idle => {
                        1 - (global & 1)
                    }
                    Some(_) if self.at(to).phase != PhaseNow::Idle => 1,
                    _ => 0,
                };
                let option = made_up(&mut self.random, b, &quotes);
                wrap(&mut self.random, &option)
            }
        }
    }

    /// The next step of a link; true when it is over.
    fn advance(&mut self, link: &mut Link) -> Result<bool, String> {
        let [a, b] = link.ends;
        let wanted = link.record.as_ref().map(|record| record.tep);
        link.stage += 1;
        match (link.stage, link.crossed) {
            (1, _) => {
                while self.random.chance(50) && !self.at(a).held.is_empty() {
                    self.forget_oldest(a)?;
                }
                while self.random.chance(50) && !self.at(b).held.is_empty() {
                    self.forget_oldest(b)?;
                }
                if self.random.chance(80) {
                    let record = self.new_record();
                    self.store(a, &record)?;
                    link.record = Some(record);
                }
            }
            (2, _) => {
                if let Some(record) = &link.record {
                    if self.random.chance(95) {
                        let role = 1 - record.role;
                        let record = Record {
                            role,
                            ..record.clone()
                        };
                        if self.random.chance(25) {
                            // Another record that expects the same half.
                            let mut twin = record.clone();
                            twin.identifier[if role == 0 { 0 } else { 9 }] ^= 1;
                            twin.secret = self.random.array();
                            self.store(b, &twin)?;
                        }
                        self.store(b, &record)?;
                    }
                }
            }
            (3, _) | (4, true) => {
                let side = link.stage - 3;
                let told = self.offer(link.ends[side], side as u8, wanted)?;
                match told.reply {
                    Reply::Written(length) => {
                        link.written[side] = Some(told.buffer[..length].to_vec());
                    }
                    Reply::Refused(5) => link.stage -= 1,
                    _ => {}
                }
            }
            (4, false) => {
                let area = self.deliver(&link.written[0], b);
                let told = self.answer(b, area, wanted)?;
                match told.reply {
                    Reply::Written(length) => {
                        link.written[1] = Some(told.buffer[..length].to_vec());
                    }
                    Reply::Refused(2 | 5) => link.stage -= 1,
                    _ => {}
                }
            }
            (5, true) | (6, true) => {
                let side = link.stage - 5;
                if self.random.chance(92) {
                    let area = self.deliver(&link.written[1 - side], link.ends[side]);
                    self.receive(link.ends[side], true, false, area)?;
                }
            }
            (5, false) => {
                if self.random.chance(25) {
                    self.resend(a)?;
                }
            }
            (6, false) => {
                if self.random.chance(30) {
                    let area = self.deliver(&link.written[0], b);
                    self.receive(b, true, false, area)?;
                }
            }
            (7, _) | (8, true) => {
                let side = link.stage - 7;
                let syn = !link.crossed || self.random.chance(70);
                let area = self.deliver(&link.written[1 - side], link.ends[side]);
                self.receive(link.ends[side], syn, true, area)?;
            }
            (8, false) => {
                let phase = self.at(a).phase;
                let area = match phase {
                    PhaseNow::Open if self.random.chance(80) => wrap(&mut self.random, &[0x45, 2]),
                    PhaseNow::Open => self.deliver(&link.written[0], b),
                    _ => bare(&mut self.random),
                };
                self.receive(b, false, true, area)?;
            }
            (9, _) | (10, _) => {
                let end = link.ends[link.stage - 9];
                let out = self.buffer(80);
                let told = self.call(
                    end.unit,
                    Call::Result {
                        door: end.door,
                        out,
                    },
                )?;
                if told.reply == Reply::Refused(5) {
                    link.stage -= 1;
                }
            }
            (stage, _) => {
                let end = link.ends[stage - 11];
                self.call(end.unit, Call::Close { door: end.door })?;
                return Ok(stage == 12);
            }
        }
        Ok(false)
    }

    fn forget_oldest(&mut self, end: End) -> Result<Told, String> {
        let record = self.at(end).held[0].clone();
        let call = Call::Forget {
            door: end.door,
            tep: record.tep,
            identifier: record.identifier.to_vec(),
        };
        self.call(end.unit, call)
    }

    pub(super) fn resend(&mut self, end: End) -> Result<Told, String> {
        let length = self.at(end).own.len();
        let length = match self.random.below(4) {
            0 => length,
            1 => length.saturating_sub(1),
            _ => self.random.below(48),
        };
        let out = self.random.bytes(length);
        self.call(
            end.unit,
            Call::Resend {
                door: end.door,
                out,
            },
        )
    }
}
