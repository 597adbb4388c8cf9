//! The unit: all doors and one pool of rows, the lowest free row first (document 01, "Records").

use super::door::{Answer, Door, Offer};
use super::records::known;
use crate::driver::calls::{DoorRecords, Record, Reply, Unit};

pub use door_link::{DOORS, ROWS};

pub const EACH: usize = 4;

#[derive(Clone, Debug)]
pub struct Model {
    doors: Vec<Door>,
    rows: Vec<Option<Record>>,
    /// For each door its rows, oldest first.
    lists: Vec<Vec<usize>>,
    /// For each row the door that freed it last.
    freed_by: Vec<Option<usize>>,
    changed_hands: u64,
}

impl Model {
    pub fn new() -> Model {
        Model {
            doors: vec![Door::idle(); DOORS],
            rows: vec![None; ROWS],
            lists: vec![Vec::new(); DOORS],
            freed_by: vec![None; ROWS],
            changed_hands: 0,
        }
    }

    fn held(&self, door: usize) -> Vec<Record> {
        let row = |row: &usize| self.rows[*row].clone().expect("a listed row is in use");
        self.lists[door].iter().map(row).collect()
    }

    fn remove(&mut self, door: usize, place: usize) {
        let row = self.lists[door].remove(place);
        self.rows[row] = None;
        self.freed_by[row] = Some(door);
    }

    fn add(&mut self, door: usize, record: Record) {
        let row = self.rows.iter().position(Option::is_none);
        let row = row.expect("four rows for each door");
        if self.freed_by[row].is_some_and(|other| other != door) {
            self.changed_hands += 1;
        }
        self.rows[row] = Some(record);
        self.lists[door].push(row);
    }
}

impl Unit for Model {
    fn offer(
        &mut self,
        door: usize,
        b: u8,
        aware: bool,
        mandatory: bool,
        teps: &[u8],
        resume: bool,
        nonce: &[u8],
        out: &mut [u8],
    ) -> Reply {
        if door >= DOORS {
            return Reply::Refused(1);
        }
        let ask = Offer {
            b,
            aware,
            mandatory,
            teps,
            resume,
            nonce,
        };
        let held = self.held(door);
        let (reply, taken) = self.doors[door].offer(&held, ask, out);
        if let Some(place) = taken {
            self.remove(door, place);
        }
        reply
    }

    fn answer(
        &mut self,
        door: usize,
        area: &[u8],
        aware: bool,
        mandatory: bool,
        teps: &[u8],
        nonce: &[u8],
        out: &mut [u8],
    ) -> Reply {
        if door >= DOORS {
            return Reply::Refused(1);
        }
        let ask = Answer {
            area,
            aware,
            mandatory,
            teps,
            nonce,
        };
        let held = self.held(door);
        let (reply, taken) = self.doors[door].answer(&held, ask, out);
        if let Some(place) = taken {
            self.remove(door, place);
        }
        reply
    }

    fn receive(&mut self, door: usize, syn: bool, ack: bool, area: &[u8]) -> Reply {
        match self.doors.get_mut(door) {
            Some(door) => door.receive(syn, ack, area),
            None => Reply::Refused(1),
        }
    }

    fn resend(&mut self, door: usize, out: &mut [u8]) -> Reply {
        match self.doors.get(door) {
            Some(door) => door.resend(out),
            None => Reply::Refused(1),
        }
    }

    fn result(&mut self, door: usize, out: &mut [u8]) -> (Reply, [u8; 32]) {
        match self.doors.get(door) {
            Some(door) => door.result(out),
            None => (Reply::Refused(1), [0; 32]),
        }
    }

    fn close(&mut self, door: usize) -> Reply {
        match self.doors.get_mut(door) {
            Some(door) => door.close(),
            None => Reply::Refused(1),
        }
    }

    fn store(&mut self, door: usize, tep: u8, role: u8, identifier: &[u8], secret: &[u8]) -> Reply {
        if door >= DOORS {
            return Reply::Refused(1);
        }
        let (Ok(identifier), Ok(secret), true, 0 | 1) = (
            <[u8; 18]>::try_from(identifier),
            <[u8; 32]>::try_from(secret),
            known(tep),
            role,
        ) else {
            return Reply::Refused(3);
        };
        let mut there = self.held(door);
        if there.len() >= EACH {
            return Reply::Refused(6);
        }
        there.extend(self.doors[door].in_hand.clone());
        if there
            .iter()
            .any(|r| r.tep == tep && r.identifier == identifier)
        {
            return Reply::Refused(7);
        }
        self.add(
            door,
            Record {
                tep,
                role,
                identifier,
                secret,
            },
        );
        Reply::Done
    }

    fn forget(&mut self, door: usize, tep: u8, identifier: &[u8]) -> Reply {
        if door >= DOORS {
            return Reply::Refused(1);
        }
        if !known(tep) || identifier.len() != 18 {
            return Reply::Refused(3);
        }
        let named = |r: &Record| r.tep == tep && r.identifier == identifier;
        match self.held(door).iter().position(named) {
            Some(place) => {
                self.remove(door, place);
                Reply::Done
            }
            None => Reply::Refused(16),
        }
    }

    fn count(&mut self, door: usize) -> Reply {
        match self.lists.get(door) {
            Some(list) => Reply::Count(list.len()),
            None => Reply::Refused(1),
        }
    }

    fn erase(&mut self) -> Reply {
        let changed_hands = self.changed_hands;
        *self = Model::new();
        self.changed_hands = changed_hands;
        Reply::Done
    }

    fn records(&self, door: usize) -> Option<DoorRecords> {
        Some(DoorRecords {
            held: self.held(door),
            in_hand: self.doors[door].in_hand.clone(),
        })
    }

    fn rows_changed_hands(&self) -> u64 {
        self.changed_hands
    }
}

mod tests {
    use super::*;
    use crate::driver::calls::{Cause, PhaseNow};
    use crate::model::{hex, record_r};

    fn store(unit: &mut Model, door: usize, record: &Record) -> Reply {
        unit.store(
            door,
            record.tep,
            record.role,
            &record.identifier,
            &record.secret,
        )
    }

    fn numbered(n: u8) -> Record {
        Record {
            identifier: [n; 18],
            ..record_r()
        }
    }

    #[test]
    fn the_last_door_and_the_fifth_record() {
        let mut unit = Model::new();
        assert_eq!(unit.count(DOORS - 1), Reply::Count(0));
        assert_eq!(unit.close(DOORS), Reply::Refused(1));
        assert_eq!(unit.count(usize::MAX), Reply::Refused(1));
        for n in 0..4 {
            assert_eq!(store(&mut unit, DOORS - 1, &numbered(n)), Reply::Done);
        }
        assert_eq!(store(&mut unit, DOORS - 1, &numbered(9)), Reply::Refused(6));
        assert_eq!(store(&mut unit, DOORS - 1, &numbered(0)), Reply::Refused(6));
        assert_eq!(unit.count(DOORS - 1), Reply::Count(4));
        assert_eq!(store(&mut unit, DOORS, &numbered(0)), Reply::Refused(1));
    }

    #[test]
    fn store_and_forget_in_their_order() {
        let mut unit = Model::new();
        let r = record_r();
        assert_eq!(
            unit.store(0, 0xa3, 0, &r.identifier, &r.secret),
            Reply::Refused(3)
        );
        assert_eq!(
            unit.store(0, 0x23, 2, &r.identifier, &r.secret),
            Reply::Refused(3)
        );
        assert_eq!(
            unit.store(0, 0x23, 0, &r.identifier[1..], &r.secret),
            Reply::Refused(3)
        );
        assert_eq!(
            unit.store(0, 0x23, 0, &r.identifier, &r.secret[1..]),
            Reply::Refused(3)
        );
        assert_eq!(store(&mut unit, 0, &r), Reply::Done);
        assert_eq!(
            unit.store(0, 0x23, 1, &r.identifier, &[0; 32]),
            Reply::Refused(7)
        );
        assert_eq!(
            unit.store(0, 0x24, 0, &r.identifier, &r.secret),
            Reply::Done
        );
        assert_eq!(store(&mut unit, 1, &r), Reply::Done);
        assert_eq!(unit.forget(0, 0x25, &r.identifier), Reply::Refused(3));
        assert_eq!(unit.forget(0, 0x23, &r.identifier[1..]), Reply::Refused(3));
        assert_eq!(unit.forget(0, 0x21, &r.identifier), Reply::Refused(16));
        assert_eq!(unit.forget(2, 0x23, &r.identifier), Reply::Refused(16));
        assert_eq!(unit.forget(0, 0x23, &r.identifier), Reply::Done);
        assert_eq!(unit.forget(0, 0x23, &r.identifier), Reply::Refused(16));
    }

    #[test]
    fn a_record_in_hand_is_not_held() {
        let mut unit = Model::new();
        for n in 0..4 {
            store(&mut unit, 5, &numbered(n));
        }
        let offer =
            |unit: &mut Model| unit.offer(5, 0, false, false, &[0x23], true, &[], &mut [0; 40]);
        assert_eq!(offer(&mut unit), Reply::Written(12));
        assert_eq!(unit.count(5), Reply::Count(3));
        assert_eq!(store(&mut unit, 5, &numbered(0)), Reply::Refused(7));
        assert_eq!(unit.forget(5, 0x23, &[0; 18]), Reply::Refused(16));
        assert_eq!(store(&mut unit, 5, &numbered(8)), Reply::Done);
        assert_eq!(offer(&mut unit), Reply::Refused(4));
        unit.close(5);
        assert_eq!(unit.forget(5, 0x23, &[8; 18]), Reply::Done);
        assert_eq!(store(&mut unit, 5, &numbered(0)), Reply::Done);
        assert_eq!(unit.rows_changed_hands(), 0);
    }

    #[test]
    fn crossed_keeps_the_record_until_a_fresh_open() {
        let mut unit = Model::new();
        store(&mut unit, 0, &record_r());
        unit.offer(0, 0, false, false, &[0x21, 0x23], true, &[], &mut [0; 40]);
        let peer = hex("45 04 01 23");
        assert_eq!(
            unit.receive(0, true, false, &peer),
            Reply::Now(PhaseNow::Crossed)
        );
        assert_eq!(store(&mut unit, 0, &record_r()), Reply::Refused(7));
        assert_eq!(
            unit.receive(0, false, true, &peer),
            Reply::Now(PhaseNow::Open)
        );
        assert_eq!(store(&mut unit, 0, &record_r()), Reply::Done);
    }

    #[test]
    fn one_pool_serves_all_doors_lowest_row_first() {
        let mut unit = Model::new();
        store(&mut unit, 3, &numbered(1));
        store(&mut unit, 4, &numbered(2));
        unit.forget(3, 0x23, &[1; 18]);
        store(&mut unit, 4, &numbered(3));
        assert_eq!(unit.rows_changed_hands(), 1);
        assert_eq!(unit.lists[4], [1, 0]);
        assert_eq!(
            unit.records(4).expect("a look inside").held,
            [numbered(2), numbered(3)]
        );
        unit.erase();
        assert_eq!(unit.count(4), Reply::Count(0));
    }

    #[test]
    fn all_doors_full() {
        let mut unit = Model::new();
        for n in 0..4 {
            for door in 0..DOORS {
                assert_eq!(store(&mut unit, door, &numbered(n)), Reply::Done);
            }
        }
        for door in 0..DOORS {
            assert_eq!(store(&mut unit, door, &numbered(7)), Reply::Refused(6));
        }
    }

    #[test]
    fn refusals_lowest_first() {
        let mut unit = Model::new();
        let out = &mut [0; 40][..];
        assert_eq!(
            unit.offer(DOORS, 2, false, true, &[], true, &[0; 9], out),
            Reply::Refused(1)
        );
        assert_eq!(
            unit.offer(0, 0, false, true, &[0x23], false, &[], out),
            Reply::Refused(3)
        );
        assert_eq!(
            unit.offer(0, 0, false, false, &[0x23], false, &[0; 9], out),
            Reply::Refused(3)
        );
        assert_eq!(
            unit.offer(0, 2, false, false, &[0x23], false, &[], out),
            Reply::Refused(3)
        );
        assert_eq!(
            unit.answer(0, &[1; 41], false, false, &[], &[], out),
            Reply::Refused(2)
        );
        assert_eq!(
            unit.answer(0, &[], false, false, &[0x23, 0x23], &[], out),
            Reply::Refused(3)
        );
        assert_eq!(
            unit.answer(0, &[], false, false, &[0x23], &[], &mut []),
            Reply::Plain(Cause::bare(2))
        );
        assert_eq!(
            unit.offer(0, 0, false, false, &[0x23], false, &[], &mut []),
            Reply::Refused(4)
        );
        assert_eq!(
            unit.offer(0, 0, false, false, &[0x25], false, &[], &mut []),
            Reply::Refused(3)
        );
        assert_eq!(unit.result(0, &mut []).0, Reply::Plain(Cause::bare(2)));
        assert_eq!(unit.resend(0, out), Reply::Refused(4));
        unit.close(0);
        assert_eq!(unit.result(0, out).0, Reply::Refused(4));
        assert_eq!(unit.receive(0, true, false, &[]), Reply::Refused(4));
    }
}
