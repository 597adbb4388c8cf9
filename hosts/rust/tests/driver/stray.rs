//! Calls that belong to no connection's course: any door, any phase, good and bad arguments.

use super::calls::{Record, Unit};
use super::links::{End, Links, DOORS, KNOWN};
use super::list::Call;
use super::options::{damaged, made_up, wrap};
use super::seen::halves;

impl<R: Unit, T: Unit> Links<R, T> {
    /// A door number that no door has, and low bits that one might have.
    fn no_door(&mut self) -> usize {
        let door = self.random.below(DOORS);
        let shift = self.random.pick(&[8, 16, 32, 63]);
        let far = self.random.word() as usize | 1 << 40;
        self.random.pick(&[
            DOORS,
            DOORS + 1,
            DOORS + door,
            255,
            usize::MAX,
            far,
            1 << shift | door,
        ])
    }

    /// A call that does not belong to a link's course, with good and bad arguments.
    pub(super) fn stray(&mut self) -> Result<(), String> {
        if self.random.chance(4) {
            return self.misdirected();
        }
        let unit = self.random.below(2);
        let door = if self.random.chance(5) {
            self.no_door()
        } else {
            self.random.below(DOORS)
        };
        let end = End { unit, door };
        // Calls that would end a link mostly spare its doors.
        let spared = door < DOORS && self.at(end).busy && self.random.chance(80);
        let call = match self.random.below(100) {
            0..=17 => self.stray_store(end),
            18..=29 => self.stray_forget(end),
            30..=39 => Call::Count { door },
            40..=47 => {
                let length = self.random.below(90);
                let out = self.random.bytes(length);
                Call::Result { door, out }
            }
            48..=53 if door < DOORS => {
                self.resend(end)?;
                return Ok(());
            }
            48..=53 => Call::Resend {
                door,
                out: self.random.bytes(40),
            },
            54..=61 if !spared => self.stray_offer(door),
            62..=71 if !spared => self.stray_answer(end),
            72..=84 if !spared => {
                let quotes = self.quotes(end);
                let b = self.random.below(2) as u8;
                let option = made_up(&mut self.random, b, &quotes);
                Call::Receive {
                    door,
                    syn: self.random.chance(50),
                    ack: self.random.chance(50),
                    area: damaged(&mut self.random, &option, &quotes),
                }
            }
            85..=94 if !spared => Call::Close { door },
            95 if self.random.chance(5) => Call::Erase,
            _ => Call::Count { door },
        };
        self.call(unit, call)?;
        Ok(())
    }

    /// A resumption meant for one door that comes to another, free door.
    fn misdirected(&mut self) -> Result<(), String> {
        let unit = self.random.below(2);
        let door = self.random.below(DOORS);
        let other = match self.random.below(3) {
            0 => (door + 1) % DOORS,
            1 => (door + DOORS - 1) % DOORS,
            _ => self.random.below(DOORS),
        };
        let held = self.seen[unit][other].held.clone();
        if held.is_empty() || other == door || self.at(End { unit, door }).busy {
            return Ok(());
        }
        let record = self.random.pick(&held);
        let (_, expected) = halves(&record);
        let option = [&[0x45, 12, record.tep | 0x80][..], &expected].concat();
        let call = Call::Answer {
            door,
            area: wrap(&mut self.random, &option),
            aware: false,
            mandatory: false,
            teps: self.teps(Some(record.tep)),
            nonce: self.nonce(),
            out: self.random.bytes(40),
        };
        self.call(unit, Call::Close { door })?;
        self.call(unit, call)?;
        self.call(unit, Call::Close { door })?;
        Ok(())
    }

    /// A record that exists somewhere: at this door, in its hand, at another door, or one long gone.
    fn some_record(&mut self, end: End) -> Record {
        let chance = self.random.below(100);
        if end.door < DOORS {
            let seen = &self.seen[end.unit][end.door];
            if let (Some(record), true) = (&seen.in_hand, chance < 25) {
                return record.clone();
            }
            if !seen.held.is_empty() && chance < 70 {
                let held = seen.held.clone();
                return self.random.pick(&held);
            }
        }
        if self.known.is_empty() || chance > 90 {
            return self.new_record();
        }
        let known = self.known.clone();
        self.random.pick(&known)
    }

    fn stray_store(&mut self, end: End) -> Call {
        let mut record = if self.random.chance(50) {
            self.new_record()
        } else {
            self.some_record(end)
        };
        match self.random.below(8) {
            0 => record.role = self.random.below(2) as u8,
            1 => record.secret = self.random.array(),
            2 => record.tep = self.random.pick(&KNOWN),
            3 => {
                // The same expected half, another one sent.
                let place = if record.role == 0 { 0 } else { 9 };
                record.identifier[place] ^= 1;
            }
            _ => {}
        }
        let mut identifier = record.identifier.to_vec();
        let mut secret = record.secret.to_vec();
        match self.random.below(40) {
            0 => record.role = self.random.from(2, 255) as u8,
            1 => record.tep = self.random.pick(&[0, 0x20, 0x25, 0x7f, 0xa1, 0xa3, 0xff]),
            2 => identifier.truncate(17),
            3 => identifier.push(0),
            4 => secret.truncate(31),
            5 => secret.push(0),
            6 => identifier.clear(),
            _ => {}
        }
        Call::Store {
            door: end.door,
            tep: record.tep,
            role: record.role,
            identifier,
            secret,
        }
    }

    fn stray_forget(&mut self, end: End) -> Call {
        let record = self.some_record(end);
        let mut identifier = record.identifier.to_vec();
        let mut tep = record.tep;
        match self.random.below(20) {
            0 => tep = self.random.pick(&[0, 0x20, 0x25, 0xa3, 0xff]),
            1 => identifier.truncate(17),
            2 => identifier.push(0),
            3 => tep = self.random.pick(&KNOWN),
            4 => identifier[17] ^= 1,
            _ => {}
        }
        Call::Forget {
            door: end.door,
            tep,
            identifier,
        }
    }

    /// A list that may be wrong, and whether awareness is well asked for.
    fn stray_setting(&mut self) -> (Vec<u8>, bool, bool, Vec<u8>) {
        let mut teps = self.teps(None);
        let mut aware = self.random.chance(50);
        let mut mandatory = aware && self.random.chance(30);
        let mut nonce = self.nonce();
        match self.random.below(16) {
            0 => teps.clear(),
            1 => teps = vec![0x21, 0x22, 0x23, 0x24, 0x21],
            2 => teps.push(teps[0]),
            3 => teps[0] = self.random.pick(&[0, 0x20, 0x25, 0x7f, 0xa3, 0xff]),
            4 => (aware, mandatory) = (false, true),
            5 => {
                let length = self.random.from(9, 20);
                nonce = self.random.bytes(length);
            }
            _ => {}
        }
        (teps, aware, mandatory, nonce)
    }

    fn stray_offer(&mut self, door: usize) -> Call {
        let (teps, aware, mandatory, nonce) = self.stray_setting();
        let b = if self.random.chance(90) {
            self.random.below(2) as u8
        } else {
            self.random.byte()
        };
        Call::Offer {
            door,
            b,
            aware,
            mandatory,
            teps,
            resume: self.random.chance(60),
            nonce,
            out: self.buffer(24),
        }
    }

    fn stray_answer(&mut self, end: End) -> Call {
        let (teps, aware, mandatory, nonce) = self.stray_setting();
        let quotes = self.quotes(end);
        let option = made_up(&mut self.random, 0, &quotes);
        let area = if self.random.chance(50) {
            wrap(&mut self.random, &option)
        } else {
            damaged(&mut self.random, &option, &quotes)
        };
        Call::Answer {
            door: end.door,
            area,
            aware,
            mandatory,
            teps,
            nonce,
            out: self.buffer(24),
        }
    }
}
