//! Small cases in full: every option of at most two bytes after its length, received in a SYN and in a SYN+ACK, every area of at most two bytes; and
//! a pool in which every row is taken, freed and taken again.

use super::alike;
use super::calls::{Finder, Reply, Unit};
use super::counts::Counts;
use super::list::{Call, Told};

use door_link::DOORS;
const TEPS: [u8; 4] = [0x24, 0x21, 0x23, 0x22];

/// Two implementations that get the same calls.
pub(super) struct Pair<R, T> {
    reference: R,
    tested: T,
    pub counts: Counts,
}

impl<R: Unit, T: Unit> Pair<R, T> {
    pub fn new(reference: R, tested: T) -> Pair<R, T> {
        let counts = Counts::default();
        Pair {
            reference,
            tested,
            counts,
        }
    }

    pub fn call(&mut self, call: Call) -> Result<Told, String> {
        let told = call.on(&mut self.reference);
        let other = call.on(&mut self.tested);
        alike(|| format!("{call:?}"), &told, &other)?;
        call.check(&told)?;
        self.counts.meet("calls");
        if let Reply::Refused(number) = told.reply {
            self.counts.refusal(number);
        }
        Ok(told)
    }

    pub fn result_and_close(&mut self, door: usize) -> Result<(), String> {
        let told = self.call(Call::Result {
            door,
            out: vec![0xee; 80],
        })?;
        match told.reply {
            Reply::Plain(cause) => self.counts.cause(cause),
            Reply::Open { resumed: true, .. } => self.counts.meet("resumed open"),
            Reply::Open { resumed: false, .. } => self.counts.meet("fresh open"),
            _ => {}
        }
        self.call(Call::Close { door })?;
        Ok(())
    }

    /// The option in a SYN to a door that is Idle.
    fn answer(&mut self, area: &[u8], aware: bool) -> Result<(), String> {
        let (door, out) = (3, vec![0xee; 24]);
        self.call(Call::Answer {
            door,
            area: area.to_vec(),
            aware,
            mandatory: aware,
            teps: TEPS.to_vec(),
            nonce: Vec::new(),
            out,
        })?;
        let bare = vec![0x45, 2];
        self.call(Call::Receive {
            door,
            syn: false,
            ack: true,
            area: bare,
        })?;
        self.result_and_close(door)
    }

    /// The option in a SYN+ACK, or in a SYN that crosses, to a door that is Offered.
    fn receive(&mut self, area: &[u8], ack: bool) -> Result<(), String> {
        let (door, out) = (20, vec![0xee; 24]);
        self.call(Call::Offer {
            door,
            b: u8::from(!ack),
            aware: ack,
            mandatory: false,
            teps: TEPS.to_vec(),
            resume: true,
            nonce: Vec::new(),
            out,
        })?;
        for ack in [ack, true] {
            self.call(Call::Receive {
                door,
                syn: true,
                ack,
                area: area.to_vec(),
            })?;
        }
        self.result_and_close(door)
    }
}

/// Every string of at most two bytes.
pub fn strings() -> impl Iterator<Item = Vec<u8>> {
    let byte = || 0..=255u8;
    let one = byte().map(|first| vec![first]);
    let two = byte().flat_map(move |first| byte().map(move |second| vec![first, second]));
    std::iter::once(Vec::new()).chain(one).chain(two)
}

/// Every option of at most two bytes after its length.
pub fn options<R: Unit, T: Unit>(reference: R, tested: T) -> Result<Counts, String> {
    let mut pair = Pair::new(reference, tested);
    for bytes in strings() {
        let area = [&[0x45, 2 + bytes.len() as u8][..], &bytes].concat();
        for flag in [false, true] {
            pair.answer(&area, flag)?;
            pair.receive(&area, flag)?;
        }
    }
    Ok(pair.counts)
}

/// Every area of at most two bytes, alone, before an ENO option and behind one.
pub fn areas<R: Finder, T: Finder>(reference: &R, tested: &T) -> Result<usize, String> {
    let mut calls = 0;
    for bytes in strings() {
        let before = [&bytes[..], &[0x45, 2]].concat();
        let behind = [&[0x45, 2], &bytes[..]].concat();
        for area in [bytes, before, behind] {
            for syn in [false, true] {
                let one = reference.find_status(&area, syn);
                let other = tested.find_status(&area, syn);
                alike(|| format!("syn {syn} {area:02x?}"), &one, &other)?;
                calls += 1;
            }
        }
    }
    Ok(calls)
}

/// Fills the pool, frees rows in an order that mixes the doors, fills it again, and brings out every record.
pub fn pool<R: Unit, T: Unit>(reference: R, tested: T) -> Result<Counts, String> {
    let mut pair = Pair::new(reference, tested);
    let identifier = |door: usize, n: usize| {
        let mut identifier = vec![n as u8; 18];
        identifier[4] = door as u8;
        identifier
    };
    let store = |door: usize, n: usize| Call::Store {
        door,
        tep: TEPS[(door + n) % 4],
        role: (n % 2) as u8,
        identifier: identifier(door, n),
        secret: vec![(door * 8 + n) as u8; 32],
    };
    for n in 0..5 {
        for door in 0..=DOORS {
            pair.call(store(door, n))?;
        }
    }
    for turn in 0..DOORS * 4 {
        let (door, n) = ((turn * 7) % DOORS, (turn * 5 + turn / DOORS) % 4);
        pair.call(Call::Forget {
            door,
            tep: TEPS[(door + n) % 4],
            identifier: identifier(door, n),
        })?;
        pair.call(Call::Count { door })?;
        if turn % 3 == 0 {
            pair.call(store((turn * 11) % DOORS, 4 + turn % 5))?;
        }
    }
    for n in 10..15 {
        for door in (0..DOORS).rev() {
            pair.call(store(door, n))?;
        }
    }
    for door in 0..DOORS {
        for _ in 0..5 {
            let told = pair.call(Call::Offer {
                door,
                b: 0,
                aware: false,
                mandatory: false,
                teps: TEPS.to_vec(),
                resume: true,
                nonce: Vec::new(),
                out: vec![0xee; 24],
            })?;
            if told.reply == Reply::Written(15) {
                pair.counts.meet("records brought out");
            }
            let half = &told.buffer[6..15];
            // Of an identifier whose bytes are equal but for the door's, the other half is known.
            let mut expected = vec![half[0]; 9];
            if half[4] == half[0] {
                expected[4] = door as u8;
            }
            let area = [&[0x45, 13, 1, told.buffer[5]][..], &expected].concat();
            pair.call(Call::Receive {
                door,
                syn: true,
                ack: true,
                area,
            })?;
            pair.result_and_close(door)?;
        }
        pair.call(Call::Count { door })?;
    }
    Ok(pair.counts)
}
