//! Demand 3 on pairs of random lists: two lists that are equal once the calls of other doors are struck tell a door the same, and leave
//! it the same records.

use super::alike;
use super::calls::{Record, Reply, Unit};
use super::counts::Counts;
use super::links::Links;
use super::list::{Call, Told};
use super::random::Random;

use door_link::DOORS;

/// What is left of a list: the calls of this door, and each *erase*.
pub fn strike(door: usize, list: &[Call]) -> Vec<Call> {
    let stays = |call: &&Call| call.door().is_none_or(|named| named == door);
    list.iter().filter(stays).cloned().collect()
}

/// The calls of all other doors, those refused with 1 included.
fn others(door: usize, list: &[Call]) -> Vec<Call> {
    let strange = |call: &&Call| call.door().is_some_and(|named| named != door);
    list.iter().filter(strange).cloned().collect()
}

/// Stores that fill all doors but one.
fn fill(door: usize, random: &mut Random) -> Vec<Call> {
    let mut stores = Vec::new();
    for other in (0..DOORS).filter(|other| *other != door) {
        for _ in 0..4 {
            stores.push(Call::Store {
                door: other,
                tep: random.from(0x21, 0x24) as u8,
                role: random.below(2) as u8,
                identifier: random.bytes(18),
                secret: random.bytes(32),
            });
        }
    }
    stores
}

/// Both lists in one, each in its own order.
fn weave(random: &mut Random, kept: Vec<Call>, others: Vec<Call>) -> Vec<Call> {
    let (mut kept, mut others) = (kept.into_iter(), others.into_iter());
    let mut list = Vec::new();
    loop {
        let (k, o) = (kept.len(), others.len());
        if k + o == 0 {
            return list;
        }
        let next = if random.below(k + o) < k {
            kept.next()
        } else {
            others.next()
        };
        list.extend(next);
    }
}

/// Another list that is equal to `list` after striking.
fn partner(random: &mut Random, door: usize, list: &[Call], other: &[Call]) -> Vec<Call> {
    let kept = strike(door, list);
    match random.below(4) {
        0 => kept,
        1 => {
            let mut full = Vec::new();
            full.extend(fill(door, random));
            for call in kept {
                let erased = call == Call::Erase;
                full.push(call);
                if erased {
                    full.extend(fill(door, random));
                }
            }
            full
        }
        2 => weave(random, kept, others(door, other)),
        _ => {
            let mut more = fill(door, random);
            more.extend(others(door, other));
            weave(random, kept, more)
        }
    }
}

fn play<U: Unit>(unit: &mut U, door: usize, list: &[Call]) -> Vec<(Call, Told)> {
    let mut seen = Vec::new();
    for call in list {
        let told = call.on(unit);
        if call.door() == Some(door) {
            seen.push((call.clone(), told));
        }
    }
    seen
}

/// Asks a door of two units the same, and compares.
struct Twins<'a, U> {
    units: [&'a mut U; 2],
    door: usize,
}

impl<U: Unit> Twins<'_, U> {
    fn ask(&mut self, call: Call) -> Result<Told, String> {
        let [one, other] = &mut self.units;
        let told = call.on(*one);
        let second = call.on(*other);
        alike(
            || format!("at the end, door {}: {call:?}", self.door),
            &told,
            &second,
        )?;
        Ok(told)
    }

    /// Brings out all that a door holds and has in hand, by its calls alone: each record is offered, resumed and told.
    fn drain(&mut self, stored: &[Record]) -> Result<usize, String> {
        let door = self.door;
        let out = vec![0xee; 96];
        self.ask(Call::Count { door })?;
        self.ask(Call::Resend {
            door,
            out: out.clone(),
        })?;
        self.ask(Call::Result {
            door,
            out: out.clone(),
        })?;
        self.ask(Call::Close { door })?;
        for drained in 0.. {
            let told = self.ask(Call::Offer {
                door,
                b: 0,
                aware: false,
                mandatory: false,
                teps: vec![0x21, 0x22, 0x23, 0x24],
                resume: true,
                nonce: Vec::new(),
                out: out.clone(),
            })?;
            let Reply::Written(15) = told.reply else {
                return Ok(drained);
            };
            let (byte, half) = (told.buffer[5], &told.buffer[6..15]);
            let fits = |r: &&Record| {
                let sent = if r.role == 0 {
                    &r.identifier[..9]
                } else {
                    &r.identifier[9..]
                };
                byte == r.tep | 0x80 && sent == half
            };
            let record = stored
                .iter()
                .find(fits)
                .ok_or("a record that was not stored here")?;
            let expected = if record.role == 0 {
                &record.identifier[9..]
            } else {
                &record.identifier[..9]
            };
            let area = [&[0x45, 13, 1, byte][..], expected].concat();
            self.ask(Call::Receive {
                door,
                syn: true,
                ack: true,
                area,
            })?;
            self.ask(Call::Result {
                door,
                out: out.clone(),
            })?;
            self.ask(Call::Close { door })?;
        }
        unreachable!("a door holds four");
    }
}

/// Every record that the list asks this door to store.
fn stored(door: usize, list: &[Call]) -> Vec<Record> {
    let record = |call: &Call| match call {
        Call::Store {
            door: named,
            tep,
            role,
            identifier,
            secret,
        } if *named == door => Some(Record {
            tep: *tep,
            role: *role,
            identifier: identifier[..].try_into().ok()?,
            secret: secret[..].try_into().ok()?,
        }),
        _ => None,
    };
    list.iter().filter_map(record).collect()
}

/// Compares what one door is told in two lists that are equal after striking.
fn compare<U: Unit>(
    make: &impl Fn() -> U,
    door: usize,
    lists: [&[Call]; 2],
    counts: &mut Counts,
) -> Result<(), String> {
    if strike(door, lists[0]) != strike(door, lists[1]) {
        return Err("the lists are not equal after striking".to_string());
    }
    let (mut one, mut other) = (make(), make());
    let first = play(&mut one, door, lists[0]);
    let second = play(&mut other, door, lists[1]);
    for ((call, told), (_, again)) in first.iter().zip(&second) {
        alike(|| format!("door {door}: {call:?}"), told, again)?;
    }
    alike(
        || "calls of the door".to_string(),
        &first.len(),
        &second.len(),
    )?;
    alike(
        || format!("records of door {door}"),
        &one.records(door),
        &other.records(door),
    )?;
    counts.add("calls compared", first.len() as u64);
    counts.add(
        "calls of other doors",
        (lists[0].len() + lists[1].len() - 2 * first.len()) as u64,
    );
    let units = [&mut one, &mut other];
    let drained = Twins { units, door }.drain(&stored(door, lists[0]))?;
    counts.add("records left and brought out", drained as u64);
    counts.meet("pairs of lists");
    Ok(())
}

/// Makes random lists of so many calls in all, and compares pairs made of them.
pub fn isolation<U: Unit>(seed: u64, calls: usize, make: impl Fn() -> U) -> Result<Counts, String> {
    let mut counts = Counts::default();
    let mut random = Random::new(seed);
    let length = calls.min(2_000);
    let list = |seed: u64| -> Result<Vec<Call>, String> {
        let mut links = Links::new(seed, &make, &make);
        links.kept = Some(Vec::new());
        links.run(2 * length)?;
        Ok(links.kept.unwrap_or_default())
    };
    let mut before = list(random.word())?;
    for _ in 0..calls.div_ceil(length) {
        let next = list(random.word())?;
        for _ in 0..4 {
            let door = random.below(DOORS);
            let other = partner(&mut random, door, &next, &before);
            compare(&make, door, [&next, &other], &mut counts)?;
        }
        before = next;
    }
    Ok(counts)
}
