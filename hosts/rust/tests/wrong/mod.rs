//! Units that are wrong in one thing each: the driver must see it.

mod pieces;
mod wire;

use crate::driver::calls::{Cause, DoorRecords, PhaseNow, Reply, Unit};
use crate::driver::isolation::isolation;
use crate::driver::links::Links;
use crate::driver::list::{Call, Told};
use crate::driver::seen::halves;
use crate::model::Model;
use door_link::DOORS;

/// What such a unit does with a call; the model does the rest.
type Ways = fn(&mut Model, Call) -> Told;

struct Wrong {
    model: Model,
    ways: Ways,
}

impl Wrong {
    fn told(&mut self, call: Call, out: &mut [u8]) -> Told {
        let told = (self.ways)(&mut self.model, call);
        out.copy_from_slice(&told.buffer);
        told
    }
}

impl Unit for Wrong {
    fn offer(
        &mut self,
        door: usize,
        b: u8,
        aware: bool,
        mandatory: bool,
        teps: &[u8],
        resume: bool,
        nonce: &[u8],
        out: &mut [u8],
    ) -> Reply {
        let call = Call::Offer {
            door,
            b,
            aware,
            mandatory,
            teps: teps.to_vec(),
            resume,
            nonce: nonce.to_vec(),
            out: out.to_vec(),
        };
        self.told(call, out).reply
    }

    fn answer(
        &mut self,
        door: usize,
        area: &[u8],
        aware: bool,
        mandatory: bool,
        teps: &[u8],
        nonce: &[u8],
        out: &mut [u8],
    ) -> Reply {
        let call = Call::Answer {
            door,
            area: area.to_vec(),
            aware,
            mandatory,
            teps: teps.to_vec(),
            nonce: nonce.to_vec(),
            out: out.to_vec(),
        };
        self.told(call, out).reply
    }

    fn receive(&mut self, door: usize, syn: bool, ack: bool, area: &[u8]) -> Reply {
        let call = Call::Receive {
            door,
            syn,
            ack,
            area: area.to_vec(),
        };
        self.told(call, &mut []).reply
    }

    fn resend(&mut self, door: usize, out: &mut [u8]) -> Reply {
        let call = Call::Resend {
            door,
            out: out.to_vec(),
        };
        self.told(call, out).reply
    }

    fn result(&mut self, door: usize, out: &mut [u8]) -> (Reply, [u8; 32]) {
        let call = Call::Result {
            door,
            out: out.to_vec(),
        };
        let told = self.told(call, out);
        (told.reply, told.secret.unwrap_or_default())
    }

    fn close(&mut self, door: usize) -> Reply {
        self.told(Call::Close { door }, &mut []).reply
    }

    fn store(&mut self, door: usize, tep: u8, role: u8, identifier: &[u8], secret: &[u8]) -> Reply {
        let call = Call::Store {
            door,
            tep,
            role,
            identifier: identifier.to_vec(),
            secret: secret.to_vec(),
        };
        self.told(call, &mut []).reply
    }

    fn forget(&mut self, door: usize, tep: u8, identifier: &[u8]) -> Reply {
        let call = Call::Forget {
            door,
            tep,
            identifier: identifier.to_vec(),
        };
        self.told(call, &mut []).reply
    }

    fn count(&mut self, door: usize) -> Reply {
        self.told(Call::Count { door }, &mut []).reply
    }

    fn erase(&mut self) -> Reply {
        self.told(Call::Erase, &mut []).reply
    }

    fn records(&self, door: usize) -> Option<DoorRecords> {
        self.model.records(door)
    }
}

/// Writes one byte more than it says.
fn writes_past(unit: &mut Model, call: Call) -> Told {
    let mut told = call.on(unit);
    if let Reply::Written(length) = told.reply {
        if let Some(byte) = told.buffer.get_mut(length) {
            *byte ^= 1;
        }
    }
    told
}

/// Looks at a nonce's length only where it is sent.
fn long_nonce(unit: &mut Model, mut call: Call) -> Told {
    if let Call::Offer {
        resume: false,
        nonce,
        ..
    } = &mut call
    {
        nonce.clear();
    }
    call.on(unit)
}

/// Takes the low byte of a door's number.
fn low_byte(unit: &mut Model, mut call: Call) -> Told {
    if let Call::Count { door } = &mut call {
        *door %= 256;
    }
    call.on(unit)
}

/// Looks at an area's length only where it is read.
fn long_area(unit: &mut Model, mut call: Call) -> Told {
    if let Call::Receive { door, area, .. } = &mut call {
        if matches!(unit.result(*door, &mut [0; 80]).0, Reply::Open { .. }) {
            area.truncate(40);
        }
    }
    call.on(unit)
}

/// Refuses a segment without SYN and ACK when the door is Plain.
fn neither_is_refused(unit: &mut Model, call: Call) -> Told {
    let mut told = call.on(unit);
    if let (
        Call::Receive {
            syn: false,
            ack: false,
            ..
        },
        Reply::Now(PhaseNow::Plain(_)),
    ) = (&call, told.reply)
    {
        told.reply = Reply::Refused(4);
    }
    told
}

/// Asks for room although it ends in Plain.
fn room_for_plain(unit: &mut Model, call: Call) -> Told {
    let mut told = call.on(unit);
    if matches!(told.reply, Reply::Plain(_)) && told.buffer.len() < 4 {
        told.reply = Reply::Refused(5);
    }
    told
}

/// Gives the place of the length byte, wherever it gives a place.
fn place_of_the_length_byte(unit: &mut Model, call: Call) -> Told {
    let mut told = call.on(unit);
    if let Reply::Plain(cause) | Reply::Now(PhaseNow::Plain(cause)) = &mut told.reply {
        cause.place += u8::from(cause.reason == 1);
    }
    told
}

/// Gives no kind when it is asked for the result.
fn result_without_kind(unit: &mut Model, call: Call) -> Told {
    let mut told = call.on(unit);
    if let (Call::Result { .. }, Reply::Plain(cause)) = (&call, &mut told.reply) {
        cause.kind = 0;
    }
    told
}

/// Counts the record in hand.
fn counts_hand(unit: &mut Model, call: Call) -> Told {
    let mut told = call.on(unit);
    if let (Call::Count { door }, Reply::Count(number)) = (&call, &mut told.reply) {
        *number += usize::from(unit.records(*door).is_some_and(|r| r.in_hand.is_some()));
    }
    told
}

/// Forgets by the identifier alone.
fn forgets_any_tep(unit: &mut Model, call: Call) -> Told {
    if let Call::Forget {
        door, identifier, ..
    } = &call
    {
        for tep in 0x21..=0x24 {
            let told = Call::Forget {
                door: *door,
                tep,
                identifier: identifier.clone(),
            }
            .on(unit);
            if told.reply == Reply::Done {
                return told;
            }
        }
    }
    call.on(unit)
}

/// Puts a record back when the door is closed.
fn puts_back(unit: &mut Model, call: Call) -> Told {
    let mut back = None;
    if let Call::Close {
        door: door @ 0..DOORS,
    } = call
    {
        back = unit
            .records(door)
            .and_then(|r| r.in_hand)
            .map(|r| (door, r));
    }
    let told = call.on(unit);
    if let Some((door, r)) = back {
        unit.store(door, r.tep, r.role, &r.identifier, &r.secret);
    }
    told
}

/// Takes a SYN that is out of turn for a SYN+ACK.
fn any_syn(unit: &mut Model, call: Call) -> Told {
    let told = call.on(unit);
    match (call, told.reply) {
        (
            Call::Receive {
                door,
                syn: true,
                area,
                ..
            },
            Reply::Refused(4),
        ) => {
            let call = Call::Receive {
                door,
                syn: true,
                ack: true,
                area,
            };
            call.on(unit)
        }
        _ => told,
    }
}

/// Searches the whole pool for a half, so that one door resumes another's session record.
fn searches_pool(unit: &mut Model, call: Call) -> Told {
    if let Call::Answer { door, area, .. } = &call {
        for other in (0..DOORS).filter(|other| *door < DOORS && other != door) {
            let held = unit
                .records(other)
                .map_or(Vec::new(), |records| records.held);
            for r in held {
                let quoted = area.windows(9).any(|part| part == halves(&r).1);
                let stored = quoted
                    && unit.store(*door, r.tep, r.role, &r.identifier, &r.secret) == Reply::Done;
                if stored {
                    unit.forget(other, r.tep, &r.identifier);
                }
            }
        }
    }
    call.on(unit)
}

/// Gives another reason for Plain while some other door is full.
fn tells_of_others(unit: &mut Model, call: Call) -> Told {
    let mut told = call.on(unit);
    if let (Call::Answer { door, .. }, Reply::Plain(Cause { reason: 6, .. })) = (&call, told.reply)
    {
        let full = |other| unit.records(other).is_some_and(|r| r.held.len() == 4);
        if (0..DOORS).any(|other| other != *door && full(other)) {
            told.reply = Reply::Plain(Cause::bare(5));
        }
    }
    told
}

/// Leaves in the lent buffer what another door's offer left.
fn passes_bytes_on(unit: &mut Model, call: Call) -> Told {
    let mut told = call.on(unit);
    if let (Call::Resend { door, .. }, Reply::Written(length)) = (&call, told.reply) {
        let others = (0..DOORS).filter(|other| other != door);
        let held = others.flat_map(|other| unit.records(other).map(|r| r.held.len()));
        if let Some(byte) = told.buffer[..length].last_mut() {
            *byte ^= held.sum::<usize>() as u8;
        }
    }
    told
}

/// Some need a rare call, so that a few seeds are tried.
fn seen_by_links(ways: Ways) -> bool {
    let wrong = || Wrong {
        model: Model::new(),
        ways,
    };
    (1..=8).any(|seed| Links::new(seed, Model::new, wrong).run(100_000).is_err())
}

#[test]
fn a_wrong_unit_is_seen() {
    let all: [(&str, Ways); 13] = [
        ("writes past", writes_past),
        ("long nonce", long_nonce),
        ("low byte", low_byte),
        ("long area", long_area),
        ("neither is refused", neither_is_refused),
        ("room for Plain", room_for_plain),
        ("place of the length byte", place_of_the_length_byte),
        ("result without kind", result_without_kind),
        ("counts hand", counts_hand),
        ("forgets any TEP", forgets_any_tep),
        ("puts back", puts_back),
        ("any SYN", any_syn),
        ("searches the pool", searches_pool),
    ];
    for (name, ways) in all {
        assert!(seen_by_links(ways), "{name}");
    }
}

#[test]
fn a_unit_that_tells_of_other_doors_is_seen() {
    let all: [(&str, Ways); 2] = [
        ("tells of others", tells_of_others),
        ("passes bytes on", passes_bytes_on),
    ];
    for (name, ways) in all {
        let wrong = || Wrong {
            model: Model::new(),
            ways,
        };
        let itself = Links::new(1, wrong, wrong).run(20_000);
        assert!(
            itself.is_ok(),
            "{name} is not to be seen without a second list: {itself:?}"
        );
        assert!(isolation(1, 40_000, wrong).is_err(), "{name}");
    }
}
