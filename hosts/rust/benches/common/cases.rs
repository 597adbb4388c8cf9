//! The calls of the unit that are measured: how a door is brought to where the call finds it, and the call.

use crate::driver::calls::{Reply, Unit};

pub use door_link::DOORS;
const TEPS: [u8; 2] = [0x21, 0x23];
const SECRET: [u8; 32] = [0x5a; 32];
/// Host A's first option, and host B's to it.
const SYN: [u8; 4] = [0x45, 4, 0x21, 0x23];
const SYN_ACK: [u8; 4] = [0x45, 4, 0x01, 0x23];
/// With the halves of [`identifier`].
const SYN_RESUMING: [u8; 13] = [0x45, 13, 0x21, 0xa3, 0, 1, 2, 3, 4, 5, 6, 7, 8];
const SYN_ACK_RESUMING: [u8; 13] = [0x45, 13, 0x01, 0xa3, 9, 10, 11, 12, 13, 14, 15, 16, 17];
const NO_ENO: [u8; 4] = [2, 4, 5, 0xb4];
const BARE: [u8; 2] = [0x45, 2];

fn identifier() -> [u8; 18] {
    std::array::from_fn(|place| place as u8)
}

/// A call that is measured, made on each door once; the lent buffer has 80 bytes, and is not cleared in between.
pub struct Case<U> {
    pub name: &'static str,
    pub prepare: fn(&mut U, usize, &mut [u8]),
    pub call: fn(&mut U, usize, &mut [u8]) -> Reply,
}

fn idle<U: Unit>(_: &mut U, _: usize, _: &mut [u8]) {}

fn offer<U: Unit>(unit: &mut U, door: usize, out: &mut [u8]) -> Reply {
    unit.offer(door, 0, false, false, &TEPS, false, &[], out)
}

fn offer_resuming<U: Unit>(unit: &mut U, door: usize, out: &mut [u8]) -> Reply {
    unit.offer(door, 0, false, false, &TEPS, true, &[], out)
}

fn answer<U: Unit>(unit: &mut U, door: usize, out: &mut [u8]) -> Reply {
    unit.answer(door, &SYN, false, false, &TEPS, &[], out)
}

fn store<U: Unit>(unit: &mut U, door: usize, _: &mut [u8]) -> Reply {
    unit.store(door, 0x23, 0, &identifier(), &SECRET)
}

fn result<U: Unit>(unit: &mut U, door: usize, out: &mut [u8]) -> Reply {
    unit.result(door, out).0
}

fn open<U: Unit>(unit: &mut U, door: usize, _: &mut [u8]) -> Reply {
    unit.receive(door, true, true, &SYN_ACK)
}

fn open_resumed<U: Unit>(unit: &mut U, door: usize, _: &mut [u8]) -> Reply {
    unit.receive(door, true, true, &SYN_ACK_RESUMING)
}

fn ack<U: Unit>(unit: &mut U, door: usize, _: &mut [u8]) -> Reply {
    unit.receive(door, false, true, &BARE)
}

fn plain<U: Unit>(unit: &mut U, door: usize, _: &mut [u8]) -> Reply {
    unit.receive(door, true, true, &NO_ENO)
}

fn held<U: Unit>(unit: &mut U, door: usize, out: &mut [u8]) {
    store(unit, door, out);
}

fn held_as_b<U: Unit>(unit: &mut U, door: usize, _: &mut [u8]) {
    unit.store(door, 0x23, 1, &identifier(), &SECRET);
}

fn three<U: Unit>(unit: &mut U, door: usize, _: &mut [u8]) {
    for first in 1..=3 {
        unit.store(door, 0x23, 0, &[first; 18], &SECRET);
    }
}

fn full<U: Unit>(unit: &mut U, door: usize, out: &mut [u8]) {
    three(unit, door, out);
    unit.store(door, 0x23, 0, &[4; 18], &SECRET);
}

fn offered<U: Unit>(unit: &mut U, door: usize, out: &mut [u8]) {
    offer(unit, door, out);
}

fn offered_resuming<U: Unit>(unit: &mut U, door: usize, out: &mut [u8]) {
    store(unit, door, out);
    offer_resuming(unit, door, out);
}

fn crossed<U: Unit>(unit: &mut U, door: usize, out: &mut [u8]) {
    offer(unit, door, out);
    unit.receive(door, true, false, &SYN_ACK);
}

fn answered<U: Unit>(unit: &mut U, door: usize, out: &mut [u8]) {
    answer(unit, door, out);
}

fn opened<U: Unit>(unit: &mut U, door: usize, out: &mut [u8]) {
    offer(unit, door, out);
    open(unit, door, out);
}

fn opened_resumed<U: Unit>(unit: &mut U, door: usize, out: &mut [u8]) {
    offered_resuming(unit, door, out);
    open_resumed(unit, door, out);
}

fn made_plain<U: Unit>(unit: &mut U, door: usize, out: &mut [u8]) {
    offer(unit, door, out);
    plain(unit, door, out);
}

macro_rules! case {
    ($name:literal, $prepare:expr, $call:expr) => {
        Case {
            name: $name,
            prepare: $prepare,
            call: $call,
        }
    };
}

/// All of them, in the order of the table.
pub fn cases<U: Unit>() -> Vec<Case<U>> {
    vec![
        case!("offer, fresh", idle, offer),
        case!("offer, resuming", held, offer_resuming),
        case!("offer, refused 3", idle, |unit, door, out| {
            unit.offer(door, 2, false, false, &TEPS, false, &[], out)
        }),
        case!("offer, refused 4", offered, offer),
        case!("answer, fresh", idle, answer),
        case!("answer, resuming", held_as_b, |unit, door, out| {
            unit.answer(door, &SYN_RESUMING, false, false, &TEPS, &[], out)
        }),
        case!("answer, Plain", idle, |unit, door, out| {
            unit.answer(door, &NO_ENO, false, false, &TEPS, &[], out)
        }),
        case!("answer, refused 4", offered, answer),
        case!("receive, Offered to Open, fresh", offered, open),
        case!(
            "receive, Offered to Open, resumed",
            offered_resuming,
            open_resumed
        ),
        case!("receive, Offered to Crossed", offered, |unit, door, _| {
            unit.receive(door, true, false, &SYN_ACK)
        }),
        case!("receive, Offered to Plain", offered, plain),
        case!("receive, Crossed to Open", crossed, ack),
        case!("receive, Answered to Open", answered, ack),
        case!("receive, Open", opened, ack),
        case!("receive, refused 1", offered, |unit, door, _| {
            unit.receive(door + DOORS, true, true, &SYN_ACK)
        }),
        case!("receive, refused 4", idle, ack),
        case!("resend", offered, |unit, door, out| unit.resend(door, out)),
        case!("resend, refused 4", idle, |unit, door, out| unit
            .resend(door, out)),
        case!("result, fresh", opened, result),
        case!("result, resumed", opened_resumed, result),
        case!("result, Plain", made_plain, result),
        case!("result, refused 4", idle, result),
        case!("close, fresh Open", opened, |unit, door, _| unit
            .close(door)),
        case!("close, resumed Open", opened_resumed, |unit, door, _| unit
            .close(door)),
        case!("close, refused 1", idle, |unit, door, _| unit
            .close(door + DOORS)),
        case!("store, the first", idle, store),
        case!("store, the fourth", three, store),
        case!("store, refused 3", idle, |unit, door, _| {
            unit.store(door, 0x25, 0, &identifier(), &SECRET)
        }),
        case!("store, refused 6", full, store),
        case!("store, refused 7", held, store),
        case!("forget, the only one", held, |unit, door, _| {
            unit.forget(door, 0x23, &identifier())
        }),
        case!("forget, the third of four", full, |unit, door, _| {
            unit.forget(door, 0x23, &[3; 18])
        }),
        case!("forget, refused 16", full, |unit, door, _| {
            unit.forget(door, 0x23, &identifier())
        }),
        case!("count", held, |unit, door, _| unit.count(door)),
        case!("count, refused 1", held, |unit, door, _| unit
            .count(door + DOORS)),
        case!("erase", full, |unit, _, _| unit.erase()),
    ]
}
