//! Random Init messages, good and damaged, read at every prefix.

use super::alike;
use super::calls::{Answer, Init};
use super::counts::Counts;
use super::random::Random;

/// Init1 or Init2.
#[derive(Clone, Copy, PartialEq, Eq, Debug)]
enum Kind {
    First,
    Second,
}

/// What a reader gave back, in one type for both.
#[derive(Clone, PartialEq, Eq, Debug)]
struct Read {
    cipher: u16,
    count: usize,
    length: usize,
    nonce: [u8; 32],
    key: Vec<u8>,
}

/// What is asked of a writer and, of the message, of a reader.
#[derive(Clone, Debug)]
struct Ask {
    kind: Kind,
    tep: u8,
    ciphers: Vec<u16>,
    nonce: Vec<u8>,
    key: Vec<u8>,
    enabled: [bool; 3],
    own: Vec<u16>,
}

fn write<I: Init>(init: &I, ask: &Ask, out: &mut [u8]) -> Answer<usize> {
    match ask.kind {
        Kind::First => init.init1_write(ask.tep, &ask.ciphers, &ask.nonce, &ask.key, out),
        Kind::Second => init.init2_write(ask.tep, ask.ciphers[0], &ask.nonce, &ask.key, out),
    }
}

fn read<I: Init>(init: &I, ask: &Ask, bytes: &[u8]) -> Answer<Read> {
    match ask.kind {
        Kind::First => {
            let read = init.init1_read(ask.tep, ask.enabled, bytes)?;
            Ok(Read {
                cipher: read.cipher,
                count: read.count,
                length: read.length,
                nonce: read.nonce,
                key: read.key,
            })
        }
        Kind::Second => {
            let read = init.init2_read(ask.tep, &ask.own, bytes)?;
            Ok(Read {
                cipher: read.cipher,
                count: 1,
                length: read.length,
                nonce: read.nonce,
                key: read.key,
            })
        }
    }
}

fn cipher(random: &mut Random) -> u16 {
    match random.below(5) {
        0 => random.word() as u16,
        _ => random.pick(&[1, 2, 0x10, 0x11, 0x0100, 0x1000]),
    }
}

/// One list of ten gets a cipher 0000.
fn void(random: &mut Random, list: &mut [u16]) {
    if !list.is_empty() && random.chance(10) {
        let place = random.below(list.len());
        list[place] = 0;
    }
}

fn ask(random: &mut Random) -> Ask {
    let kind = random.pick(&[Kind::First, Kind::Second]);
    let tep = match random.below(20) {
        0 => random.pick(&[0x21, 0x22]),
        1 => random.pick(&[0x20, 0x25, 0xa3, 0xa4, 0, 0xff]),
        _ => random.pick(&[0x23, 0x24]),
    };
    let count = match (kind, random.below(40)) {
        (Kind::Second, _) => 1,
        (_, 0) => random.pick(&[254, 255, 256, 300]),
        (_, 1) => random.below(255),
        (_, 2 | 3) => 0,
        _ => random.from(1, 5),
    };
    let mut key = if tep == 0x24 { 56 } else { 32 };
    let mut nonce = 32;
    match random.below(30) {
        0 => key = random.pick(&[0, 31, 32, 33, 55, 56, 57]),
        1 => nonce = random.pick(&[0, 31, 33, 64]),
        _ => {}
    }
    let own = match random.below(20) {
        0 => random.pick(&[255, 256]),
        _ => random.below(6),
    };
    let mut own: Vec<u16> = (0..own).map(|_| cipher(random)).collect();
    let mut ciphers: Vec<u16> = (0..count).map(|_| cipher(random)).collect();
    if random.chance(30) {
        // Only the last of the list can be the common one.
        ciphers.fill(0x77);
        if let Some(last) = ciphers.last_mut() {
            *last = random.pick(&[1, 2, 0x10]);
        }
    } else if random.chance(40) {
        // Several are common, in any order.
        for one in &mut ciphers {
            *one = random.pick(&[1, 2, 0x10]);
        }
    }
    void(random, &mut ciphers);
    void(random, &mut own);
    if !own.is_empty() && kind == Kind::Second && random.chance(50) {
        own[0] = ciphers[0];
    }
    Ask {
        kind,
        tep,
        ciphers,
        nonce: random.bytes(nonce),
        key: random.bytes(key),
        enabled: std::array::from_fn(|_| random.chance(60)),
        own,
    }
}

/// The length that the written message must have.
fn length(ask: &Ask) -> usize {
    let counted = usize::from(ask.kind == Kind::First);
    8 + counted + 2 * ask.ciphers.len() + 32 + ask.key.len()
}

/// Something happens to a written message; true if its fields are as they were.
fn alter(random: &mut Random, message: &mut Vec<u8>) -> bool {
    let set = |message: &mut Vec<u8>, length: usize| {
        message[4..8].copy_from_slice(&(length as u32).to_be_bytes());
    };
    let written = message.len();
    let mut same = true;
    match random.below(14) {
        0 | 1 => {
            let more = random.from(1, 6);
            let tail = random.bytes(more);
            message.extend(tail);
            set(message, written + more);
        }
        2 => {
            let place = random.below(9);
            message[place] ^= 1 << random.below(8);
            same = false;
        }
        3 => {
            let less = random.from(1, 3);
            set(message, written - less);
            same = false;
        }
        4 => {
            message[8] = message[8].wrapping_add(random.pick(&[1, 2, 255]));
            same = false;
        }
        5 => {
            let length = random.pick(&[
                0,
                4095,
                4096,
                4097,
                72,
                73,
                74,
                75,
                96,
                97,
                98,
                99,
                0x0100_0000,
                0x1_0000,
                256,
            ]);
            set(message, length);
            if random.chance(10) && length <= 4097 {
                message.resize(length.max(written), 0x5a);
            }
            same = false;
        }
        6 => {
            // A cipher that is 0000, the first or another.
            let list = if message[0] == 0x15 { 9 } else { 8 };
            let count = if list == 9 { message[8] } else { 1 };
            let place = list + 2 * random.below(usize::from(count));
            message[place..place + 2].fill(0);
            same = false;
        }
        7 => {
            // No ciphers, with room for as many as before or for none.
            message[8] = 0;
            if random.chance(50) {
                set(message, written - 2);
            }
            same = false;
        }
        _ => {}
    }
    let behind = random.below(6);
    let behind = random.bytes(behind);
    message.extend(behind);
    same
}

/// Writes and reads so many times.
pub fn compare<R: Init, T: Init>(
    seed: u64,
    calls: usize,
    reference: &R,
    tested: &T,
) -> Result<Counts, String> {
    let mut counts = Counts::default();
    let mut random = Random::new(seed);
    let mut made = 0;
    while made < calls {
        let ask = ask(&mut random);
        let need = length(&ask);
        let room = match random.below(8) {
            0 => random.below(need),
            1 => need - 1,
            2 => need,
            _ => need + random.below(9),
        };
        let lent = random.bytes(room);
        let (mut out, mut other) = (lent.clone(), lent.clone());
        let answer = write(reference, &ask, &mut out);
        let again = write(tested, &ask, &mut other);
        alike(
            || format!("{ask:?} into {room}"),
            &(&answer, &out),
            &(&again, &other),
        )?;
        counts.answer(&answer);
        made += 1;
        let written = answer.unwrap_or(0);
        if out[written..] != lent[written..] {
            return Err(format!("wrote elsewhere: {ask:?} into {room}"));
        }
        let mut message = out;
        let mut same = false;
        if written == 0 {
            message.truncate(12);
        } else {
            message.truncate(written);
            same = alter(&mut random, &mut message);
        }
        let mut settled: Option<Answer<Read>> = None;
        for end in 0..=message.len() {
            let bytes = &message[..end];
            let answer = read(reference, &ask, bytes);
            let again = read(tested, &ask, bytes);
            alike(|| format!("{ask:?} reading {bytes:02x?}"), &answer, &again)?;
            counts.answer(&answer);
            made += 1;
            match &settled {
                Some(before) => alike(
                    || format!("{ask:?} settled, then {bytes:02x?}"),
                    before,
                    &answer,
                )?,
                None if answer != Err(9) => settled = Some(answer),
                None => {}
            }
        }
        if let (true, Some(Ok(read))) = (same, &settled) {
            let fields = (read.count, &read.nonce[..], &read.key[..]);
            let sent = (ask.ciphers.len(), &ask.nonce[..], &ask.key[..]);
            alike(|| format!("{ask:?} read back"), &sent, &fields)?;
            counts.meet("read back");
        }
        counts.meet("messages");
    }
    Ok(counts)
}
