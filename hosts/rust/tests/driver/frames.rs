//! Random frame headers, frame IDs, nonces and plaintexts, around every limit.

use super::alike;
use super::calls::Frames;
use super::counts::Counts;
use super::random::Random;

fn offset(random: &mut Random) -> u64 {
    match random.below(4) {
        0 => random.word(),
        1 => random.below(200) as u64,
        2 => u64::MAX - random.below(40) as u64,
        _ => u64::MAX - 65_530 - random.below(16) as u64,
    }
}

fn ciphertext(random: &mut Random) -> usize {
    match random.below(5) {
        0 => random.from(14, 20),
        1 => random.from(65_532, 65_538),
        2 => random.pick(&[
            0,
            1,
            16,
            17,
            65_535,
            65_536,
            65_536 + 17,
            usize::MAX,
            usize::MAX - 2,
        ]),
        _ => random.below(65_600),
    }
}

/// Makes so many calls.
pub fn compare<R: Frames, T: Frames>(
    seed: u64,
    calls: usize,
    reference: &R,
    tested: &T,
) -> Result<Counts, String> {
    let mut counts = Counts::default();
    let mut random = Random::new(seed);
    let zeros = vec![0x5a; 65_540];
    for _ in 0..calls {
        match random.below(100) {
            0..=24 => {
                let (rekey, length, offset) = (
                    random.chance(50),
                    ciphertext(&mut random),
                    offset(&mut random),
                );
                let room = if random.chance(85) {
                    random.from(3, 8)
                } else {
                    random.below(3)
                };
                let lent = random.bytes(room);
                let (mut out, mut other) = (lent.clone(), lent.clone());
                let answer = reference.header_write(rekey, length, offset, &mut out);
                let again = tested.header_write(rekey, length, offset, &mut other);
                let call = || format!("header_write {rekey} {length} {offset} into {room}");
                alike(call, &(&answer, &out), &(&again, &other))?;
                counts.answer(&answer);
                let written = if answer.is_ok() { 3 } else { 0 };
                if out[written..] != lent[written..] {
                    return Err(format!("wrote elsewhere: {}", call()));
                }
                if answer.is_ok() {
                    let header = reference.header_read(&out, offset);
                    let header = header.map_err(|n| format!("{n} for what {} wrote", call()))?;
                    alike(
                        call,
                        &(rekey, length, answer),
                        &(header.rekey, header.length, Ok(header.next)),
                    )?;
                    counts.meet("header read back");
                }
            }
            25..=49 => {
                let mut bytes = random.bytes(5);
                if random.chance(40) {
                    bytes[1] = 0;
                    bytes[2] = random.from(14, 20) as u8;
                }
                bytes.truncate(random.from(0, 5));
                let offset = offset(&mut random);
                let answer = reference.header_read(&bytes, offset);
                let again = tested.header_read(&bytes, offset);
                alike(
                    || format!("header_read {bytes:02x?} {offset}"),
                    &answer,
                    &again,
                )?;
                counts.answer(&answer);
            }
            50..=59 => {
                let (offset, length) = (offset(&mut random), ciphertext(&mut random));
                let answer = reference.next_offset(offset, length);
                let again = tested.next_offset(offset, length);
                alike(|| format!("next_offset {offset} {length}"), &answer, &again)?;
                counts.answer(&answer);
            }
            60..=69 => {
                let offset = offset(&mut random);
                let length = if random.chance(80) {
                    12
                } else {
                    random.below(26)
                };
                let fixed = random.bytes(length);
                let answer = reference.nonce(offset, &fixed);
                let again = tested.nonce(offset, &fixed);
                alike(|| format!("nonce {offset} {fixed:02x?}"), &answer, &again)?;
                let (id, other) = (reference.frame_id(offset), tested.frame_id(offset));
                alike(|| format!("frame_id {offset}"), &id, &other)?;
                counts.answer(&answer);
            }
            70..=84 => {
                let fin = random.chance(50);
                let urgent = random.chance(50).then(|| random.word() as u16);
                let length = match random.below(40) {
                    0 => random.from(65_510, 65_525),
                    _ => random.below(30),
                };
                let data = if length < 40 {
                    random.bytes(length)
                } else {
                    zeros[..length].to_vec()
                };
                let need = length + if urgent.is_some() { 3 } else { 1 };
                let room = match random.below(8) {
                    0 => need - 1,
                    1 => random.below(need),
                    2 => need,
                    _ => need + random.below(9),
                };
                let mut out = vec![0xee; room];
                let mut other = out.clone();
                let answer = reference.plaintext_write(fin, urgent, &data, &mut out);
                let again = tested.plaintext_write(fin, urgent, &data, &mut other);
                let call = || format!("plaintext_write {fin} {urgent:?} of {length} into {room}");
                alike(call, &answer, &again)?;
                alike(call, &out, &other)?;
                counts.answer(&answer);
                let written = answer.unwrap_or(0);
                if out[written..].iter().any(|byte| *byte != 0xee) {
                    return Err(format!("wrote elsewhere: {}", call()));
                }
                if written > 0 {
                    let read = reference.plaintext_read(&out[..written]);
                    let read = read.map_err(|n| format!("{n} for what {} wrote", call()))?;
                    alike(
                        call,
                        &(fin, urgent, &data[..]),
                        &(read.fin, read.urgent, &out[read.data..written]),
                    )?;
                    counts.meet("plaintext read back");
                }
            }
            _ => {
                let length = random.below(6);
                let mut bytes = random.bytes(length);
                if let (Some(flags), true) = (bytes.first_mut(), random.chance(50)) {
                    *flags &= 3;
                }
                let answer = reference.plaintext_read(&bytes);
                let again = tested.plaintext_read(&bytes);
                alike(|| format!("plaintext_read {bytes:02x?}"), &answer, &again)?;
                counts.answer(&answer);
            }
        }
    }
    Ok(counts)
}
