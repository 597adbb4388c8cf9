//! Init1 and Init2 (document 01, "Init messages"; RFC 8548, 4.1).

use crate::driver::calls::{Answer, Init1, Init2};

const INIT1: [u8; 4] = [0x15, 0x10, 0x1a, 0x0e];
const INIT2: [u8; 4] = [0x09, 0x71, 0x05, 0xe0];
const LONGEST: u32 = 4096;
/// The ciphers that a host may enable.
pub const CIPHERS: [u16; 3] = [0x0001, 0x0002, 0x0010];

/// The length of a TEP's public key, where Init is the unit's.
pub fn key_length(tep: u8) -> Option<usize> {
    match tep {
        0x23 => Some(32),
        0x24 => Some(56),
        _ => None,
    }
}

/// A kind of message: its magic and whether a count stands before its ciphers.
#[derive(Clone, Copy)]
struct Kind {
    magic: [u8; 4],
    counted: bool,
}

const FIRST: Kind = Kind {
    magic: INIT1,
    counted: true,
};
const SECOND: Kind = Kind {
    magic: INIT2,
    counted: false,
};

/// The fields of a message that is all at hand.
#[derive(Debug)]
struct Fields {
    length: usize,
    ciphers: Vec<u16>,
    nonce: [u8; 32],
    key: Vec<u8>,
}

/// Whether a message may list these ciphers: at least one, and none that is 0000.
fn named(ciphers: &[u16]) -> bool {
    !ciphers.is_empty() && !ciphers.contains(&0)
}

/// Reads a message from its first byte on; nothing if it is not all there or not readable.
fn read(kind: Kind, key: usize, bytes: &[u8]) -> Option<Fields> {
    let (magic, rest) = bytes.split_first_chunk::<4>()?;
    let (length, _) = rest.split_first_chunk::<4>()?;
    let length = u32::from_be_bytes(*length);
    if *magic != kind.magic || length > LONGEST {
        return None;
    }
    let message = bytes.get(..length as usize)?;
    let mut rest = message.get(8..)?;
    let mut ciphers = 1;
    if kind.counted {
        let (count, tail) = rest.split_first()?;
        ciphers = usize::from(*count);
        rest = tail;
    }
    let list = rest.get(..2 * ciphers)?;
    let (nonce, rest) = rest[2 * ciphers..].split_first_chunk::<32>()?;
    let pairs = list.chunks(2);
    let ciphers: Vec<u16> = pairs.map(|c| u16::from_be_bytes([c[0], c[1]])).collect();
    if !named(&ciphers) {
        return None;
    }
    Some(Fields {
        length: message.len(),
        ciphers,
        nonce: *nonce,
        key: rest.get(..key)?.to_vec(),
    })
}

/// Whether some continuation of the bytes at hand is readable. Every length is tried that they can begin, with ones
/// behind it: one cipher where the count is still missing, which leaves the most room, and no cipher that is 0000
/// unless both its bytes are at hand.
fn continues(kind: Kind, key: usize, bytes: &[u8]) -> bool {
    let lengths = match bytes.get(4..8) {
        Some(seen) => {
            let length = u32::from_be_bytes([seen[0], seen[1], seen[2], seen[3]]);
            length..=length
        }
        None => 0..=LONGEST,
    };
    lengths.rev().any(|length| {
        let mut start = [0; 8];
        start[..4].copy_from_slice(&kind.magic);
        start[4..].copy_from_slice(&length.to_be_bytes());
        if !start.starts_with(&bytes[..bytes.len().min(8)]) {
            return false;
        }
        let mut whole = bytes.to_vec();
        whole.extend(start.get(bytes.len()..).unwrap_or(&[]));
        whole.resize(whole.len().max(LONGEST as usize), 1);
        read(kind, key, &whole).is_some()
    })
}

/// The fields, or 3, 8 or 9.
fn fields(kind: Kind, tep: u8, bytes: &[u8]) -> Answer<Fields> {
    let key = key_length(tep).ok_or(3)?;
    match read(kind, key, bytes) {
        Some(fields) => Ok(fields),
        None if continues(kind, key, bytes) => Err(9),
        None => Err(8),
    }
}

fn write(
    kind: Kind,
    tep: u8,
    ciphers: &[u16],
    nonce: &[u8],
    key: &[u8],
    out: &mut [u8],
) -> Answer<usize> {
    if key_length(tep) != Some(key.len()) || nonce.len() != 32 {
        return Err(3);
    }
    if ciphers.len() > 255 || !named(ciphers) {
        return Err(3);
    }
    let mut body = Vec::new();
    if kind.counted {
        body.push(ciphers.len() as u8);
    }
    body.extend(ciphers.iter().flat_map(|cipher| cipher.to_be_bytes()));
    body.extend(nonce);
    body.extend(key);
    let length = body.len() + 8;
    let message = [&kind.magic[..], &(length as u32).to_be_bytes(), &body].concat();
    out.get_mut(..length).ok_or(5)?.copy_from_slice(&message);
    Ok(length)
}

pub fn init1_write(
    tep: u8,
    ciphers: &[u16],
    nonce: &[u8],
    key: &[u8],
    out: &mut [u8],
) -> Answer<usize> {
    write(FIRST, tep, ciphers, nonce, key, out)
}

pub fn init2_write(
    tep: u8,
    cipher: u16,
    nonce: &[u8],
    key: &[u8],
    out: &mut [u8],
) -> Answer<usize> {
    write(SECOND, tep, &[cipher], nonce, key, out)
}

pub fn init1_read(tep: u8, enabled: [bool; 3], bytes: &[u8]) -> Answer<Init1> {
    let fields = fields(FIRST, tep, bytes)?;
    let has = |cipher: &&u16| (0..3).any(|i| enabled[i] && CIPHERS[i] == **cipher);
    let cipher = *fields.ciphers.iter().find(has).ok_or(10)?;
    Ok(Init1 {
        cipher,
        count: fields.ciphers.len(),
        length: fields.length,
        nonce: fields.nonce,
        key: fields.key,
    })
}

pub fn init2_read(tep: u8, ciphers: &[u16], bytes: &[u8]) -> Answer<Init2> {
    if ciphers.len() > 255 {
        return Err(3);
    }
    let fields = fields(SECOND, tep, bytes)?;
    let cipher = fields.ciphers[0];
    if !ciphers.contains(&cipher) {
        return Err(10);
    }
    Ok(Init2 {
        cipher,
        length: fields.length,
        nonce: fields.nonce,
        key: fields.key,
    })
}

mod tests {
    use super::*;
    use crate::model::hex;

    const ALL: [bool; 3] = [true; 3];

    fn number<T: std::fmt::Debug>(answer: Answer<T>) -> u8 {
        answer.expect_err("a refusal")
    }

    fn first(tep: u8, prefix: &str) -> u8 {
        number(init1_read(tep, ALL, &hex(prefix)))
    }

    fn second(tep: u8, prefix: &str) -> u8 {
        number(init2_read(tep, &[1], &hex(prefix)))
    }

    fn message(length: u32, count: u8, at_hand: usize) -> Vec<u8> {
        let mut bytes = [&INIT1[..], &length.to_be_bytes(), &[count]].concat();
        bytes.resize(at_hand, 0x55);
        bytes
    }

    #[test]
    fn lengths_75_and_74() {
        let mut out = [0; 100];
        let (nonce, key) = ([7; 32], [8; 32]);
        assert_eq!(init1_write(0x23, &[1], &nonce, &key, &mut out), Ok(75));
        assert_eq!(out[..11], hex("15 10 1a 0e 00 00 00 4b 01 00 01"));
        let read = init1_read(0x23, ALL, &out).expect("readable");
        assert_eq!((read.cipher, read.count, read.length), (1, 1, 75));
        assert_eq!((read.nonce, &read.key[..]), (nonce, &key[..]));
        assert_eq!(init2_write(0x23, 0x10, &nonce, &key, &mut out), Ok(74));
        assert_eq!(out[..10], hex("09 71 05 e0 00 00 00 4a 00 10"));
        let read = init2_read(0x23, &[1, 0x10], &out).expect("readable");
        assert_eq!((read.cipher, read.length), (0x10, 74));
        assert_eq!(init1_write(0x23, &[1], &nonce, &key, &mut [0; 74]), Err(5));
        assert_eq!(init1_write(0x24, &[1], &nonce, &[0; 56], &mut out), Ok(99));
        assert_eq!(init2_write(0x24, 1, &nonce, &[0; 56], &mut out), Ok(98));
    }

    #[test]
    fn number_3() {
        let out = &mut [0; 700][..];
        for tep in [0x21, 0x22, 0x25, 0xa3, 0xa4] {
            assert_eq!(init1_write(tep, &[1], &[0; 32], &[0; 32], out), Err(3));
            assert_eq!(init2_write(tep, 1, &[0; 32], &[0; 32], out), Err(3));
            assert_eq!(number(init1_read(tep, ALL, &[])), 3);
            assert_eq!(number(init2_read(tep, &[1], &[])), 3);
        }
        assert_eq!(init1_write(0x23, &[1], &[0; 31], &[0; 32], out), Err(3));
        assert_eq!(init1_write(0x23, &[1], &[0; 32], &[0; 56], &mut []), Err(3));
        assert_eq!(
            init1_write(0x23, &[1; 256], &[0; 32], &[0; 32], out),
            Err(3)
        );
        assert_eq!(
            init1_write(0x23, &[1; 255], &[0; 32], &[0; 32], out),
            Ok(583)
        );
        assert_eq!(number(init2_read(0x23, &[1; 256], &[])), 3);
        for list in [&[][..], &[0], &[1, 0], &[0, 1]] {
            let written = init1_write(0x23, list, &[0; 32], &[0; 32], &mut []);
            assert_eq!(written, Err(3), "{list:?}");
        }
        assert_eq!(init2_write(0x23, 0, &[0; 32], &[0; 32], &mut []), Err(3));
        assert_eq!(init1_write(0x23, &[1, 1], &[0; 32], &[0; 32], out), Ok(77));
    }

    #[test]
    fn magic_and_length_byte_by_byte() {
        assert_eq!(first(0x23, ""), 9);
        assert_eq!(first(0x23, "15 10 1a"), 9);
        assert_eq!(first(0x23, "15 10 1a 0f"), 8);
        assert_eq!(first(0x23, "09"), 8);
        assert_eq!(second(0x23, "09"), 9);
        assert_eq!(first(0x23, "15 10 1a 0e 01"), 8);
        assert_eq!(first(0x23, "15 10 1a 0e 00 01"), 8);
        assert_eq!(first(0x23, "15 10 1a 0e 00 00 00"), 9);
        assert_eq!(first(0x23, "15 10 1a 0e 00 00 10"), 9);
        assert_eq!(first(0x23, "15 10 1a 0e 00 00 11"), 8);
        assert_eq!(first(0x23, "15 10 1a 0e 00 00 10 00"), 9);
        assert_eq!(first(0x23, "15 10 1a 0e 00 00 10 01"), 8);
    }

    #[test]
    fn least_lengths() {
        for (tep, least) in [(0x23, 75), (0x24, 99)] {
            assert_eq!(number(init1_read(tep, ALL, &message(least - 1, 0, 8))), 8);
            assert_eq!(number(init1_read(tep, ALL, &message(least, 0, 8))), 9);
            let start = |length: u32| [&INIT2[..], &length.to_be_bytes()].concat();
            assert_eq!(number(init2_read(tep, &[1], &start(least - 2))), 8);
            assert_eq!(number(init2_read(tep, &[1], &start(least - 1))), 9);
        }
    }

    #[test]
    fn a_count_beyond_the_length_settles_at_its_byte() {
        assert_eq!(number(init1_read(0x23, ALL, &message(75, 2, 9))), 8);
        assert_eq!(number(init1_read(0x23, ALL, &message(75, 1, 9))), 9);
        assert_eq!(number(init1_read(0x23, ALL, &message(583, 255, 9))), 9);
        assert_eq!(number(init1_read(0x23, ALL, &message(582, 255, 9))), 8);
    }

    #[test]
    fn no_common_cipher_only_after_a_full_reading() {
        let bytes = message(76, 1, 90);
        assert_eq!(number(init1_read(0x23, ALL, &bytes[..75])), 9);
        assert_eq!(number(init1_read(0x23, ALL, &bytes[..76])), 10);
        assert_eq!(number(init1_read(0x23, ALL, &bytes)), 10);
    }

    #[test]
    fn an_empty_list_settles_at_its_count() {
        for length in [73, 75, 4096] {
            let eight = if length < 75 { 8 } else { 9 };
            assert_eq!(number(init1_read(0x23, ALL, &message(length, 0, 8))), eight);
            assert_eq!(number(init1_read(0x23, ALL, &message(length, 0, 9))), 8);
            let whole = message(length, 0, length as usize);
            assert_eq!(number(init1_read(0x23, ALL, &whole)), 8);
        }
    }

    #[test]
    fn a_void_cipher_settles_at_its_second_byte() {
        assert_eq!(first(0x23, "15 10 1a 0e 00 00 00 4b 01 00"), 9);
        assert_eq!(first(0x23, "15 10 1a 0e 00 00 00 4b 01 00 01"), 9);
        assert_eq!(first(0x23, "15 10 1a 0e 00 00 00 4b 01 00 00"), 8);
        assert_eq!(first(0x23, "15 10 1a 0e 00 00 00 4d 02 00 01 00"), 9);
        assert_eq!(first(0x23, "15 10 1a 0e 00 00 00 4d 02 00 01 00 00"), 8);
        assert_eq!(first(0x23, "15 10 1a 0e 00 00 00 4b 01 00 01 00 00"), 9);
        assert_eq!(second(0x23, "09 71 05 e0 00 00 00 4a 00"), 9);
        assert_eq!(second(0x23, "09 71 05 e0 00 00 00 4a 00 00"), 8);
        assert_eq!(second(0x23, "09 71 05 e0 00 00 00 4a 00 01 00 00"), 9);
        // The list that A hands over is no message.
        let void = hex("09 71 05 e0 00 00 00 4a 00 00");
        assert_eq!(number(init2_read(0x23, &[0], &void)), 8);
        let mut out = [0; 74];
        init2_write(0x23, 1, &[0; 32], &[0; 32], &mut out).expect("written");
        assert_eq!(number(init2_read(0x23, &[0], &out)), 10);
        assert_eq!(
            init2_read(0x23, &[0, 1], &out).map(|read| read.cipher),
            Ok(1)
        );
    }

    #[test]
    fn the_first_enabled_in_the_order_of_init1() {
        let mut out = [0; 100];
        let list = [0x77, 0x10, 1];
        init1_write(0x23, &list, &[0; 32], &[0; 32], &mut out).expect("written");
        let cipher = |enabled| init1_read(0x23, enabled, &out).map(|read| read.cipher);
        assert_eq!(cipher(ALL), Ok(0x10));
        assert_eq!(cipher([true, false, false]), Ok(1));
        assert_eq!(cipher([false, true, false]), Err(10));
        init2_write(0x23, 0x77, &[0; 32], &[0; 32], &mut out).expect("written");
        assert_eq!(
            init2_read(0x23, &list, &out).map(|read| read.cipher),
            Ok(0x77)
        );
        assert_eq!(number(init2_read(0x23, &[1], &out)), 10);
        assert_eq!(number(init2_read(0x23, &[], &out)), 10);
    }
}
