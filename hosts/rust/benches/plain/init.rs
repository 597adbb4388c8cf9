//! Init1 and Init2.

const INIT1: [u8; 4] = [0x15, 0x10, 0x1a, 0x0e];
const INIT2: [u8; 4] = [0x09, 0x71, 0x05, 0xe0];
const LONGEST: u32 = 4096;

/// A message that was read.
#[derive(Clone, Copy)]
pub struct Init {
    pub cipher: u16,
    pub count: usize,
    pub length: usize,
    pub nonce: [u8; 32],
    pub key: [u8; 56],
}

fn key_length(tep: u8) -> Result<usize, u8> {
    match tep {
        0x23 => Ok(32),
        0x24 => Ok(56),
        _ => Err(3),
    }
}

fn write(
    magic: [u8; 4],
    tep: u8,
    count: Option<u8>,
    ciphers: &[u16],
    nonce: &[u8],
    key: &[u8],
    out: &mut [u8],
) -> Result<usize, u8> {
    if key_length(tep)? != key.len() || nonce.len() != 32 {
        return Err(3);
    }
    if ciphers.is_empty() || ciphers.contains(&0) {
        return Err(3);
    }
    let length = 8 + usize::from(count.is_some()) + 2 * ciphers.len() + 32 + key.len();
    let out = out.get_mut(..length).ok_or(5)?;
    out[..4].copy_from_slice(&magic);
    out[4..8].copy_from_slice(&(length as u32).to_be_bytes());
    let mut at = 8;
    if let Some(count) = count {
        out[at] = count;
        at += 1;
    }
    for cipher in ciphers {
        out[at..at + 2].copy_from_slice(&cipher.to_be_bytes());
        at += 2;
    }
    out[at..at + 32].copy_from_slice(nonce);
    out[at + 32..].copy_from_slice(key);
    Ok(length)
}

#[inline(never)]
pub fn init1_write(
    tep: u8,
    ciphers: &[u16],
    nonce: &[u8],
    key: &[u8],
    out: &mut [u8],
) -> Result<usize, u8> {
    let count = u8::try_from(ciphers.len()).map_err(|_| 3)?;
    write(INIT1, tep, Some(count), ciphers, nonce, key, out)
}

#[inline(never)]
pub fn init2_write(
    tep: u8,
    cipher: u16,
    nonce: &[u8],
    key: &[u8],
    out: &mut [u8],
) -> Result<usize, u8> {
    write(INIT2, tep, None, &[cipher], nonce, key, out)
}

/// A readable message: its length, its ciphers, and the nonce and the key behind them.
struct Fields<'a> {
    length: usize,
    ciphers: &'a [u8],
    nonce: &'a [u8],
    key: &'a [u8],
}

/// The fields, or 8 or 9.
fn fields(magic: [u8; 4], counted: bool, key: usize, bytes: &[u8]) -> Result<Fields<'_>, u8> {
    let seen = bytes.len().min(4);
    if bytes[..seen] != magic[..seen] {
        return Err(8);
    }
    let given = &bytes[seen..bytes.len().min(8)];
    let (mut least, mut most) = ([0; 4], [0xff; 4]);
    least[..given.len()].copy_from_slice(given);
    most[..given.len()].copy_from_slice(given);
    let base = 8 + 32 + key + if counted { 3 } else { 2 };
    if u32::from_be_bytes(least) > LONGEST || (u32::from_be_bytes(most) as usize) < base {
        return Err(8);
    }
    if bytes.len() < 8 {
        return Err(9);
    }
    let length = u32::from_be_bytes(least) as usize;
    let (mut at, mut count) = (8, 1);
    if counted {
        count = usize::from(*bytes.get(8).ok_or(9)?);
        at = 9;
    }
    let behind = at + 2 * count;
    let listed = &bytes[at.min(bytes.len())..behind.min(bytes.len())];
    let void = listed.chunks_exact(2).any(|c| c == [0, 0]);
    if count == 0 || void || length < behind + 32 + key {
        return Err(8);
    }
    let message = bytes.get(..length).ok_or(9)?;
    Ok(Fields {
        length,
        ciphers: &message[at..behind],
        nonce: &message[behind..behind + 32],
        key: &message[behind + 32..behind + 32 + key],
    })
}

fn taken(fields: &Fields, cipher: u16) -> Init {
    let mut init = Init {
        cipher,
        count: fields.ciphers.len() / 2,
        length: fields.length,
        nonce: [0; 32],
        key: [0; 56],
    };
    init.nonce.copy_from_slice(fields.nonce);
    init.key[..fields.key.len()].copy_from_slice(fields.key);
    init
}

#[inline(never)]
pub fn init1_read(tep: u8, enabled: [bool; 3], bytes: &[u8]) -> Result<Init, u8> {
    let fields = fields(INIT1, true, key_length(tep)?, bytes)?;
    let [aes128, aes256, chacha20] = enabled;
    let listed = fields.ciphers.chunks_exact(2);
    let mut listed = listed.map(|c| u16::from_be_bytes([c[0], c[1]]));
    let cipher = listed.find(|cipher| match cipher {
        0x0001 => aes128,
        0x0002 => aes256,
        0x0010 => chacha20,
        _ => false,
    });
    Ok(taken(&fields, cipher.ok_or(10)?))
}

#[inline(never)]
pub fn init2_read(tep: u8, own: &[u16], bytes: &[u8]) -> Result<Init, u8> {
    if own.len() > 255 {
        return Err(3);
    }
    let fields = fields(INIT2, false, key_length(tep)?, bytes)?;
    let cipher = u16::from_be_bytes([fields.ciphers[0], fields.ciphers[1]]);
    if !own.contains(&cipher) {
        return Err(10);
    }
    Ok(taken(&fields, cipher))
}
