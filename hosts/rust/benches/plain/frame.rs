//! Frame headers, frame IDs, nonces and plaintexts.

#[derive(Clone, Copy)]
pub struct Header {
    pub rekey: bool,
    pub length: u16,
    pub next: u64,
    pub associated: [u8; 3],
}

#[derive(Clone, Copy)]
pub struct Plaintext {
    pub fin: bool,
    pub urgent: Option<u16>,
    pub data: usize,
}

#[inline(never)]
pub fn next_offset(offset: u64, length: usize) -> Result<u64, u8> {
    if !(17..=65_535).contains(&length) {
        return Err(11);
    }
    offset.checked_add(length as u64 + 3).ok_or(11)
}

#[inline(never)]
pub fn header_write(rekey: bool, length: usize, offset: u64, out: &mut [u8]) -> Result<u64, u8> {
    let out = out.first_chunk_mut::<3>().ok_or(5)?;
    let next = next_offset(offset, length)?;
    let [high, low] = (length as u16).to_be_bytes();
    *out = [u8::from(rekey), high, low];
    Ok(next)
}

#[inline(never)]
pub fn header_read(bytes: &[u8], offset: u64) -> Result<Header, u8> {
    let associated = *bytes.first_chunk::<3>().ok_or(9)?;
    let length = u16::from_be_bytes([associated[1], associated[2]]);
    Ok(Header {
        rekey: associated[0] & 1 == 1,
        length,
        next: next_offset(offset, usize::from(length))?,
        associated,
    })
}

#[inline(never)]
pub fn frame_id(offset: u64) -> [u8; 12] {
    let mut id = *b"DATA\0\0\0\0\0\0\0\0";
    id[4..].copy_from_slice(&offset.to_be_bytes());
    id
}

#[inline(never)]
pub fn nonce(fixed: &[u8], offset: u64) -> Result<[u8; 12], u8> {
    let fixed = <&[u8; 12]>::try_from(fixed).map_err(|_| 3)?;
    let mut nonce = frame_id(offset);
    for (byte, other) in nonce.iter_mut().zip(fixed) {
        *byte ^= other;
    }
    Ok(nonce)
}

#[inline(never)]
pub fn plaintext_write(
    fin: bool,
    urgent: Option<u16>,
    data: &[u8],
    out: &mut [u8],
) -> Result<usize, u8> {
    let begin = if urgent.is_some() { 3 } else { 1 };
    let length = begin + data.len();
    let out = out.get_mut(..length).ok_or(5)?;
    if length > 65_519 {
        return Err(11);
    }
    out[0] = u8::from(fin);
    if let Some(urgent) = urgent {
        out[0] |= 2;
        out[1..3].copy_from_slice(&urgent.to_be_bytes());
    }
    out[begin..].copy_from_slice(data);
    Ok(length)
}

#[inline(never)]
pub fn plaintext_read(bytes: &[u8]) -> Result<Plaintext, u8> {
    let flags = *bytes.first().ok_or(12)?;
    let mut plaintext = Plaintext {
        fin: flags & 1 == 1,
        urgent: None,
        data: 1,
    };
    if flags & 2 != 0 {
        let urgent = bytes[1..].first_chunk::<2>().ok_or(12)?;
        plaintext.urgent = Some(u16::from_be_bytes(*urgent));
        plaintext.data = 3;
    }
    Ok(plaintext)
}
