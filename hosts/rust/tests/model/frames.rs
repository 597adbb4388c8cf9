//! Frame headers, frame IDs, nonces and plaintexts (document 01, "Frames and generations"; RFC 8548, 3.6, 3.7 and 4.2).

use crate::driver::calls::{Answer, Header, Plaintext};

/// The four bytes before the offset, as document 01 has them.
const PREFIX: [u8; 4] = [0x44, 0x41, 0x54, 0x41];
const TAG: usize = 16;

pub fn next_offset(offset: u64, length: usize) -> Answer<u64> {
    if !(TAG + 1..=0xffff).contains(&length) {
        return Err(11);
    }
    let next = u128::from(offset) + 3 + length as u128;
    u64::try_from(next).map_err(|_| 11)
}

pub fn header_write(rekey: bool, length: usize, offset: u64, out: &mut [u8]) -> Answer<u64> {
    let out = out.get_mut(..3).ok_or(5)?;
    let next = next_offset(offset, length)?;
    out[0] = u8::from(rekey);
    out[1..].copy_from_slice(&(length as u16).to_be_bytes());
    Ok(next)
}

pub fn header_read(bytes: &[u8], offset: u64) -> Answer<Header> {
    let associated = *bytes.first_chunk::<3>().ok_or(9)?;
    let length = usize::from(associated[1]) * 256 + usize::from(associated[2]);
    Ok(Header {
        rekey: associated[0] % 2 == 1,
        length,
        next: next_offset(offset, length)?,
        associated,
    })
}

pub fn frame_id(offset: u64) -> [u8; 12] {
    let mut id = [0; 12];
    id[..4].copy_from_slice(&PREFIX);
    id[4..].copy_from_slice(&offset.to_be_bytes());
    id
}

pub fn nonce(offset: u64, fixed: &[u8]) -> Answer<[u8; 12]> {
    let fixed = <[u8; 12]>::try_from(fixed).map_err(|_| 3)?;
    let id = frame_id(offset);
    Ok(std::array::from_fn(|i| id[i] ^ fixed[i]))
}

pub fn plaintext_write(
    fin: bool,
    urgent: Option<u16>,
    data: &[u8],
    out: &mut [u8],
) -> Answer<usize> {
    let mut plaintext = vec![u8::from(fin)];
    if let Some(urgent) = urgent {
        plaintext[0] += 2;
        plaintext.extend(urgent.to_be_bytes());
    }
    plaintext.extend(data);
    let out = out.get_mut(..plaintext.len()).ok_or(5)?;
    if plaintext.len() > 0xffff - TAG {
        return Err(11);
    }
    out.copy_from_slice(&plaintext);
    Ok(plaintext.len())
}

pub fn plaintext_read(bytes: &[u8]) -> Answer<Plaintext> {
    let (flags, rest) = bytes.split_first().ok_or(12)?;
    let fin = flags & 1 == 1;
    if flags & 2 == 0 {
        return Ok(Plaintext {
            fin,
            urgent: None,
            data: 1,
        });
    }
    let urgent = rest.first_chunk::<2>().ok_or(12)?;
    Ok(Plaintext {
        fin,
        urgent: Some(u16::from_be_bytes(*urgent)),
        data: 3,
    })
}

mod tests {
    use super::*;
    use crate::model::hex;

    #[test]
    fn k12() {
        let expected = hex("bb be ab be ff ff ff ff ff ff ff b4");
        assert_eq!(nonce(75, &[0xff; 12]).expect("a nonce").to_vec(), expected);
        assert_eq!(nonce(75, &[0xff; 11]), Err(3));
        assert_eq!(nonce(75, &[0xff; 13]), Err(3));
        assert_eq!(
            frame_id(0x0102).to_vec(),
            hex("44 41 54 41 00 00 00 00 00 00 01 02")
        );
    }

    #[test]
    fn a_frame_at_75_of_17() {
        assert_eq!(next_offset(75, 17), Ok(95));
        let mut out = [9; 4];
        assert_eq!(header_write(true, 17, 75, &mut out), Ok(95));
        assert_eq!(out, [1, 0, 17, 9]);
    }

    #[test]
    fn header_refusals() {
        assert_eq!(header_write(false, 16, 0, &mut [0; 2]), Err(5));
        assert_eq!(header_write(false, 16, 0, &mut [0; 3]), Err(11));
        assert_eq!(header_write(false, 65_536, 0, &mut [0; 3]), Err(11));
        assert_eq!(header_write(false, 65_535, 0, &mut [0; 3]), Ok(65_538));
        assert_eq!(header_write(false, usize::MAX, 0, &mut [0; 3]), Err(11));
        assert_eq!(next_offset(u64::MAX - 20, 17), Ok(u64::MAX));
        assert_eq!(next_offset(u64::MAX - 19, 17), Err(11));
        assert_eq!(header_read(&[0, 0], u64::MAX), Err(9));
        assert_eq!(header_read(&[0, 0, 16], 0), Err(11));
        assert_eq!(header_read(&[0, 0, 17], u64::MAX - 19), Err(11));
    }

    #[test]
    fn associated_data_as_received() {
        let header = header_read(&hex("fe 00 11 77"), 75).expect("a header");
        assert_eq!(header.associated.to_vec(), hex("fe 00 11"));
        assert_eq!((header.rekey, header.length, header.next), (false, 17, 95));
        assert!(header_read(&hex("ff 00 11"), 75).expect("a header").rekey);
    }

    #[test]
    fn plaintexts_read() {
        let of = |bytes: &str| plaintext_read(&hex(bytes)).map(|p| (p.fin, p.urgent, p.data));
        assert_eq!(of(""), Err(12));
        assert_eq!(of("02 00"), Err(12));
        assert_eq!(of("02"), Err(12));
        assert_eq!(of("02 00 05"), Ok((false, Some(5), 3)));
        assert_eq!(of("fd"), Ok((true, None, 1)));
        assert_eq!(of("fe 00 05"), Ok((false, Some(5), 3)));
        assert!(plaintext_read(&[0; 70_000]).is_ok());
    }

    #[test]
    fn plaintexts_written() {
        let mut out = [9; 6];
        assert_eq!(plaintext_write(true, Some(0x0102), &[7], &mut out), Ok(4));
        assert_eq!(out, [3, 1, 2, 7, 9, 9]);
        let big = vec![0; 70_000];
        assert_eq!(
            plaintext_write(false, None, &big, &mut vec![0; 65_519]),
            Err(5)
        );
        assert_eq!(
            plaintext_write(false, None, &big, &mut vec![0; 80_000]),
            Err(11)
        );
        let mut out = vec![0; 80_000];
        assert_eq!(
            plaintext_write(false, Some(1), &big[..65_516], &mut out),
            Ok(65_519)
        );
        assert_eq!(
            plaintext_write(false, Some(1), &big[..65_517], &mut out),
            Err(11)
        );
    }
}
