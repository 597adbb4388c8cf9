//! Frames (RFC 8548, 3.6, 3.7 and 4.2): headers, frame IDs, nonces, plaintexts. Ciphering is the host's.

use core::fmt;

use crate::reply::{flag, read, refusal, Told};
use crate::{ffi, Error};

/// Bytes of a frame's header.
pub const HEADER: usize = 3;
/// Bytes of a frame ID, of a fixed nonce and of a frame's nonce.
pub const FRAME_NONCE: usize = 12;
/// Bytes of the longest plaintext that may be sent, flags and urgent included.
pub const PLAINTEXT: usize = 65_519;

/// A frame header as received.
#[derive(Clone, Copy, PartialEq, Eq, Debug)]
pub struct Header {
    /// The frame is the first of the next generation.
    pub rekey: bool,
    /// Bytes of the ciphertext that follows, tag included: 17 to 65,535.
    pub length: u16,
    /// The offset at which the next frame begins.
    pub next: u64,
    /// The associated data: the three bytes as received.
    pub associated: [u8; HEADER],
}

/// A plaintext as received. [`Debug`](fmt::Debug) shows how many bytes of data there are, and not the data.
///
/// ```
/// let read = door_link::read_plaintext(b"\x00open the doors")?;
/// assert_eq!(format!("{read:?}"), "Plaintext { fin: false, urgent: None, data: 14 bytes }");
/// # Ok::<(), door_link::Error>(())
/// ```
#[derive(Clone, Copy, PartialEq, Eq)]
pub struct Plaintext<'a> {
    /// FINp: nothing follows in this direction.
    pub fin: bool,
    /// The urgent number, where URGp is set.
    pub urgent: Option<u16>,
    /// The data, a part of the bytes that were read.
    pub data: &'a [u8],
}

impl fmt::Debug for Plaintext<'_> {
    fn fmt(&self, f: &mut fmt::Formatter<'_>) -> fmt::Result {
        f.debug_struct("Plaintext")
            .field("fin", &self.fin)
            .field("urgent", &self.urgent)
            .field("data", &format_args!("{} bytes", self.data.len()))
            .finish()
    }
}

/// The offset at which the next frame begins, after a frame at `offset` whose ciphertext has `length` bytes.
///
/// Refused: 11 where `length` is below 17 or above 65,535, or the next offset passes 2^64 - 1.
///
/// ```
/// use door_link::{next_offset, Error, Refusal};
/// assert_eq!(next_offset(75, 17), Ok(95));
/// assert_eq!(next_offset(75, 16), Err(Error::Refused(Refusal::NoFrame)));
/// ```
#[inline]
pub fn next_offset(offset: u64, length: usize) -> Result<u64, Error> {
    read(&ffi::frame::next_offset(offset, length), 0, Told::next)
}

/// Writes a frame's header, three bytes, and gives the offset at which the next frame begins. The header is also the associated data.
///
/// Refused: 5; 11 as for [`next_offset`].
///
/// ```
/// use door_link::{read_header, write_header, HEADER};
/// # fn main() -> Result<(), door_link::Error> {
/// let mut header = [0; HEADER];
/// assert_eq!(write_header(true, 17, 75, &mut header)?, 95);
/// assert_eq!(header, [1, 0, 17]);
/// let read = read_header(&header, 75)?;
/// assert_eq!((read.rekey, read.length, read.next, read.associated), (true, 17, 95, header));
/// # Ok(())
/// # }
/// ```
#[inline]
pub fn write_header(rekey: bool, length: usize, offset: u64, out: &mut [u8]) -> Result<u64, Error> {
    let reply = ffi::frame::header_write(rekey, length, offset, out);
    let room = out.len() >= HEADER;
    read(&reply, 0, |told| told.next().filter(|_| room))
}

/// Reads the header of the frame that begins at `offset`; bytes behind it are not read. Bits that are reserved are ignored, and stay in the
/// associated data.
///
/// Refused: 9 below three bytes; 11 as for [`next_offset`].
#[inline]
pub fn read_header(bytes: &[u8], offset: u64) -> Result<Header, Error> {
    header(&ffi::frame::header_read(bytes, offset))
}

/// Reads a header's numbers, each one tested.
#[inline]
fn header(numbers: &ffi::frame::HeaderNumbers) -> Result<Header, Error> {
    match (numbers.kind, numbers.clen, numbers.rekey) {
        (0, 0, 0) if numbers.associated == [0; HEADER] => Err(refusal(numbers.number)),
        (12, length @ 17.., rekey) => Ok(Header {
            rekey: flag(rekey)?,
            length,
            next: numbers.number as u64,
            associated: numbers.associated,
        }),
        _ => Err(Error::Unexpected),
    }
}

/// The ID of the frame that begins at `offset`: 44 41 54 41, then the offset. (RFC 8548 has four zeros in place of these; both ends must have the same.)
///
/// ```
/// let id = [0x44, 0x41, 0x54, 0x41, 0, 0, 0, 0, 0, 0, 1, 2];
/// assert_eq!(door_link::frame_id(0x0102), id);
/// ```
#[inline]
pub fn frame_id(offset: u64) -> [u8; FRAME_NONCE] {
    ffi::frame::frame_id(offset).bytes
}

/// The nonce of the frame that begins at `offset`: its frame ID XOR the fixed nonce of its generation and direction. Never refused.
///
/// ```
/// let nonce = door_link::nonce(&[0xff; 12], 75);
/// let expected = [0xbb, 0xbe, 0xab, 0xbe, 0xff, 0xff, 0xff, 0xff, 0xff, 0xff, 0xff, 0xb4];
/// assert_eq!(nonce, Ok(expected));
/// ```
#[inline]
pub fn nonce(fixed: &[u8; FRAME_NONCE], offset: u64) -> Result<[u8; FRAME_NONCE], Error> {
    nonce_of(fixed, offset)
}

/// As [`nonce`](crate::nonce). Refused with 3 where `fixed` has not 12 bytes.
#[inline]
pub fn nonce_of(fixed: &[u8], offset: u64) -> Result<[u8; FRAME_NONCE], Error> {
    made(&ffi::frame::nonce(fixed, offset))
}

/// Reads a nonce's numbers, each one tested.
#[inline]
fn made(numbers: &ffi::frame::NonceNumbers) -> Result<[u8; FRAME_NONCE], Error> {
    match (numbers.kind, numbers.number) {
        (0, number) if numbers.nonce == [0; FRAME_NONCE] => Err(refusal(number)),
        (13, 0) => Ok(numbers.nonce),
        _ => Err(Error::Unexpected),
    }
}

/// Writes a frame's plaintext, to be ciphered, and gives its length: flags, urgent where there is one, data.
///
/// Refused: 5; 11 where it has more than 65,519 bytes.
///
/// ```
/// use door_link::{read_plaintext, write_plaintext};
/// # fn main() -> Result<(), door_link::Error> {
/// let mut out = [0; 8];
/// let length = write_plaintext(true, Some(0x0102), b"data", &mut out)?;
/// assert_eq!(out[..length], *b"\x03\x01\x02data");
/// let read = read_plaintext(&out[..length])?;
/// assert_eq!((read.fin, read.urgent, read.data), (true, Some(0x0102), &b"data"[..]));
/// # Ok(())
/// # }
/// ```
#[inline]
pub fn write_plaintext(
    fin: bool,
    urgent: Option<u16>,
    data: &[u8],
    out: &mut [u8],
) -> Result<usize, Error> {
    let urg = urgent.is_some();
    let reply = ffi::frame::plaintext_write(fin, urg, urgent.unwrap_or(0), data, out);
    read(&reply, out.len(), Told::written)
}

/// Reads a frame's plaintext, all of `bytes`. Bits that are reserved are ignored.
///
/// Refused: 12 where there is no byte, or URGp with fewer than three.
#[inline]
pub fn read_plaintext(bytes: &[u8]) -> Result<Plaintext<'_>, Error> {
    plaintext(&ffi::frame::plaintext_read(bytes), bytes)
}

/// Reads a plaintext's numbers, each one tested.
#[inline]
fn plaintext<'a>(
    numbers: &ffi::frame::PlaintextNumbers,
    bytes: &'a [u8],
) -> Result<Plaintext<'a>, Error> {
    let urgent = match (numbers.kind, numbers.urg, numbers.number, numbers.urgent) {
        (0, 0, number, 0) if numbers.fin == 0 => return Err(refusal(number)),
        (14, 0, 1, 0) => None,
        (14, 1, 3, urgent) => Some(urgent),
        _ => return Err(Error::Unexpected),
    };
    Ok(Plaintext {
        fin: flag(numbers.fin)?,
        urgent,
        data: bytes.get(numbers.number..).ok_or(Error::Unexpected)?,
    })
}

#[cfg(test)]
mod tests {
    use super::*;
    use crate::Refusal;
    use ffi::frame::{HeaderNumbers, NonceNumbers, PlaintextNumbers};

    #[test]
    fn header_numbers_that_the_header_has_not() {
        let of = |kind, number, clen, rekey, associated| {
            header(&HeaderNumbers {
                number,
                clen,
                kind,
                rekey,
                associated,
            })
        };
        assert!(of(12, usize::MAX, 17, 1, [0xff; 3]).is_ok_and(|read| read.rekey));
        assert!(of(12, 20, 0xffff, 0, [0; 3]).is_ok_and(|read| !read.rekey));
        let refused = Err(Error::Refused(Refusal::NoFrame));
        assert_eq!(of(0, 11, 0, 0, [0; 3]), refused);
        for unexpected in [
            of(12, 20, 16, 0, [0; 3]),
            of(12, 20, 17, 2, [0; 3]),
            of(0, 11, 17, 0, [0; 3]),
            of(0, 11, 0, 1, [0; 3]),
            of(0, 11, 0, 0, [0, 0, 1]),
            of(0, 0, 0, 0, [0; 3]),
            of(11, 20, 17, 0, [0; 3]),
            of(13, 20, 17, 0, [0; 3]),
        ] {
            assert_eq!(unexpected, Err(Error::Unexpected));
        }
    }

    #[test]
    fn nonce_numbers_that_the_header_has_not() {
        let of = |kind, number, nonce| {
            made(&NonceNumbers {
                number,
                kind,
                nonce,
            })
        };
        assert_eq!(of(13, 0, [5; 12]), Ok([5; 12]));
        assert_eq!(of(0, 3, [0; 12]), Err(Error::Refused(Refusal::Unfit)));
        for (kind, number, byte) in [(13, 1, 5), (0, 3, 5), (0, 0, 0), (12, 0, 5), (14, 0, 0)] {
            assert_eq!(of(kind, number, [byte; 12]), Err(Error::Unexpected));
        }
    }

    #[test]
    fn plaintext_numbers_that_the_header_has_not() {
        let bytes = [9; 5];
        let of = |kind, number, fin, urg, urgent, length: usize| {
            let numbers = PlaintextNumbers {
                number,
                urgent,
                kind,
                fin,
                urg,
            };
            plaintext(&numbers, &bytes[..length]).map(|read| read.data.len())
        };
        assert_eq!(of(14, 1, 1, 0, 0, 1), Ok(0));
        assert_eq!(of(14, 3, 0, 1, 7, 5), Ok(2));
        let refused = Err(Error::Refused(Refusal::NoPlaintext));
        assert_eq!(of(0, 12, 0, 0, 0, 5), refused);
        for unexpected in [
            of(14, 1, 0, 0, 0, 0),
            of(14, 3, 0, 1, 7, 2),
            of(14, 3, 0, 0, 0, 5),
            of(14, 1, 0, 1, 7, 5),
            of(14, 1, 0, 0, 7, 5),
            of(14, 1, 2, 0, 0, 5),
            of(14, 3, 0, 2, 7, 5),
            of(14, usize::MAX, 0, 1, 7, 5),
            of(0, 12, 1, 0, 0, 5),
            of(0, 12, 0, 1, 0, 5),
            of(0, 12, 0, 0, 1, 5),
            of(0, 18, 0, 0, 0, 5),
            of(13, 1, 0, 0, 0, 5),
            of(15, 1, 0, 0, 0, 5),
        ] {
            assert_eq!(unexpected, Err(Error::Unexpected));
        }
    }

    /// An urgent number without URGp is not written.
    #[test]
    fn urgent_without_urgp() {
        let mut out = [9; 4];
        let reply = ffi::frame::plaintext_write(true, false, 0x0102, &[7], &mut out);
        assert_eq!((reply.kind, reply.number, out), (1, 2, [1, 7, 9, 9]));
    }
}
