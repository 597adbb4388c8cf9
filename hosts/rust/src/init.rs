//! Init1 and Init2, the messages in which two ends agree on fresh keys (RFC 8548, 4.1), for Curve25519 and Curve448.

use crate::reply::{read, refusal, Told};
use crate::{ffi, Error, Tep};

/// Bytes of an Init message's nonce.
pub const INIT_NONCE: usize = 32;
/// Bytes of the longest public key, that of Curve448.
pub const INIT_KEY: usize = 56;
/// The longest message that a reader takes.
pub const INIT_LONGEST: usize = 4096;

/// The ciphers that RFC 8548 names.
pub mod cipher {
    /// AES-128-GCM.
    pub const AES128: u16 = 0x0001;
    /// AES-256-GCM.
    pub const AES256: u16 = 0x0002;
    /// ChaCha20-Poly1305.
    pub const CHACHA20: u16 = 0x0010;
}

/// The ciphers that host B takes.
#[derive(Clone, Copy, PartialEq, Eq, Default, Debug)]
pub struct Enabled {
    /// [`cipher::AES128`].
    pub aes128: bool,
    /// [`cipher::AES256`].
    pub aes256: bool,
    /// [`cipher::CHACHA20`].
    pub chacha20: bool,
}

/// An Init message that was read.
#[derive(Clone, Copy, PartialEq, Eq, Debug)]
pub struct Init {
    cipher: u16,
    count: usize,
    length: usize,
    nonce: [u8; INIT_NONCE],
    key: [u8; INIT_KEY],
    key_length: usize,
}

impl Init {
    /// Of fields that were tested; the key has at most [`INIT_KEY`] bytes.
    #[inline]
    pub(crate) fn new(
        cipher: u16,
        count: usize,
        length: usize,
        nonce: [u8; INIT_NONCE],
        bytes: &[u8],
    ) -> Init {
        let key_length = bytes.len().min(INIT_KEY);
        let mut key = [0; INIT_KEY];
        key[..key_length].copy_from_slice(&bytes[..key_length]);
        Init {
            cipher,
            count,
            length,
            nonce,
            key,
            key_length,
        }
    }

    /// The cipher agreed on: of an Init1 the first listed one that is enabled, of an Init2 the one that it names.
    #[inline]
    pub const fn cipher(&self) -> u16 {
        self.cipher
    }

    /// How many ciphers the message lists; an Init2 names one.
    #[inline]
    pub const fn count(&self) -> usize {
        self.count
    }

    /// The length of the whole message, ignored bytes behind the key included. What follows is not the message's.
    #[inline]
    pub const fn length(&self) -> usize {
        self.length
    }

    /// The sender's nonce.
    #[inline]
    pub const fn nonce(&self) -> &[u8; INIT_NONCE] {
        &self.nonce
    }

    /// The sender's public key: 32 bytes for Curve25519, 56 for Curve448.
    #[inline]
    pub fn key(&self) -> &[u8] {
        self.key.get(..self.key_length).unwrap_or(&self.key)
    }
}

/// The length of a TEP's public key, where Init messages are the library's.
pub(crate) const fn key_length(tep: u8) -> Option<usize> {
    match Tep::of(tep) {
        Some(Tep::Curve25519) => Some(32),
        Some(Tep::Curve448) => Some(INIT_KEY),
        _ => None,
    }
}

/// Reads a reader's numbers, each one tested; `room` is how many bytes were at hand.
#[inline]
fn init(numbers: &ffi::init::InitNumbers, tep: u8, room: usize) -> Result<Init, Error> {
    let zeros = |bytes: &[u8]| bytes.iter().fold(0, |all, byte| all | byte) == 0;
    let ffi::init::InitNumbers {
        number,
        count,
        cipher,
        kind,
        nonce,
        key,
    } = *numbers;
    match (kind, key_length(tep)) {
        (0, _) if count == 0 && cipher == 0 && zeros(&nonce) && zeros(&key) => Err(refusal(number)),
        (10, Some(key_length))
            if number <= room.min(INIT_LONGEST)
                && (1..=255).contains(&count)
                && cipher != 0
                && key.get(key_length..).is_some_and(zeros) =>
        {
            Ok(Init {
                cipher,
                count,
                length: number,
                nonce,
                key,
                key_length,
            })
        }
        _ => Err(Error::Unexpected),
    }
}

/// Writes an Init1, host A's message, and gives its length: 41 bytes, two for each cipher, and the key. `tep` is
/// [`Tep::Curve25519`] with a key of 32 bytes or [`Tep::Curve448`] with one of 56; `ciphers` is the list from which host B takes the first
/// that it has enabled, 1 to 255 ciphers, none of them 0000; `nonce` is fresh.
///
/// Refused: 3 where `tep` is another, the key's length does not fit, or `ciphers` has none, more than 255 or one that is 0000; 5.
///
/// ```
/// use door_link::{cipher, init1_read, init1_write, Enabled, Error, Refusal, Tep};
/// # fn main() -> Result<(), Error> {
/// let mut message = [0; 80];
/// let (nonce, key) = ([1; 32], [2; 32]);
/// let ciphers = [cipher::CHACHA20, cipher::AES128];
/// let length = init1_write(Tep::Curve25519, &ciphers, &nonce, &key, &mut message)?;
/// assert_eq!(length, 77);
/// assert_eq!(message[..13], [0x15, 0x10, 0x1a, 0x0e, 0, 0, 0, 77, 2, 0, 0x10, 0, 1]);
///
/// // Host B reads as the bytes come in: 9 says that more are needed.
/// let enabled = Enabled { aes128: true, aes256: true, chacha20: false };
/// let part = init1_read(Tep::Curve25519, enabled, &message[..40]);
/// assert_eq!(part, Err(Error::Refused(Refusal::Incomplete)));
/// let init = init1_read(Tep::Curve25519, enabled, &message)?;
/// assert_eq!((init.cipher(), init.count(), init.length()), (cipher::AES128, 2, 77));
/// assert_eq!((init.nonce(), init.key()), (&nonce, &key[..]));
/// # Ok(())
/// # }
/// ```
#[inline]
pub fn init1_write(
    tep: Tep,
    ciphers: &[u16],
    nonce: &[u8; INIT_NONCE],
    key: &[u8],
    out: &mut [u8],
) -> Result<usize, Error> {
    write1(tep.number(), ciphers, nonce, key, out)
}

/// As [`init1_write`](crate::init1_write). Refused with 3 also where `nonce` has not 32 bytes.
#[inline]
pub fn write1(
    tep: u8,
    ciphers: &[u16],
    nonce: &[u8],
    key: &[u8],
    out: &mut [u8],
) -> Result<usize, Error> {
    let reply = ffi::init::init1_write(tep, ciphers, nonce, key, out);
    read(&reply, out.len(), Told::written)
}

/// Writes an Init2, host B's message, and gives its length: 42 bytes and the key. `cipher` is the one that was taken from the Init1.
///
/// Refused: 3 where `tep` is another than the two of [`init1_write`], the key's length does not fit, or `cipher` is 0000; 5.
///
/// ```
/// use door_link::{cipher, init2_read, init2_write, Error, Refusal, Tep};
/// # fn main() -> Result<(), Error> {
/// let mut message = [0; 98];
/// let length = init2_write(Tep::Curve448, cipher::AES128, &[3; 32], &[4; 56], &mut message)?;
/// assert_eq!(length, 98);
///
/// // Host A takes a cipher that stands in its own Init1.
/// let own = [cipher::CHACHA20, cipher::AES128];
/// assert_eq!(init2_read(Tep::Curve448, &own, &message)?.cipher(), cipher::AES128);
/// let other = init2_read(Tep::Curve448, &own[..1], &message);
/// assert_eq!(other, Err(Error::Refused(Refusal::NoCipher)));
/// # Ok(())
/// # }
/// ```
#[inline]
pub fn init2_write(
    tep: Tep,
    cipher: u16,
    nonce: &[u8; INIT_NONCE],
    key: &[u8],
    out: &mut [u8],
) -> Result<usize, Error> {
    write2(tep.number(), cipher, nonce, key, out)
}

/// As [`init2_write`](crate::init2_write). Refused with 3 also where `nonce` has not 32 bytes.
#[inline]
pub fn write2(
    tep: u8,
    cipher: u16,
    nonce: &[u8],
    key: &[u8],
    out: &mut [u8],
) -> Result<usize, Error> {
    let reply = ffi::init::init2_write(tep, cipher, nonce, key, out);
    read(&reply, out.len(), Told::written)
}

/// Reads an Init1 from its first byte on. Bytes past the message's length are not read, so that `bytes` may hold more than the message.
///
/// Refused: 3 where `tep` is another than the two of [`init1_write`]; 8 where no continuation of `bytes` is readable (another magic, a length above
/// 4,096 or too short for the fields, no ciphers, or a cipher 0000 of which both bytes are there); 9 where some continuation is; 10 where no listed cipher is enabled, once all of the message is there.
#[inline]
pub fn init1_read(tep: Tep, enabled: Enabled, bytes: &[u8]) -> Result<Init, Error> {
    read1(tep.number(), enabled, bytes)
}

/// As [`init1_read`](crate::init1_read).
#[inline]
pub fn read1(tep: u8, enabled: Enabled, bytes: &[u8]) -> Result<Init, Error> {
    init(
        &ffi::init::init1_read(tep, enabled, bytes),
        tep,
        bytes.len(),
    )
}

/// Reads an Init2 from its first byte on; `own` is the list of this end's Init1, which may be any list of at most 255 here.
///
/// Refused: 3 where `tep` is another than the two of [`init1_write`], or `own` has more than 255 ciphers; 8 and 9 as for [`init1_read`]; 10 where the
/// message's cipher is not in `own`, once all of the message is there.
#[inline]
pub fn init2_read(tep: Tep, own: &[u16], bytes: &[u8]) -> Result<Init, Error> {
    read2(tep.number(), own, bytes)
}

/// As [`init2_read`](crate::init2_read).
#[inline]
pub fn read2(tep: u8, own: &[u16], bytes: &[u8]) -> Result<Init, Error> {
    init(&ffi::init::init2_read(tep, own, bytes), tep, bytes.len())
}

#[cfg(test)]
mod tests {
    use super::*;
    use crate::Refusal;

    fn numbers(kind: u8, number: usize) -> ffi::init::InitNumbers {
        ffi::init::InitNumbers {
            number,
            count: 0,
            cipher: 0,
            kind,
            nonce: [0; 32],
            key: [0; 56],
        }
    }

    /// Fields beside a refusal, lengths past the bytes at hand, bytes past the key.
    #[test]
    fn numbers_that_the_header_has_not() {
        let refused = numbers(0, 8);
        let expected = Err(Error::Refused(Refusal::NoInit));
        assert_eq!(init(&refused, 0x23, 100), expected);
        let mut changed = [refused; 4];
        changed[0].count = 1;
        changed[1].cipher = 1;
        changed[2].nonce[31] = 1;
        changed[3].key[0] = 1;
        for numbers in changed {
            assert_eq!(init(&numbers, 0x23, 100), Err(Error::Unexpected));
        }
        assert_eq!(init(&numbers(0, 17), 0x23, 100), Err(Error::Unexpected));

        let mut taken = numbers(10, 100);
        taken.count = 255;
        taken.cipher = 1;
        taken.key = [7; 56];
        let key = |tep, numbers| init(&numbers, tep, 100).map(|read| read.key().len());
        assert_eq!(key(0x24, taken), Ok(56));
        assert_eq!(key(0x23, taken), Err(Error::Unexpected));
        taken.key[32..].fill(0);
        assert_eq!(key(0x23, taken), Ok(32));
        for tep in [0x21, 0x22, 0x25, 0xa3] {
            assert_eq!(key(tep, taken), Err(Error::Unexpected));
        }
        taken.number = 101;
        assert_eq!(key(0x23, taken), Err(Error::Unexpected));
        taken.number = 100;
        for count in [0, 256] {
            taken.count = count;
            assert_eq!(key(0x23, taken), Err(Error::Unexpected));
        }
        (taken.count, taken.cipher) = (255, 0);
        assert_eq!(key(0x23, taken), Err(Error::Unexpected));
        assert_eq!(init(&numbers(10, 4097), 0x23, 5000), Err(Error::Unexpected));
        for kind in (1..=255).filter(|kind| *kind != 10) {
            assert_eq!(init(&numbers(kind, 1), 0x23, 100), Err(Error::Unexpected));
        }
    }

    /// Empty slices are no null pointers.
    #[test]
    fn empty_inputs() {
        fn number<T>(told: Result<T, Error>) -> Option<Refusal> {
            match told {
                Err(Error::Refused(refusal)) => Some(refusal),
                _ => None,
            }
        }
        let out = &mut [][..];
        let written = write1(0x23, &[1], &[0; 32], &[0; 32], out);
        assert_eq!(number(written), Some(Refusal::NoRoom));
        let written = write1(0x23, &[], &[0; 32], &[0; 32], out);
        assert_eq!(number(written), Some(Refusal::Unfit));
        let written = write1(0x23, &[], &[], &[], out);
        assert_eq!(number(written), Some(Refusal::Unfit));
        let written = write2(0x23, 1, &[], &[], out);
        assert_eq!(number(written), Some(Refusal::Unfit));
        let read = read1(0x23, Enabled::default(), &[]);
        assert_eq!(number(read), Some(Refusal::Incomplete));
        let read = read2(0x24, &[], &[]);
        assert_eq!(number(read), Some(Refusal::Incomplete));
        let read = read2(0x22, &[], &[]);
        assert_eq!(number(read), Some(Refusal::Unfit));
    }
}
