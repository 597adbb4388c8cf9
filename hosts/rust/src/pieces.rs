//! Messages in pieces: one direction's stream as its bytes come, an Init message and then frames, cut anywhere.

use core::fmt;
use core::ops::Range;

use crate::frame::HEADER;
use crate::init::key_length;
use crate::reply::{flag, read, refusal, Told};
use crate::{ffi, Enabled, Error, Header, Init, Tep, INIT_LONGEST, INIT_NONCE};

/// Bytes in which a reader gathers an Init message, and behind it the ciphers of this end's own.
pub const GATHERED: usize = 4608;
/// Numbers of a reader.
pub const NUMBERS: usize = 4;

/// What a reader has finished, as the one-shot readers read it.
#[derive(Clone, PartialEq, Eq, Debug)]
pub enum Item {
    /// The Init message, as [`init1_read`](crate::init1_read) or [`init2_read`](crate::init2_read) gives it.
    Init(Init),
    /// A frame's header, as [`read_header`](crate::read_header) gives it.
    Header(Header),
    /// A frame's body: the range of the stream in which it stands.
    Body(Range<u64>),
}

/// What a call gives back.
#[derive(Clone, PartialEq, Eq, Debug)]
pub struct Fed {
    /// How many bytes of the piece were taken: all of them, or those up to the last of the item. The caller gives the rest again.
    pub used: usize,
    /// The item whose last byte was taken, or none: then the reader waits.
    pub item: Option<Item>,
}

/// The reader has refused, and says so at each call until it is started anew.
#[derive(Clone, Copy, PartialEq, Eq, Debug)]
pub struct Stopped {
    /// The refusal: 8, 10 or 11; 5 where less memory is lent than the reader asks (never of [`Pieces`]).
    pub error: Error,
    /// The byte that settled it, counted from 0; 0 with 5.
    pub position: u64,
}

impl fmt::Display for Stopped {
    fn fmt(&self, f: &mut fmt::Formatter<'_>) -> fmt::Result {
        write!(f, "{} (byte {} of the stream)", self.error, self.position)
    }
}

impl core::error::Error for Stopped {}

/// A reader of one direction's stream. However the stream is cut, the items, the refusal with its position, and the reader in the end are the
/// same. Positions, ranges and offsets count the stream's bytes from 0 at the start.
///
/// ```
/// use door_link::{cipher, init1_write, write_header, Enabled, Item, Pieces, Tep};
/// # fn main() -> Result<(), Box<dyn std::error::Error>> {
/// let mut stream = [0xcc; 95];
/// let length = init1_write(Tep::Curve25519, &[cipher::AES128], &[7; 32], &[9; 32], &mut stream)?;
/// write_header(false, 17, length as u64, &mut stream[length..])?;
///
/// let enabled = Enabled { aes128: true, ..Enabled::default() };
/// let mut reader = Pieces::init1(Tep::Curve25519, enabled)?;
/// let mut items = Vec::new();
/// for mut piece in stream.chunks(10) {
///     loop {
///         let fed = reader.feed(piece)?;
///         let Some(item) = fed.item else { break };
///         items.push(item);
///         piece = &piece[fed.used..];
///     }
/// }
/// let [Item::Init(init), Item::Header(header), Item::Body(body)] = &items[..] else {
///     unreachable!("a message and a frame");
/// };
/// assert_eq!((init.cipher(), init.length(), reader.message()), (cipher::AES128, 75, &stream[..75]));
/// assert_eq!((header.length, header.next, body), (17, 95, &(78..95)));
///
/// // A ciphertext of 16 bytes is none: the byte at 97 settles it.
/// let stopped = reader.feed(&[0, 0, 16, 5]).expect_err("a refusal");
/// assert_eq!(stopped.to_string(), "refused with 11: a length or an offset that no frame has (byte 97 of the stream)");
/// assert_eq!(reader.feed(&[]), Err(stopped));
/// reader.start_frames()?;
/// assert_eq!(reader.feed(&[0, 0, 17])?.used, 3);
/// # Ok(())
/// # }
/// ```
#[derive(Clone, PartialEq, Eq)]
pub struct Pieces {
    numbers: [u64; NUMBERS],
    gathered: [u8; GATHERED],
    /// Length of the Init message that was told.
    message: usize,
}

impl fmt::Debug for Pieces {
    fn fmt(&self, f: &mut fmt::Formatter<'_>) -> fmt::Result {
        f.debug_struct("Pieces")
            .field("numbers", &self.numbers)
            .finish_non_exhaustive()
    }
}

impl Pieces {
    /// Host B's reader: Init1, and the frames behind it.
    ///
    /// Refused: 3 where `tep` is another than [`Tep::Curve25519`] and [`Tep::Curve448`].
    pub fn init1(tep: Tep, enabled: Enabled) -> Result<Pieces, Error> {
        let mut reader = Pieces::frames();
        reader.start_init1(tep, enabled)?;
        Ok(reader)
    }

    /// Host A's reader, whose own Init1 lists the ciphers `own`: Init2, and the frames behind it.
    ///
    /// Refused: 3 where `tep` is another, or `own` has more than 255 ciphers.
    pub fn init2(tep: Tep, own: &[u16]) -> Result<Pieces, Error> {
        let mut reader = Pieces::frames();
        reader.start_init2(tep, own)?;
        Ok(reader)
    }

    /// The reader of a stream without an Init message, as on a resumed connection.
    pub const fn frames() -> Pieces {
        Pieces {
            numbers: [0; NUMBERS],
            gathered: [0; GATHERED],
            message: 0,
        }
    }

    /// Starts anew, as [`Pieces::init1`]; beside a refusal the reader stays as it was.
    pub fn start_init1(&mut self, tep: Tep, enabled: Enabled) -> Result<(), Error> {
        start_init1(tep.number(), enabled, &mut self.numbers)?;
        self.message = 0;
        Ok(())
    }

    /// Starts anew, as [`Pieces::init2`]; beside a refusal the reader stays as it was.
    pub fn start_init2(&mut self, tep: Tep, own: &[u16]) -> Result<(), Error> {
        start_init2(tep.number(), own, &mut self.numbers, &mut self.gathered)?;
        self.message = 0;
        Ok(())
    }

    /// Starts anew, as [`Pieces::frames`].
    pub fn start_frames(&mut self) -> Result<(), Error> {
        start_frames(&mut self.numbers)?;
        self.message = 0;
        Ok(())
    }

    /// Takes bytes up to the last byte of the first item that they finish; `piece` may be empty.
    ///
    /// Refused: 8 at the first byte after which no continuation is an Init message; 10 at an Init message's last byte; 11 at the first byte after
    /// which no header avoids it.
    #[inline]
    pub fn feed(&mut self, piece: &[u8]) -> Result<Fed, Stopped> {
        let fed = feed(&mut self.numbers, &mut self.gathered, piece)?;
        if let Some(Item::Init(init)) = &fed.item {
            self.message = init.length();
        }
        Ok(fed)
    }

    /// The Init message as received, once it was told; before that, nothing.
    #[inline]
    pub fn message(&self) -> &[u8] {
        self.gathered.get(..self.message).unwrap_or(&[])
    }
}

/// As [`Pieces::start_init1`]. Refused with 3 also where `tep` is unknown, and with 5 where `numbers` has fewer than four.
#[inline]
pub fn start_init1(tep: u8, enabled: Enabled, numbers: &mut [u64]) -> Result<(), Error> {
    let reply = ffi::pieces::start_init1(tep, enabled, numbers);
    read(&reply, 0, Told::done)
}

/// As [`Pieces::start_init2`]. Refused with 3 also where `tep` is unknown, and with 5 where `numbers` has fewer than four or `gathered` fewer than
/// [`GATHERED`](crate::GATHERED).
#[inline]
pub fn start_init2(
    tep: u8,
    own: &[u16],
    numbers: &mut [u64],
    gathered: &mut [u8],
) -> Result<(), Error> {
    let reply = ffi::pieces::start_init2(tep, own, numbers, gathered);
    read(&reply, 0, Told::done)
}

/// As [`Pieces::start_frames`]. Refused with 5 where `numbers` has fewer than four.
#[inline]
pub fn start_frames(numbers: &mut [u64]) -> Result<(), Error> {
    read(&ffi::pieces::start_frames(numbers), 0, Told::done)
}

/// As [`Pieces::feed`], over lent memory, which is the reader: any values are one. Refused with 5 where `numbers` has fewer than four, or `gathered`
/// fewer than [`GATHERED`](crate::GATHERED) while an Init message is read; while frames are read it may be empty.
#[inline]
pub fn feed(numbers: &mut [u64], gathered: &mut [u8], piece: &[u8]) -> Result<Fed, Stopped> {
    let keys = numbers.get(1).map_or(0, |tep| keys(*tep));
    let told = ffi::pieces::feed(numbers, gathered, piece);
    fed(&told, gathered, keys, piece.len())
}

/// Bytes of a key by a reader's number for the TEP.
#[inline]
fn keys(tep: u64) -> usize {
    u8::try_from(tep).ok().and_then(key_length).unwrap_or(0)
}

/// Reads a reader's numbers, each one tested; `room` is how many bytes were given.
#[inline]
fn fed(
    numbers: &ffi::pieces::FedNumbers,
    gathered: &[u8],
    keys: usize,
    room: usize,
) -> Result<Fed, Stopped> {
    let ffi::pieces::FedNumbers {
        number,
        place,
        used,
        count,
        cipher,
        clen,
        kind,
        rekey,
        associated,
    } = *numbers;
    let unexpected = Stopped {
        error: Error::Unexpected,
        position: 0,
    };
    let no_init = count == 0 && cipher == 0;
    let no_header = clen == 0 && rekey == 0 && associated == [0; HEADER];
    let item = match kind {
        17 if no_init && no_header && number == 0 && place == 0 && used == room => None,
        18 if no_init && no_header => Some(Item::Body(place..number)),
        12 if no_init && clen >= 17 && place == 0 => Some(Item::Header(Header {
            rekey: flag(rekey).map_err(|_| unexpected)?,
            length: clen,
            next: number,
            associated,
        })),
        10 if no_header => {
            let init = gathered_init(gathered, keys, (number, place, count, cipher));
            Some(Item::Init(init.ok_or(unexpected)?))
        }
        0 if no_init && no_header && used == 0 && matches!(number, 5 | 8 | 10 | 11) => {
            return Err(Stopped {
                error: refusal(number as usize),
                position: place,
            })
        }
        _ => return Err(unexpected),
    };
    if used > room || item.is_some() && used == 0 {
        return Err(unexpected);
    }
    Ok(Fed { used, item })
}

/// The Init message that was gathered: `number` bytes, its nonce at a place and the key behind it.
#[inline]
fn gathered_init(
    gathered: &[u8],
    keys: usize,
    (number, place, count, cipher): (u64, u64, usize, u16),
) -> Option<Init> {
    let length = usize::try_from(number).ok()?;
    let at = usize::try_from(place).ok()?;
    let fields = gathered.get(at..)?;
    let (nonce, behind) = fields.split_first_chunk::<INIT_NONCE>()?;
    if length > INIT_LONGEST || !(1..=255).contains(&count) {
        return None;
    }
    Some(Init::new(
        cipher,
        count,
        length,
        *nonce,
        behind.get(..keys)?,
    ))
}

#[cfg(test)]
mod tests {
    use super::*;
    use crate::Refusal;
    use ffi::pieces::FedNumbers;

    const WAITING: FedNumbers = FedNumbers {
        number: 0,
        place: 0,
        used: 5,
        count: 0,
        cipher: 0,
        clen: 0,
        kind: 17,
        rekey: 0,
        associated: [0; 3],
    };

    fn is_unexpected(numbers: FedNumbers) -> bool {
        let told = fed(&numbers, &[7; GATHERED], 32, 5);
        told.is_err_and(|stopped| stopped.error == Error::Unexpected)
    }

    /// Fields of other kinds, bytes that were not given, ranges that are not gathered.
    #[test]
    fn numbers_that_the_header_has_not() {
        let kind = |kind| FedNumbers { kind, ..WAITING };
        let refused = |number| FedNumbers {
            number,
            used: 0,
            ..kind(0)
        };
        let init = FedNumbers {
            number: 75,
            place: 11,
            count: 1,
            cipher: 1,
            ..kind(10)
        };
        let header = FedNumbers {
            number: 95,
            clen: 17,
            associated: [0, 0, 17],
            ..kind(12)
        };
        let body = FedNumbers {
            number: 95,
            place: 78,
            ..kind(18)
        };
        for good in [WAITING, init, header, body] {
            let told = fed(&good, &[7; GATHERED], 32, 5);
            assert!(told.is_ok_and(|fed| fed.used == 5), "{}", good.kind);
            assert!(is_unexpected(FedNumbers { used: 6, ..good }));
            assert!(is_unexpected(FedNumbers { used: 0, ..good }));
        }
        for (number, refusal) in [(8, Refusal::NoInit), (10, Refusal::NoCipher)] {
            let stopped = Stopped {
                error: Error::Refused(refusal),
                position: 3,
            };
            let numbers = FedNumbers {
                place: 3,
                ..refused(number)
            };
            assert_eq!(fed(&numbers, &[], 32, 5), Err(stopped));
        }
        for other in (0..300).filter(|n| ![5, 8, 10, 11].contains(n)) {
            assert!(is_unexpected(refused(other)));
        }
        for other in (0..=255).filter(|kind| ![10, 12, 17, 18].contains(kind)) {
            assert!(is_unexpected(kind(other)), "{other}");
        }
        for good in [WAITING, header, body, refused(8)] {
            assert!(is_unexpected(FedNumbers { count: 1, ..good }));
            assert!(is_unexpected(FedNumbers { cipher: 1, ..good }));
        }
        for good in [WAITING, init, body, refused(8)] {
            assert!(is_unexpected(FedNumbers { clen: 17, ..good }));
            assert!(is_unexpected(FedNumbers { rekey: 1, ..good }));
            let associated = [0, 0, 1];
            assert!(is_unexpected(FedNumbers { associated, ..good }));
        }
        assert!(is_unexpected(FedNumbers {
            number: 1,
            ..WAITING
        }));
        assert!(is_unexpected(FedNumbers {
            place: 1,
            ..WAITING
        }));
        assert!(is_unexpected(FedNumbers {
            used: 1,
            ..refused(8)
        }));
        assert!(is_unexpected(FedNumbers { clen: 16, ..header }));
        assert!(is_unexpected(FedNumbers { rekey: 2, ..header }));
        assert!(is_unexpected(FedNumbers { place: 1, ..header }));
        assert!(is_unexpected(FedNumbers { count: 0, ..init }));
        assert!(is_unexpected(FedNumbers { count: 256, ..init }));
        assert!(is_unexpected(FedNumbers {
            number: 4097,
            ..init
        }));
        assert!(is_unexpected(FedNumbers {
            place: 4545,
            ..init
        }));
        assert!(is_unexpected(FedNumbers {
            place: u64::MAX,
            ..init
        }));
        assert!(fed(&init, &[7; 74], 32, 5).is_err());
        assert!(fed(&init, &[7; 75], 32, 5).is_ok());
    }

    /// An empty `gathered` is enough for frames, and too little for an Init message.
    #[test]
    fn lent_lengths() {
        let mut numbers = [0; NUMBERS];
        assert_eq!(
            feed(&mut numbers, &mut [], &[1, 0, 17]).map(|fed| fed.used),
            Ok(3)
        );
        let no_room = Error::Refused(Refusal::NoRoom);
        let stopped = Err(Stopped {
            error: no_room,
            position: 0,
        });
        assert_eq!(feed(&mut numbers[..3], &mut [], &[1]), stopped);
        assert_eq!(start_frames(&mut numbers[1..]), Err(no_room));
        assert_eq!(start_init1(0x23, Enabled::default(), &mut []), Err(no_room));
        assert_eq!(
            start_init2(0x23, &[], &mut numbers, &mut [0; GATHERED - 1]),
            Err(no_room)
        );
        assert_eq!(numbers, [3, 3, 20, 3]);
        assert_eq!(start_init1(0x23, Enabled::default(), &mut numbers), Ok(()));
        assert_eq!(feed(&mut numbers, &mut [], &[]), stopped);
        assert_eq!(numbers, [0, 0x23, 0, 4]);
    }

    /// A start that is refused leaves a reader as it was, also one that has refused.
    #[test]
    fn refused_starts() {
        let mut reader = Pieces::frames();
        let stopped = reader.feed(&[0, 0, 0]).expect_err("no frame");
        let unfit = Err(Error::Refused(Refusal::Unfit));
        assert_eq!(reader.start_init1(Tep::P256, Enabled::default()), unfit);
        assert_eq!(reader.start_init2(Tep::Curve448, &[1; 256]), unfit);
        assert_eq!(reader.feed(&[]), Err(stopped));
        assert!(
            Pieces::init2(Tep::P521, &[1]).is_err()
                && Pieces::init2(Tep::Curve448, &[0; 255]).is_ok()
        );
    }
}
