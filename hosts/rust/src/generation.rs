//! Generations of keys and rekeying (RFC 8548, 3.8): which generation a frame is sent or opened with.

use crate::reply::{flag, refusal};
use crate::{ffi, Error};

/// The generation record of one connection. The rules hold for any record; a connection's own begins as [`Generations::new`] has it.
///
/// ```
/// use door_link::{Error, Generations, Refusal, Sent};
/// # fn main() -> Result<(), Error> {
/// let mut generations = Generations::new()?;
/// assert_eq!(generations.send(false)?, Sent { generation: 0, rekey: false });
///
/// // A frame with the rekey bit comes. Its tag is tested with the keys of its generation: only then does the step count, and a frame with the bit is owed.
/// let received = generations.receive(true)?;
/// assert_eq!(received.generation(), 1);
/// drop(received); // a bad tag: the record is as before
/// assert!(!generations.is_owed()?);
/// generations.receive(true)?.accept();
/// assert!(generations.is_owed()?);
/// assert_eq!(generations.initiate(true, false), Err(Error::Refused(Refusal::OutOfTurn)));
/// assert_eq!(generations.send(true)?, Sent { generation: 1, rekey: true });
/// assert_eq!(generations, Generations { local: 1, remote: 1, last: 1, fin: true });
/// assert_eq!(generations.send(false), Err(Error::Refused(Refusal::Finished)));
///
/// // After FINp this end still follows, and owes nothing.
/// assert_eq!(generations.receive(true)?.accept(), 2);
/// assert_eq!(generations, Generations { local: 2, remote: 2, last: 1, fin: true });
/// assert!(!generations.is_owed()?);
/// assert_eq!(generations.initiate(true, false), Err(Error::Refused(Refusal::Finished)));
/// # Ok(())
/// # }
/// ```
#[derive(Clone, Copy, PartialEq, Eq, Default, Debug)]
pub struct Generations {
    /// The generation that this end is to send with, while it may send.
    pub local: u16,
    /// The generation that the other end sends with.
    pub remote: u16,
    /// The generation that this end last sent with.
    pub last: u16,
    /// Whether this end sent FINp.
    pub fin: bool,
}

/// The frame to be sent.
#[derive(Clone, Copy, PartialEq, Eq, Debug)]
pub struct Sent {
    /// The generation whose key ciphers it.
    pub generation: u16,
    /// Its rekey bit.
    pub rekey: bool,
}

/// A frame that came and whose tag is not known yet: [`accept`](Received::accept) it, or drop it.
#[derive(PartialEq, Eq, Debug)]
#[must_use = "the record changes only when the frame is accepted"]
pub struct Received<'a> {
    record: &'a mut Generations,
    next: Generations,
    generation: u16,
}

impl Received<'_> {
    /// The generation whose key opens the frame.
    #[inline]
    pub const fn generation(&self) -> u16 {
        self.generation
    }

    /// The tag was good: the record goes on. Gives the frame's generation.
    #[inline]
    pub fn accept(self) -> u16 {
        *self.record = self.next;
        self.generation
    }
}

impl Generations {
    /// The record of a new connection: all numbers 0, no FINp.
    #[inline]
    pub fn new() -> Result<Generations, Error> {
        taken(ffi::generation::first_record())
    }

    /// A frame is to be sent, with FINp or without. One generation at a time: where a rekey frame is owed, this is it.
    ///
    /// Refused: 14.
    #[inline]
    pub fn send(&mut self, fin: bool) -> Result<Sent, Error> {
        let (next, sent) = sent(&ffi::generation::send(*self, fin), *self)?;
        *self = next;
        Ok(sent)
    }

    /// This end begins the next generation, and sends one frame, with data or without, with FINp or without.
    ///
    /// Refused: 4 where a rekey frame is owed, so never after FINp; 13; 14; 15 without data while `remote` is below `local`.
    #[inline]
    pub fn initiate(&mut self, has_data: bool, fin: bool) -> Result<Sent, Error> {
        let (next, sent) = sent(&ffi::generation::initiate(*self, has_data, fin), *self)?;
        *self = next;
        Ok(sent)
    }

    /// A frame came, with the rekey bit or without. What it gives says which generation's key opens the frame; the record changes once that is
    /// [accepted](Received::accept), which the host does when the tag was good. Dropped, it leaves the record as it was.
    ///
    /// Refused: 13.
    #[inline]
    pub fn receive(&mut self, rekey: bool) -> Result<Received<'_>, Error> {
        let (next, generation) = received(&ffi::generation::receive_frame(*self, rekey), *self)?;
        Ok(Received {
            record: self,
            next,
            generation,
        })
    }

    /// Whether a rekey frame is owed: `local` is above `last`, and FINp was not sent. Never refused.
    #[inline]
    pub fn is_owed(&self) -> Result<bool, Error> {
        flag(ffi::generation::is_owed(*self))
    }
}

/// A record as the library gave it back.
#[inline]
fn taken(record: ffi::generation::Record) -> Result<Generations, Error> {
    Ok(Generations {
        local: record.local,
        remote: record.remote,
        last: record.last,
        fin: flag(record.fin)?,
    })
}

/// The refusal of a step, which leaves the record as it was.
#[inline]
fn refused(numbers: &ffi::generation::GenerationNumbers, before: Generations) -> Error {
    match (numbers.kind, numbers.rekey) {
        (0, 0) if numbers.next == before.into() => refusal(usize::from(numbers.number)),
        _ => Error::Unexpected,
    }
}

/// Reads the numbers of a frame to be sent, each one tested.
#[inline]
fn sent(
    numbers: &ffi::generation::GenerationNumbers,
    before: Generations,
) -> Result<(Generations, Sent), Error> {
    if numbers.kind != 15 {
        return Err(refused(numbers, before));
    }
    let sent = Sent {
        generation: numbers.number,
        rekey: flag(numbers.rekey)?,
    };
    Ok((taken(numbers.next)?, sent))
}

/// Reads the numbers of a frame received, each one tested.
#[inline]
fn received(
    numbers: &ffi::generation::GenerationNumbers,
    before: Generations,
) -> Result<(Generations, u16), Error> {
    match (numbers.kind, numbers.rekey) {
        (16, 0) => Ok((taken(numbers.next)?, numbers.number)),
        _ => Err(refused(numbers, before)),
    }
}

#[cfg(test)]
mod tests {
    use super::*;
    use crate::Refusal;
    use ffi::generation::{GenerationNumbers, Record};

    const BEFORE: Generations = Generations {
        local: 3,
        remote: 2,
        last: 3,
        fin: true,
    };

    fn numbers(kind: u8, number: u16, rekey: u8) -> GenerationNumbers {
        GenerationNumbers {
            next: BEFORE.into(),
            number,
            kind,
            rekey,
        }
    }

    #[test]
    fn numbers_that_the_header_has_not() {
        let refused = Error::Refused(Refusal::Finished);
        assert_eq!(sent(&numbers(0, 14, 0), BEFORE), Err(refused));
        assert_eq!(received(&numbers(0, 14, 0), BEFORE), Err(refused));
        let frame = Sent {
            generation: 0xffff,
            rekey: true,
        };
        assert_eq!(sent(&numbers(15, 0xffff, 1), BEFORE), Ok((BEFORE, frame)));
        assert_eq!(
            received(&numbers(16, 0xffff, 0), BEFORE),
            Ok((BEFORE, 0xffff))
        );
        for (kind, number, rekey) in [
            (0, 14, 1),
            (0, 0, 0),
            (0, 17, 0),
            (0, 0xffff, 0),
            (14, 1, 0),
        ] {
            let numbers = numbers(kind, number, rekey);
            assert_eq!(sent(&numbers, BEFORE), Err(Error::Unexpected));
            assert_eq!(received(&numbers, BEFORE), Err(Error::Unexpected));
        }
        assert_eq!(sent(&numbers(15, 1, 2), BEFORE), Err(Error::Unexpected));
        assert_eq!(sent(&numbers(16, 1, 0), BEFORE), Err(Error::Unexpected));
        assert_eq!(received(&numbers(15, 1, 0), BEFORE), Err(Error::Unexpected));
        assert_eq!(received(&numbers(16, 1, 1), BEFORE), Err(Error::Unexpected));
    }

    /// A flag that is neither 0 nor 1, and a refusal that changes the record.
    #[test]
    fn records_that_the_header_has_not() {
        for fin in 2..=255 {
            let next = Record {
                fin,
                ..BEFORE.into()
            };
            assert_eq!(taken(next), Err(Error::Unexpected));
            for kind in [0, 15, 16] {
                let numbers = GenerationNumbers {
                    next,
                    ..numbers(kind, 14, 0)
                };
                assert_eq!(sent(&numbers, BEFORE), Err(Error::Unexpected));
                assert_eq!(received(&numbers, BEFORE), Err(Error::Unexpected));
            }
        }
        let other = Generations { last: 2, ..BEFORE };
        assert_eq!(sent(&numbers(0, 14, 0), other), Err(Error::Unexpected));
        assert_eq!(received(&numbers(0, 14, 0), other), Err(Error::Unexpected));
    }

    /// The record changes where a frame is accepted, and not before.
    #[test]
    fn received_and_dropped() {
        let mut record = Generations::default();
        for rekey in [false, true] {
            let before = record;
            let generation = u16::from(rekey);
            let told = record.receive(rekey).map(|received| received.generation());
            assert_eq!((told, record), (Ok(generation), before));
            let told = record.receive(rekey).map(Received::accept);
            assert_eq!((told, record.remote), (Ok(generation), generation));
        }
    }

    #[test]
    fn the_first_record() {
        assert_eq!(Generations::new(), Ok(Generations::default()));
    }
}
