//! What two option areas come to, for captures and diagnosis. A door's calls judge by the same rules inside.

use core::fmt;

use crate::reply::Told;
use crate::{ffi, untyped, Error, Reason, Role, Tep, IDENTIFIER, TRANSCRIPT};

/// The session record that an end has in hand when it judges. The secret plays no part, so it is not asked for. [`Debug`](fmt::Debug) does not show the
/// identifier, half of which names the session to whoever would resume it.
#[derive(Clone, Copy, PartialEq, Eq)]
pub struct InHand {
    /// The TEP.
    pub tep: Tep,
    /// The end's role in the connection that made the session.
    pub role: Role,
    /// Host A sends the first nine bytes, host B the last nine.
    pub identifier: [u8; IDENTIFIER],
}

impl fmt::Debug for InHand {
    fn fmt(&self, f: &mut fmt::Formatter<'_>) -> fmt::Result {
        let (tep, role) = (&self.tep, &self.role);
        f.debug_struct("InHand")
            .field("tep", tep)
            .field("role", role)
            .finish_non_exhaustive()
    }
}

/// Host A's ENO option, then host B's.
#[derive(Clone, Copy, PartialEq, Eq)]
pub struct Transcript {
    bytes: [u8; TRANSCRIPT],
    length: usize,
}

impl Transcript {
    /// The transcript's bytes.
    #[inline]
    pub fn bytes(&self) -> &[u8] {
        self.bytes.get(..self.length).unwrap_or(&self.bytes)
    }
}

impl fmt::Debug for Transcript {
    fn fmt(&self, f: &mut fmt::Formatter<'_>) -> fmt::Result {
        write!(f, "Transcript({:02x?})", self.bytes())
    }
}

/// What two option areas come to.
#[derive(Clone, Copy, PartialEq, Eq, Debug)]
pub enum Judgement {
    /// Encryption is agreed.
    Encrypted {
        /// The role of the end that judges.
        role: Role,
        /// The TEP.
        tep: Tep,
        /// The TEP byte as host B sent it, perhaps with the bit v (0x80).
        byte: u8,
        /// Whether the session in hand is resumed.
        resumed: bool,
        /// Host A's option, then host B's.
        transcript: Transcript,
    },
    /// The connection is plain TCP, for reason 1 to 6.
    Plain(Reason),
}

/// Judges the option areas of two SYN segments (SYN+ACK included), each 0 to 40 bytes, for the end that sent `own`; `mandatory` says whether that end
/// asks the other side to be aware. Where both areas are unreadable, place and kind are those of `own`.
///
/// Refused: 2.
///
/// ```
/// use door_link::{judge, InHand, Judgement, Reason, Role, Tep};
/// # fn main() -> Result<(), door_link::Error> {
/// let fresh = judge(&[0x45, 4, 0x21, 0x23], &[1, 0x45, 4, 0x01, 0x23], false, None)?;
/// let Judgement::Encrypted { role: Role::A, tep: Tep::Curve25519, resumed: false, transcript, .. } = fresh else {
///     unreachable!("both sent Curve25519");
/// };
/// assert_eq!(transcript.bytes(), [0x45, 4, 0x21, 0x23, 0x45, 4, 0x01, 0x23]);
///
/// let same = judge(&[0x45, 3, 0x23], &[0x45, 3, 0x23], false, None)?;
/// assert_eq!(same, Judgement::Plain(Reason::EqualRoles));
///
/// let broken = judge(&[0x45, 3, 0x23], &[0x45, 3, 0x23, 2], false, None)?;
/// assert_eq!(broken, Judgement::Plain(Reason::Unreadable { place: 3, kind: 2 }));
///
/// let hand = InHand { tep: Tep::Curve25519, role: Role::A, identifier: [7; 18] };
/// let own = [0x45, 12, 0xa3, 7, 7, 7, 7, 7, 7, 7, 7, 7];
/// let peer = [0x45, 13, 1, 0xa3, 7, 7, 7, 7, 7, 7, 7, 7, 7];
/// let resumed = judge(&own, &peer, false, Some(&hand))?;
/// assert!(matches!(resumed, Judgement::Encrypted { byte: 0xa3, resumed: true, .. }));
/// # Ok(())
/// # }
/// ```
#[inline]
pub fn judge(
    own: &[u8],
    peer: &[u8],
    mandatory: bool,
    hand: Option<&InHand>,
) -> Result<Judgement, Error> {
    judge_of(own, peer, mandatory, hand.map(numbers_of).as_ref())
}

/// As [`judge`](crate::judge), by the plain judge: it lists all suboptions, strikes the ones not valid and takes the last, and is slower. That both say the same of every two areas is
/// proved.
///
/// ```
/// use door_link::{judge, judge_plainly};
/// let (own, peer) = ([0x45, 4, 0x21, 0x23], [0x45, 4, 0x01, 0x23]);
/// assert_eq!(judge_plainly(&own, &peer, false, None), judge(&own, &peer, false, None));
/// ```
#[inline]
pub fn judge_plainly(
    own: &[u8],
    peer: &[u8],
    mandatory: bool,
    hand: Option<&InHand>,
) -> Result<Judgement, Error> {
    judge_plainly_of(own, peer, mandatory, hand.map(numbers_of).as_ref())
}

/// The record in hand as the library takes it.
#[inline]
fn numbers_of(hand: &InHand) -> untyped::InHand {
    untyped::InHand {
        tep: hand.tep.number(),
        role: hand.role.number(),
        identifier: hand.identifier,
    }
}

/// As [`judge`](crate::judge).
#[inline]
pub fn judge_of(
    own: &[u8],
    peer: &[u8],
    mandatory: bool,
    hand: Option<&untyped::InHand>,
) -> Result<Judgement, Error> {
    judgement(&ffi::judge::judge(own, peer, mandatory, hand))
}

/// As [`judge_plainly`](crate::judge_plainly).
#[inline]
pub fn judge_plainly_of(
    own: &[u8],
    peer: &[u8],
    mandatory: bool,
    hand: Option<&untyped::InHand>,
) -> Result<Judgement, Error> {
    judgement(&ffi::judge::judge_plainly(own, peer, mandatory, hand))
}

/// Reads the judge's numbers, each one tested: bytes past the transcript are zeros, and all of them where there is none.
#[inline]
fn judgement(numbers: &ffi::judge::JudgementNumbers) -> Result<Judgement, Error> {
    let told = Told::read(&numbers.reply, TRANSCRIPT);
    let length = match &told {
        Ok(Told::Encrypted { transcript, .. }) => *transcript,
        _ => 0,
    };
    let rest = numbers.transcript.get(length..).unwrap_or(&[1]);
    if rest.iter().fold(0, |all, byte| all | byte) != 0 {
        return Err(Error::Unexpected);
    }
    match told? {
        Told::Encrypted {
            role, tep, resumed, ..
        } => Ok(Judgement::Encrypted {
            role,
            tep: Tep::of(tep & 0x7f).ok_or(Error::Unexpected)?,
            byte: tep,
            resumed,
            transcript: Transcript {
                bytes: numbers.transcript,
                length,
            },
        }),
        Told::Plain(reason) if reason != Reason::Altered => Ok(Judgement::Plain(reason)),
        _ => Err(Error::Unexpected),
    }
}

#[cfg(test)]
mod tests {
    use super::*;
    use crate::Refusal;
    use std::format;

    fn of(kind: u8, number: usize, tep: u8, byte: usize) -> Result<Judgement, Error> {
        let mut transcript = [0; TRANSCRIPT];
        if let Some(byte) = transcript.get_mut(byte) {
            *byte = 1;
        }
        judgement(&ffi::judge::JudgementNumbers {
            reply: ffi::Reply {
                number,
                kind,
                role: 0,
                tep,
                resumed: 0,
                place: 0,
                option: 0,
            },
            transcript,
        })
    }

    #[test]
    fn no_identifier_is_shown() {
        let hand = InHand {
            tep: Tep::P521,
            role: Role::B,
            identifier: [0xab; IDENTIFIER],
        };
        assert_eq!(format!("{hand:?}"), "InHand { tep: P521, role: B, .. }");
        let hand = untyped::InHand {
            tep: 0x22,
            role: 1,
            identifier: [0xab; IDENTIFIER],
        };
        assert_eq!(format!("{hand:?}"), "InHand { tep: 34, role: 1, .. }");
    }

    #[test]
    fn numbers_that_the_header_has_not() {
        let none = TRANSCRIPT;
        assert!(of(4, 80, 0x23, 79).is_ok());
        assert!(of(4, 7, 0x23, 6).is_ok());
        let short = of(4, 2, 0x23, 1).map(|judged| format!("{judged:?}"));
        assert!(short.is_ok_and(|text| text.contains("transcript: Transcript([00, 01])")));
        assert_eq!(of(2, 6, 0, none), Ok(Judgement::Plain(Reason::NoTep)));
        let refused = Err(Error::Refused(Refusal::AreaTooLong));
        assert_eq!(of(0, 2, 0, none), refused);
        for (kind, number, tep, byte) in [
            (4, 81, 0x23, none),
            (4, 7, 0x23, 7),
            (4, 7, 0x25, none),
            (2, 1, 0, none),
            (2, 6, 0, 0),
            (2, 7, 0, none),
            (2, 8, 0, none),
            (0, 2, 0, 79),
            (5, 0, 0, none),
            (1, 8, 0, none),
            (11, 8, 0, none),
        ] {
            assert_eq!(of(kind, number, tep, byte), Err(Error::Unexpected));
        }
    }
}
