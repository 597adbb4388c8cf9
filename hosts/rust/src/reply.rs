//! What the calls give back, and the reading of the library's plain numbers: every number is tested, and one that the library's header does not have
//! is [`Error::Unexpected`].

use core::fmt;

use crate::{ffi, Tep};

/// Why a call gave back no value.
#[derive(Clone, Copy, PartialEq, Eq, Debug)]
#[non_exhaustive]
pub enum Error {
    /// The call is refused: unit and lent buffer are as found.
    Refused(Refusal),
    /// The library gave back numbers that its header does not have, so that another library must be linked than the proved one. The unit is as
    /// found; of a lent buffer nothing is known.
    Unexpected,
}

/// Why a call is refused. Where several apply, the one with the lowest number is given.
#[derive(Clone, Copy, PartialEq, Eq, Debug)]
#[non_exhaustive]
#[repr(u8)]
pub enum Refusal {
    /// No door has this number.
    NoDoor = 1,
    /// The option area is above 40 bytes.
    AreaTooLong = 2,
    /// An argument does not fit: each call says which.
    Unfit = 3,
    /// The call is not for the phase that the door is in; or a rekey frame is owed (FINp was not sent), so that none may be begun.
    OutOfTurn = 4,
    /// The lent buffer is shorter than what is to be written.
    NoRoom = 5,
    /// The door holds four session records.
    Full = 6,
    /// The door holds, or has in hand, a record of this TEP and identifier.
    AlreadyHeld = 7,
    /// The bytes are no Init message, whatever follows them.
    NoInit = 8,
    /// The Init message is not complete; or a frame's header is below three bytes.
    Incomplete = 9,
    /// There is no common cipher.
    NoCipher = 10,
    /// The frame's ciphertext is below 17 or above 65,535 bytes (a plaintext above 65,519), or the offset after it passes 2^64 - 1.
    NoFrame = 11,
    /// The plaintext has no bytes, or URGp and fewer than three.
    NoPlaintext = 12,
    /// A generation would pass 65,535.
    PastLast = 13,
    /// FINp was sent.
    Finished = 14,
    /// A generation may not be begun without data while the other end's is below this end's.
    Unanswered = 15,
    /// The door holds no record of this TEP and identifier.
    NotHeld = 16,
}

impl Refusal {
    /// The number in document 01.
    pub const fn number(self) -> u8 {
        self as u8
    }

    #[inline]
    fn read(number: usize) -> Option<Refusal> {
        Some(match number {
            1 => Refusal::NoDoor,
            2 => Refusal::AreaTooLong,
            3 => Refusal::Unfit,
            4 => Refusal::OutOfTurn,
            5 => Refusal::NoRoom,
            6 => Refusal::Full,
            7 => Refusal::AlreadyHeld,
            8 => Refusal::NoInit,
            9 => Refusal::Incomplete,
            10 => Refusal::NoCipher,
            11 => Refusal::NoFrame,
            12 => Refusal::NoPlaintext,
            13 => Refusal::PastLast,
            14 => Refusal::Finished,
            15 => Refusal::Unanswered,
            16 => Refusal::NotHeld,
            _ => return None,
        })
    }
}

impl fmt::Display for Refusal {
    fn fmt(&self, f: &mut fmt::Formatter<'_>) -> fmt::Result {
        f.write_str(match self {
            Refusal::NoDoor => "there is no such door",
            Refusal::AreaTooLong => "the option area is above 40 bytes",
            Refusal::Unfit => "an argument does not fit",
            Refusal::OutOfTurn => "out of turn",
            Refusal::NoRoom => "the lent buffer is too short",
            Refusal::Full => "the door holds four session records",
            Refusal::AlreadyHeld => "the door has this session record already",
            Refusal::NoInit => "no Init message begins so",
            Refusal::Incomplete => "more bytes are needed",
            Refusal::NoCipher => "there is no common cipher",
            Refusal::NoFrame => "a length or an offset that no frame has",
            Refusal::NoPlaintext => "the plaintext is too short",
            Refusal::PastLast => "the generations are used up",
            Refusal::Finished => "FINp was sent",
            Refusal::Unanswered => {
                "a generation is begun with data, or once the other end has followed"
            }
            Refusal::NotHeld => "the door does not hold this session record",
        })
    }
}

impl fmt::Display for Error {
    fn fmt(&self, f: &mut fmt::Formatter<'_>) -> fmt::Result {
        match self {
            Error::Refused(refusal) => write!(f, "refused with {}: {refusal}", refusal.number()),
            Error::Unexpected => {
                f.write_str("the library gave back numbers that its header does not have")
            }
        }
    }
}

impl core::error::Error for Error {}

/// Why a connection is plain TCP. It goes on without encryption; none is a refusal.
#[derive(Clone, Copy, PartialEq, Eq, Debug)]
#[non_exhaustive]
pub enum Reason {
    /// 1: the option area is unreadable. One option makes it so: its length byte is absent, below 2, or beyond the area's end.
    Unreadable {
        /// Where that option begins, 0 to 39 from the area's start.
        place: u8,
        /// Its kind byte, 2 to 255.
        kind: u8,
    },
    /// 2: there is no ENO option.
    NoOption,
    /// 3: the ENO option is ill-formed.
    IllFormed,
    /// 4: both sides sent the same b.
    EqualRoles,
    /// 5: this end is mandatory-aware, and the other side's a is 0.
    NotAware,
    /// 6: there is no valid TEP.
    NoTep,
    /// 7: the option of a second SYN is another one.
    Altered,
}

impl Reason {
    /// The number in document 01.
    pub const fn number(self) -> u8 {
        match self {
            Reason::Unreadable { .. } => 1,
            Reason::NoOption => 2,
            Reason::IllFormed => 3,
            Reason::EqualRoles => 4,
            Reason::NotAware => 5,
            Reason::NoTep => 6,
            Reason::Altered => 7,
        }
    }

    /// The reasons that have a number alone.
    fn read(number: usize) -> Option<Reason> {
        Some(match number {
            2 => Reason::NoOption,
            3 => Reason::IllFormed,
            4 => Reason::EqualRoles,
            5 => Reason::NotAware,
            6 => Reason::NoTep,
            7 => Reason::Altered,
            _ => return None,
        })
    }
}

impl fmt::Display for Reason {
    fn fmt(&self, f: &mut fmt::Formatter<'_>) -> fmt::Result {
        f.write_str(match self {
            Reason::Unreadable { place, kind } => {
                return write!(f, "unreadable option area: place {place}, kind {kind:02x}");
            }
            Reason::NoOption => "no ENO option",
            Reason::IllFormed => "ill-formed ENO option",
            Reason::EqualRoles => "both sides sent the same b",
            Reason::NotAware => "the other side is not aware",
            Reason::NoTep => "no valid TEP",
            Reason::Altered => "the option was altered",
        })
    }
}

/// An end's role in a connection.
#[derive(Clone, Copy, PartialEq, Eq, Debug)]
#[repr(u8)]
pub enum Role {
    /// Host A, with b = 0: the usual active opener.
    A = 0,
    /// Host B, with b = 1.
    B = 1,
}

impl Role {
    /// The bit b.
    pub const fn number(self) -> u8 {
        self as u8
    }

    /// The role of a bit b.
    pub const fn of(b: u8) -> Option<Role> {
        match b {
            0 => Some(Role::A),
            1 => Some(Role::B),
            _ => None,
        }
    }
}

/// What [`answer`](crate::LinkUnit::answer) came to.
#[derive(Clone, Copy, PartialEq, Eq, Debug)]
pub enum Reply {
    /// So many bytes were written to the lent buffer, from its start: the option for the SYN+ACK. The door is Answered.
    Written(usize),
    /// The connection is plain TCP; nothing was written.
    Plain(Reason),
}

/// The phase that a door is in after [`receive`](crate::LinkUnit::receive).
#[derive(Clone, Copy, PartialEq, Eq, Debug)]
#[non_exhaustive]
pub enum Phase {
    /// No connection.
    Idle,
    /// The option for a SYN was written, and no answer is known.
    Offered,
    /// Both sides sent a SYN.
    Crossed,
    /// The option for a SYN+ACK was written.
    Answered,
    /// Encryption is agreed.
    Open,
    /// The connection is plain TCP.
    Plain(Reason),
}

/// A session's secret. It is overwritten when dropped, and [`Debug`](fmt::Debug) does not show it.
#[derive(Clone)]
pub struct Secret([u8; crate::SECRET]);

impl Secret {
    /// The secret's bytes.
    pub const fn bytes(&self) -> &[u8; crate::SECRET] {
        &self.0
    }
}

impl fmt::Debug for Secret {
    fn fmt(&self, f: &mut fmt::Formatter<'_>) -> fmt::Result {
        f.write_str("Secret(..)")
    }
}

impl Drop for Secret {
    fn drop(&mut self) {
        ffi::overwrite(&mut self.0);
    }
}

/// How a connection comes to its keys.
#[derive(Clone, Debug)]
pub enum Way {
    /// Keys are to be agreed afresh.
    Fresh,
    /// A session is resumed; this is its secret.
    Resumed(Secret),
}

/// What a connection is, as [`result`](crate::LinkUnit::result) tells it.
#[derive(Clone, Debug)]
pub enum Outcome {
    /// Encryption is agreed.
    Encrypted {
        /// This end's role in this connection.
        role: Role,
        /// The TEP, as Init messages and [`store`](crate::LinkUnit::store) take it.
        tep: Tep,
        /// The TEP byte as host B sent it, perhaps with the bit v (0x80). It does not say whether a session is resumed: `way` does.
        byte: u8,
        /// Fresh, or resumed with its secret.
        way: Way,
        /// So many bytes of the transcript were written to the lent buffer: host A's option, then host B's.
        transcript: usize,
    },
    /// The connection is plain TCP; nothing was written.
    Plain(Reason),
}

/// What an option area has.
#[derive(Clone, Copy, PartialEq, Eq, Debug)]
pub enum Status {
    /// An ENO option.
    Found,
    /// No ENO option, or two of them in a SYN.
    Nothing,
    /// Bytes that are no list of options. One option makes them so: its length byte is absent, below 2, or beyond the area's end.
    Unreadable {
        /// Where that option begins, 0 to 39 from the area's start.
        place: u8,
        /// Its kind byte, 2 to 255.
        kind: u8,
    },
}

/// A reply that is no refusal, its numbers tested one by one.
pub(crate) enum Told {
    Written(usize),
    Plain(Reason),
    Now(Phase),
    Encrypted {
        role: Role,
        tep: u8,
        resumed: bool,
        transcript: usize,
    },
    Done,
    Holds(usize),
    Status(Status),
    Next(u64),
}

impl Told {
    /// Reads the library's numbers; `room` is the length of the lent buffer. What a kind does not have must be 0.
    #[inline]
    pub(crate) fn read(reply: &ffi::Reply, room: usize) -> Result<Told, Error> {
        if (reply.place, reply.option) != (0, 0) {
            return Told::blamed(reply).ok_or(Error::Unexpected);
        }
        match (reply.kind, reply.role, reply.tep, reply.resumed) {
            (0, 0, 0, 0) => Err(refusal(reply.number)),
            (kind, 0, 0, 0) => Told::bare(kind, reply.number, room).ok_or(Error::Unexpected),
            (4, role @ 0..=1, tep, resumed @ 0..=1) if reply.number <= room => {
                Ok(Told::Encrypted {
                    role: if role == 0 { Role::A } else { Role::B },
                    tep,
                    resumed: resumed == 1,
                    transcript: reply.number,
                })
            }
            _ => Err(Error::Unexpected),
        }
    }

    /// The replies about an unreadable area: the place is one of the area, and the kind that of an option with a length byte.
    fn blamed(reply: &ffi::Reply) -> Option<Told> {
        let (place, kind) = (reply.place, reply.option);
        if usize::from(place) >= crate::OPTION || kind < 2 {
            return None;
        }
        match (
            reply.kind,
            reply.number,
            reply.role,
            reply.tep,
            reply.resumed,
        ) {
            (2, 1, 0, 0, 0) => Some(Told::Plain(Reason::Unreadable { place, kind })),
            (9, 0, 0, 0, 0) => Some(Told::Status(Status::Unreadable { place, kind })),
            _ => None,
        }
    }

    /// The kinds that have a number alone; phases are told from 0x1000000 on. (No TEP byte is 0, so that an encrypted connection is none of them.)
    #[inline]
    fn bare(kind: u8, number: usize, room: usize) -> Option<Told> {
        Some(match (kind, number) {
            (1, length) if length <= room => Told::Written(length),
            (2, number) => Told::Plain(Reason::read(number)?),
            (3, 0x100_0000) => Told::Now(Phase::Idle),
            (3, 0x100_0001) => Told::Now(Phase::Offered),
            (3, 0x100_0002) => Told::Now(Phase::Crossed),
            (3, 0x100_0003) => Told::Now(Phase::Answered),
            (3, 0x100_0004) => Told::Now(Phase::Open),
            (5, 0) => Told::Done,
            (6, count) if count <= crate::RECORDS => Told::Holds(count),
            (7, 0) => Told::Status(Status::Found),
            (8, 0) => Told::Status(Status::Nothing),
            (11, next) => Told::Next(next as u64),
            _ => return None,
        })
    }

    #[inline]
    pub(crate) fn written(self) -> Option<usize> {
        match self {
            Told::Written(length) => Some(length),
            _ => None,
        }
    }

    #[inline]
    pub(crate) fn next(self) -> Option<u64> {
        match self {
            Told::Next(next) => Some(next),
            _ => None,
        }
    }

    pub(crate) fn done(self) -> Option<()> {
        match self {
            Told::Done => Some(()),
            _ => None,
        }
    }
}

/// The refusal of this number, if there is one.
#[inline]
pub(crate) fn refusal(number: usize) -> Error {
    Refusal::read(number).map_or(Error::Unexpected, Error::Refused)
}

/// A flag in numbers.
#[inline]
pub(crate) fn flag(number: u8) -> Result<bool, Error> {
    match number {
        0 => Ok(false),
        1 => Ok(true),
        _ => Err(Error::Unexpected),
    }
}

/// The value of a reply; none where it is not one that the call has.
#[inline]
pub(crate) fn read<T>(
    reply: &ffi::Reply,
    room: usize,
    value: impl FnOnce(Told) -> Option<T>,
) -> Result<T, Error> {
    value(Told::read(reply, room)?).ok_or(Error::Unexpected)
}

/// The value of *result*'s reply. A secret where no session is resumed is not the library's. It is overwritten where it came from.
pub(crate) fn outcome(
    reply: &ffi::Reply,
    room: usize,
    told: &mut [u8; crate::SECRET],
) -> Result<Outcome, Error> {
    let secret = Secret(*told);
    ffi::overwrite(told);
    let given = secret.0.iter().fold(0, |all, byte| all | byte) != 0;
    let told = Told::read(reply, room);
    let resumed = matches!(told, Ok(Told::Encrypted { resumed: true, .. }));
    if given && !resumed {
        return Err(Error::Unexpected);
    }
    match told? {
        Told::Encrypted {
            role,
            tep,
            resumed,
            transcript,
        } => Ok(Outcome::Encrypted {
            role,
            tep: Tep::of(tep & 0x7f).ok_or(Error::Unexpected)?,
            byte: tep,
            way: if resumed {
                Way::Resumed(secret)
            } else {
                Way::Fresh
            },
            transcript,
        }),
        Told::Plain(reason) => Ok(Outcome::Plain(reason)),
        _ => Err(Error::Unexpected),
    }
}

#[cfg(test)]
mod tests {
    use super::*;

    fn read(number: usize, kind: u8, role: u8, tep: u8, resumed: u8) -> Result<Told, Error> {
        placed(number, kind, (role, tep, resumed), 0, 0)
    }

    /// With a place and the kind of an option.
    fn placed(
        number: usize,
        kind: u8,
        (role, tep, resumed): (u8, u8, u8),
        place: u8,
        option: u8,
    ) -> Result<Told, Error> {
        let reply = ffi::Reply {
            number,
            kind,
            role,
            tep,
            resumed,
            place,
            option,
        };
        Told::read(&reply, 40)
    }

    fn unexpected(told: Result<Told, Error>) -> bool {
        matches!(told, Err(Error::Unexpected))
    }

    /// Every kind with its least and greatest number, and one beyond.
    #[test]
    fn numbers_that_the_header_has_not() {
        for (kind, least, most) in [
            (0, 1, 16),
            (1, 0, 40),
            (2, 2, 7),
            (3, 0x100_0000, 0x100_0004),
            (5, 0, 0),
            (6, 0, 4),
            (7, 0, 0),
            (8, 0, 0),
        ] {
            for number in least..=most {
                assert!(!unexpected(read(number, kind, 0, 0, 0)));
                for (place, option) in [(0, 2), (0, 0x45), (6, 8), (39, 255), (1, 0), (0, 1)] {
                    assert!(unexpected(placed(number, kind, (0, 0, 0), place, option)));
                }
                assert!(unexpected(read(number, kind, 1, 0, 0)));
                assert!(unexpected(read(number, kind, 0, 0x23, 0)));
                assert!(unexpected(read(number, kind, 0, 0, 1)));
            }
            assert!(unexpected(read(most + 1, kind, 0, 0, 0)));
            assert!(unexpected(read(usize::MAX, kind, 0, 0, 0)));
            assert!(least == 0 || unexpected(read(least - 1, kind, 0, 0, 0)));
        }
        for kind in (9..=255).filter(|kind| *kind != 11) {
            assert!(unexpected(read(0, kind, 0, 0, 0)));
        }
        assert!(matches!(
            read(usize::MAX, 11, 0, 0, 0),
            Ok(Told::Next(u64::MAX))
        ));
        assert!(unexpected(read(95, 11, 1, 0, 0)));
        assert!(unexpected(placed(95, 11, (0, 0, 0), 0, 2)));
        assert!(unexpected(placed(40, 4, (1, 0xa3, 1), 0, 2)));
        assert!(unexpected(placed(40, 4, (1, 0xa3, 1), 1, 0)));
        assert!(!unexpected(read(40, 4, 1, 0xa3, 1)));
        assert!(unexpected(read(41, 4, 1, 0xa3, 1)));
        assert!(unexpected(read(40, 4, 2, 0xa3, 1)));
        assert!(unexpected(read(40, 4, 1, 0xa3, 2)));
        assert!(unexpected(read(40, 4, 0, 0, 0)));
    }

    /// Every place and every kind: those of an unreadable area with reason 1 and with the finder's word, and no other.
    #[test]
    fn places_and_kinds() {
        for (place, option) in (0..=255).flat_map(|place| (0..=255).map(move |kind| (place, kind)))
        {
            let good = place < 40 && option > 1;
            let plain = placed(1, 2, (0, 0, 0), place, option);
            let word = placed(0, 9, (0, 0, 0), place, option);
            if !good {
                assert!(unexpected(plain) && unexpected(word));
                continue;
            }
            assert!(matches!(
                plain,
                Ok(Told::Plain(Reason::Unreadable { place: p, kind: k })) if (p, k) == (place, option)
            ));
            assert!(matches!(
                word,
                Ok(Told::Status(Status::Unreadable { place: p, kind: k })) if (p, k) == (place, option)
            ));
        }
        for others in [(1, 0, 0), (0, 0x23, 0), (0, 0, 1)] {
            assert!(unexpected(placed(1, 2, others, 6, 8)));
            assert!(unexpected(placed(0, 9, others, 6, 8)));
        }
        assert!(unexpected(placed(0, 2, (0, 0, 0), 6, 8)));
        assert!(unexpected(placed(1, 9, (0, 0, 0), 6, 8)));
        let shown = std::format!("{}", Reason::Unreadable { place: 6, kind: 8 });
        assert_eq!(shown, "unreadable option area: place 6, kind 08");
    }

    #[test]
    fn refusals_and_reasons_keep_their_numbers() {
        for number in 0..=300 {
            let refusal = Refusal::read(number).map(|refusal| usize::from(refusal.number()));
            assert_eq!(refusal, (1..=16).contains(&number).then_some(number));
            let reason = Reason::read(number).map(|reason| usize::from(reason.number()));
            assert_eq!(reason, (2..=7).contains(&number).then_some(number));
        }
        assert_eq!(
            Reason::Unreadable {
                place: 39,
                kind: 255
            }
            .number(),
            1
        );
    }

    #[test]
    fn secrets_where_none_should_be() {
        let reply = |kind, number, resumed| ffi::Reply {
            number,
            kind,
            role: 0,
            tep: if kind == 4 { 0x23 } else { 0 },
            resumed,
            place: 0,
            option: 0,
        };
        let mut secret = [0; 32];
        secret[31] = 1;
        let refused = Err(Error::Refused(Refusal::OutOfTurn));
        for (reply, expected) in [
            (reply(0, 4, 0), refused),
            (reply(2, 6, 0), Ok(())),
            (reply(4, 8, 0), Ok(())),
        ] {
            assert_eq!(outcome(&reply, 40, &mut [0; 32]).map(|_| ()), expected);
            let shown = outcome(&reply, 40, &mut { secret }).map(|_| ());
            assert_eq!(shown, Err(Error::Unexpected));
        }
        for secret in [secret, [0; 32]] {
            let mut told = secret;
            let resumed = outcome(&reply(4, 8, 1), 40, &mut told);
            assert_eq!(told, [0; 32]);
            assert!(matches!(
                resumed,
                Ok(Outcome::Encrypted { way: Way::Resumed(s), transcript: 8, .. }) if s.bytes() == &secret
            ));
        }
        let unknown = ffi::Reply {
            tep: 0xa5,
            ..reply(4, 8, 0)
        };
        let unknown = outcome(&unknown, 40, &mut [0; 32]).map(|_| ());
        assert_eq!(unknown, Err(Error::Unexpected));
        let other = outcome(&reply(5, 0, 0), 40, &mut [0; 32]).map(|_| ());
        assert_eq!(other, Err(Error::Unexpected));
    }
}
