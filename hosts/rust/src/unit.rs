//! The unit: its doors and its pool of session records, with a method for each call.

use core::fmt;

use crate::reply::{outcome, read, Told};
use crate::{ffi, untyped, Error, Outcome, Phase, Reply, Role, Tep, IDENTIFIER, SECRET};

/// What [`LinkUnit::offer`] is given.
#[derive(Clone, Copy, PartialEq, Eq, Debug)]
pub struct Offer<'a> {
    /// This end's role: the bit b.
    pub role: Role,
    /// The application-aware bit a.
    pub aware: bool,
    /// Plain TCP unless the other side is aware too.
    pub mandatory: bool,
    /// One to four TEPs in rising priority.
    pub teps: &'a [Tep],
    /// Whether to propose the oldest session record that the door holds of a listed TEP. That record leaves the pool for good:
    /// go on from this unit alone.
    pub resume: bool,
    /// Eight random bytes for the resumption, never used before with that session; 0 to 8 are taken.
    pub nonce: &'a [u8],
}

/// What [`LinkUnit::answer`] is given.
#[derive(Clone, Copy, PartialEq, Eq, Debug)]
pub struct Answer<'a> {
    /// The TCP option area of the SYN, 0 to 40 bytes: all of it, not only the ENO option.
    pub area: &'a [u8],
    /// The application-aware bit a.
    pub aware: bool,
    /// Plain TCP unless the other side is aware too.
    pub mandatory: bool,
    /// One to four TEPs in rising priority.
    pub teps: &'a [Tep],
    /// Eight random bytes for the resumption, never used before with that session; 0 to 8 are taken.
    pub nonce: &'a [u8],
}

/// All doors and the pool of session records: 8,640 bytes, which each call changes in place.
///
/// A unit holds secrets: [`Debug`](fmt::Debug) shows none of its bytes, and it is erased when dropped. A record that is dropped, forgotten or erased is
/// zeros in the unit afterwards. A call leaves no other door's secret on the stack. Where a unit is moved, its bytes stay behind in the place that it left:
/// keep it where it was made, behind a reference.
///
/// There is no `Clone`: go on from the latest unit alone. An older copy still holds the session records that were used since, and would propose them again,
/// which RFC 8548, section 3.5, forbids. [`copy_for_trial`](LinkUnit::copy_for_trial) makes a copy that is thrown away. Never keep a unit in non-volatile memory.
///
/// Over a real TCP stack, hand over only segments that TCP accepts for the connection, by their sequence and acknowledgement numbers; what else such a host has
/// to see to is said in hosts/c/door_link.h.
pub struct LinkUnit {
    pub(crate) unit: ffi::Unit,
}

impl LinkUnit {
    /// The empty unit: every door Idle, no session record.
    ///
    /// ```
    /// assert_eq!(door_link::LinkUnit::new().count(door_link::DOORS - 1), Ok(0));
    /// ```
    pub fn new() -> LinkUnit {
        LinkUnit { unit: ffi::new() }
    }

    /// An active open, or one that may cross with the other side's: writes this end's ENO option, to be put into the SYN's option area, and gives
    /// its length; 24 bytes are always enough. In Idle; Offered then.
    ///
    /// Lend just the room that the SYN has: refusal 5 leaves the session record in place. Then shorten `teps`, not `nonce`.
    ///
    /// Refused: 1; 3 where `teps` is empty, above four or repeated, `nonce` is above 8 bytes, or `mandatory` without `aware`; 4 not Idle; 5.
    ///
    /// ```
    /// use door_link::{Error, LinkUnit, Offer, Refusal, Role, Tep, OPTION};
    /// # fn main() -> Result<(), Error> {
    /// let (mut unit, mut out) = (LinkUnit::new(), [0; OPTION]);
    /// let teps = &[Tep::P256, Tep::Curve25519];
    /// let ask = Offer { role: Role::A, aware: false, mandatory: false, teps, resume: false, nonce: &[] };
    /// assert_eq!(unit.offer(0, ask, &mut out[..3]), Err(Error::Refused(Refusal::NoRoom)));
    /// let length = unit.offer(0, ask, &mut out)?;
    /// assert_eq!(out[..length], [0x45, 4, 0x21, 0x23]);
    /// assert_eq!(unit.offer(0, ask, &mut out), Err(Error::Refused(Refusal::OutOfTurn)));
    /// # Ok(())
    /// # }
    /// ```
    pub fn offer(&mut self, door: usize, ask: Offer<'_>, out: &mut [u8]) -> Result<usize, Error> {
        let (teps, length) = Tep::numbers(ask.teps);
        let ask = untyped::Offer {
            b: ask.role.number(),
            aware: ask.aware,
            mandatory: ask.mandatory,
            teps: teps.get(..length).unwrap_or(&teps),
            resume: ask.resume,
            nonce: ask.nonce,
        };
        untyped::offer(self, door, ask, out)
    }

    /// A passive open: takes the option area of a received SYN, chooses a TEP, and writes this end's ENO option for the SYN+ACK, for which 21 bytes are
    /// always enough; or ends in plain TCP, writes nothing and moves no record. In Idle; Answered or Plain then. A session record that the door holds
    /// is resumed where the SYN proposes it.
    ///
    /// Refused: 1; 2; 3 where `teps` is empty, above four or repeated, `nonce` is above 8 bytes, or `mandatory` without `aware`; 4 not Idle; 5.
    ///
    /// ```
    /// use door_link::{Answer, LinkUnit, Reason, Reply, Tep, OPTION};
    /// # fn main() -> Result<(), door_link::Error> {
    /// let (mut unit, mut out) = (LinkUnit::new(), [0; OPTION]);
    /// let ask = Answer { area: &[1, 0x45, 3, 0x23], aware: false, mandatory: false, teps: &[Tep::Curve25519], nonce: &[] };
    /// assert_eq!(unit.answer(4, ask, &mut out)?, Reply::Written(4));
    /// assert_eq!(out[..4], [0x45, 4, 1, 0x23]);
    ///
    /// // A SYN without an ENO option.
    /// assert_eq!(unit.answer(5, Answer { area: &[1], ..ask }, &mut out)?, Reply::Plain(Reason::NoOption));
    /// # Ok(())
    /// # }
    /// ```
    pub fn answer(&mut self, door: usize, ask: Answer<'_>, out: &mut [u8]) -> Result<Reply, Error> {
        let (teps, length) = Tep::numbers(ask.teps);
        let ask = untyped::Answer {
            area: ask.area,
            aware: ask.aware,
            mandatory: ask.mandatory,
            teps: teps.get(..length).unwrap_or(&teps),
            nonce: ask.nonce,
        };
        untyped::answer(self, door, ask, out)
    }

    /// A received segment: its flags SYN and ACK and its option area, 0 to 40 bytes. Gives the phase that the door is in now.
    ///
    /// * Offered. SYN+ACK: Open or Plain. SYN alone: Crossed or Plain.
    /// * Crossed. SYN+ACK: Open with the same option as before, else Plain. ACK alone: Open with an ENO option, else Plain.
    /// * Answered. SYN alone: no change with the same option as before, else Plain. ACK alone: Open with an ENO option, else Plain.
    /// * Open, Plain. Any segment: no change.
    ///
    /// Until the first segment without SYN has come, or the door is Plain, each segment without SYN that this end sends carries
    /// [`ACK_OPTION`](crate::ACK_OPTION), in either role (RFC 8547, 4.6). A host that demands encryption aborts the connection at Plain.
    ///
    /// Refused: 1; 2; 4 for anything else, Idle included.
    ///
    /// ```
    /// use door_link::{LinkUnit, Offer, Phase, Reason, Role, Tep, OPTION};
    /// # fn main() -> Result<(), door_link::Error> {
    /// let mut unit = LinkUnit::new();
    /// let ask = Offer { role: Role::A, aware: false, mandatory: false, teps: &[Tep::Curve25519], resume: false, nonce: &[] };
    /// unit.offer(0, ask, &mut [0; OPTION])?;
    /// unit.offer(1, ask, &mut [0; OPTION])?;
    /// assert_eq!(unit.receive(0, true, true, &[0x45, 4, 1, 0x23])?, Phase::Open);
    ///
    /// // A SYN+ACK whose option was stripped.
    /// assert_eq!(unit.receive(1, true, true, &[])?, Phase::Plain(Reason::NoOption));
    /// # Ok(())
    /// # }
    /// ```
    pub fn receive(
        &mut self,
        door: usize,
        syn: bool,
        ack: bool,
        area: &[u8],
    ) -> Result<Phase, Error> {
        let reply = ffi::receive(&mut self.unit, door, syn, ack, area);
        read(&reply, 0, |told| match told {
            Told::Now(phase) => Some(phase),
            Told::Plain(reason) => Some(Phase::Plain(reason)),
            _ => None,
        })
    }

    /// Writes the option that this end sent once more, for a retransmission, and gives its length. Changes nothing.
    ///
    /// A stack may send its SYN+ACK once more when the door is Open already: keep the bytes for that.
    ///
    /// Refused: 1; 4 where the door is not Offered, Crossed or Answered; 5.
    ///
    /// ```
    /// use door_link::{LinkUnit, Offer, Role, Tep, OPTION};
    /// # fn main() -> Result<(), door_link::Error> {
    /// let (mut unit, mut first, mut again) = (LinkUnit::new(), [0; OPTION], [0; OPTION]);
    /// let ask = Offer { role: Role::A, aware: false, mandatory: false, teps: &[Tep::Curve448], resume: false, nonce: &[] };
    /// let length = unit.offer(0, ask, &mut first)?;
    /// assert_eq!(unit.resend(0, &mut again)?, length);
    /// assert_eq!(first, again);
    /// # Ok(())
    /// # }
    /// ```
    pub fn resend(&self, door: usize, out: &mut [u8]) -> Result<usize, Error> {
        let reply = ffi::resend(&self.unit, door, out);
        read(&reply, out.len(), Told::written)
    }

    /// What the connection is. In Open it writes the transcript, for which 80 bytes are always enough; in Plain it gives the reason, with place and kind
    /// where it is [`Unreadable`](crate::Reason::Unreadable). Changes nothing and may be asked again.
    ///
    /// The keys of a resumed session go by the original role: where this end's nine bytes behind its resumption TEP are the identifier's first nine, it was host A.
    ///
    /// Refused: 1; 4 where the door is neither Open nor Plain; 5 in Open.
    ///
    /// ```
    /// use door_link::{Answer, LinkUnit, Outcome, Role, Tep, Way, ACK_OPTION, OPTION, TRANSCRIPT};
    /// # fn main() -> Result<(), door_link::Error> {
    /// let (mut unit, mut transcript) = (LinkUnit::new(), [0; TRANSCRIPT]);
    /// let ask = Answer { area: &[0x45, 3, 0x23], aware: false, mandatory: false, teps: &[Tep::Curve25519], nonce: &[] };
    /// unit.answer(4, ask, &mut [0; OPTION])?;
    /// unit.receive(4, false, true, &ACK_OPTION)?;
    /// let Outcome::Encrypted { role: Role::B, tep: Tep::Curve25519, way: Way::Fresh, transcript: length, .. } = unit.result(4, &mut transcript)? else {
    ///     unreachable!("both sent Curve25519");
    /// };
    /// assert_eq!(transcript[..length], [0x45, 3, 0x23, 0x45, 4, 1, 0x23]);
    /// # Ok(())
    /// # }
    /// ```
    pub fn result(&self, door: usize, out: &mut [u8]) -> Result<Outcome, Error> {
        let mut told = ffi::result(&self.unit, door, out);
        outcome(&told.reply, out.len(), &mut told.secret)
    }

    /// The connection is over: Idle, from any phase. A record in hand is dropped and overwritten; those that the door holds stay.
    ///
    /// Refused: 1.
    ///
    /// ```
    /// use door_link::{Error, LinkUnit, Refusal};
    /// let mut unit = LinkUnit::new();
    /// assert_eq!(unit.close(door_link::DOORS - 1), Ok(()));
    /// assert_eq!(unit.close(door_link::DOORS), Err(Error::Refused(Refusal::NoDoor)));
    /// ```
    pub fn close(&mut self, door: usize) -> Result<(), Error> {
        let reply = ffi::close(&mut self.unit, door);
        read(&reply, 0, Told::done)
    }

    /// Adds a session record to a door, as its newest; any phase. `role` is this end's role in the connection that made the session; host A sends the first
    /// nine bytes of `identifier`, host B the last nine. The same secret must not be stored again once its record was taken: that is for the host to see to.
    ///
    /// Refused: 1; 6; 7.
    ///
    /// ```
    /// use door_link::{Error, LinkUnit, Refusal, Role, Tep};
    /// # fn main() -> Result<(), Error> {
    /// let mut unit = LinkUnit::new();
    /// unit.store(0, Tep::P256, Role::A, &[7; 18], &[9; 32])?;
    /// let again = unit.store(0, Tep::P256, Role::B, &[7; 18], &[8; 32]);
    /// assert_eq!(again, Err(Error::Refused(Refusal::AlreadyHeld)));
    /// # Ok(())
    /// # }
    /// ```
    pub fn store(
        &mut self,
        door: usize,
        tep: Tep,
        role: Role,
        identifier: &[u8; IDENTIFIER],
        secret: &[u8; SECRET],
    ) -> Result<(), Error> {
        untyped::store(self, door, tep.number(), role.number(), identifier, secret)
    }

    /// Removes a session record from a door and overwrites it; any phase. A record in hand, or at another door, is not held here.
    ///
    /// Refused: 1; 16.
    ///
    /// ```
    /// use door_link::{Error, LinkUnit, Refusal, Role, Tep};
    /// # fn main() -> Result<(), Error> {
    /// let mut unit = LinkUnit::new();
    /// unit.store(0, Tep::P256, Role::A, &[7; 18], &[9; 32])?;
    /// unit.forget(0, Tep::P256, &[7; 18])?;
    /// assert_eq!(unit.forget(0, Tep::P256, &[7; 18]), Err(Error::Refused(Refusal::NotHeld)));
    /// # Ok(())
    /// # }
    /// ```
    pub fn forget(
        &mut self,
        door: usize,
        tep: Tep,
        identifier: &[u8; IDENTIFIER],
    ) -> Result<(), Error> {
        untyped::forget(self, door, tep.number(), identifier)
    }

    /// How many session records a door holds; one in hand is not counted. Changes nothing.
    ///
    /// Refused: 1.
    ///
    /// ```
    /// use door_link::{LinkUnit, Role, Tep};
    /// let mut unit = LinkUnit::new();
    /// assert_eq!(unit.store(3, Tep::P521, Role::B, &[7; 18], &[9; 32]), Ok(()));
    /// assert_eq!((unit.count(3), unit.count(4)), (Ok(1), Ok(0)));
    /// ```
    pub fn count(&self, door: usize) -> Result<usize, Error> {
        let reply = ffi::count(&self.unit, door);
        read(&reply, 0, |told| match told {
            Told::Holds(count) => Some(count),
            _ => None,
        })
    }

    /// Empties the whole unit: all records, all doors. Never refused.
    ///
    /// ```
    /// use door_link::{LinkUnit, Role, Tep};
    /// let mut unit = LinkUnit::new();
    /// assert_eq!(unit.store(3, Tep::P521, Role::B, &[7; 18], &[9; 32]), Ok(()));
    /// assert_eq!((unit.erase(), unit.count(3)), (Ok(()), Ok(0)));
    /// ```
    pub fn erase(&mut self) -> Result<(), Error> {
        let reply = ffi::erase(&mut self.unit);
        read(&reply, 0, Told::done)
    }

    /// Makes `trial` a copy of this unit, to try a call on it and throw it away: a passive end answers a SYN, which may be spoofed, on the copy, and again on the
    /// unit itself, with the same arguments, once the ACK has come.
    ///
    /// **Do not go on from the copy.** It holds the same secrets, and would propose sessions that this unit has used since, which RFC 8548, section 3.5, forbids.
    ///
    /// ```
    /// use door_link::{Answer, LinkUnit, Role, Tep, ACK_OPTION, OPTION};
    /// # fn main() -> Result<(), door_link::Error> {
    /// let (mut unit, mut trial) = (LinkUnit::new(), LinkUnit::new());
    /// unit.store(0, Tep::Curve25519, Role::B, &[7; 18], &[9; 32])?;
    /// let syn = [0x45, 12, 0xa3, 7, 7, 7, 7, 7, 7, 7, 7, 7];
    /// let ask = Answer { area: &syn, aware: false, mandatory: false, teps: &[Tep::Curve25519], nonce: &[1, 2, 3, 4, 5, 6, 7, 8] };
    ///
    /// // The SYN: its answer is made on a copy, and takes neither the door nor the record.
    /// let (mut sent, mut again) = ([0; OPTION], [0; OPTION]);
    /// unit.copy_for_trial(&mut trial);
    /// trial.answer(0, ask, &mut sent)?;
    /// trial.erase()?;
    /// assert_eq!(unit.count(0)?, 1);
    ///
    /// // The ACK: the same bytes.
    /// unit.answer(0, ask, &mut again)?;
    /// assert_eq!(sent, again);
    /// unit.receive(0, false, true, &ACK_OPTION)?;
    /// # Ok(())
    /// # }
    /// ```
    pub fn copy_for_trial(&self, trial: &mut LinkUnit) {
        trial.unit.copy_from(&self.unit);
    }
}

impl Default for LinkUnit {
    fn default() -> LinkUnit {
        LinkUnit::new()
    }
}

impl fmt::Debug for LinkUnit {
    fn fmt(&self, f: &mut fmt::Formatter<'_>) -> fmt::Result {
        f.debug_struct("LinkUnit").finish_non_exhaustive()
    }
}

impl Drop for LinkUnit {
    fn drop(&mut self) {
        ffi::erase(&mut self.unit);
    }
}

#[cfg(test)]
mod tests {
    use super::*;
    use crate::TRANSCRIPT;
    use std::format;

    #[test]
    fn no_secret_is_shown_and_copies_are_apart() {
        let mut unit = LinkUnit::new();
        let identifier = [0xab; IDENTIFIER];
        let stored = unit.store(0, Tep::P256, Role::A, &identifier, &[0xcd; SECRET]);
        assert_eq!(stored, Ok(()));
        assert_eq!(format!("{unit:?}"), "LinkUnit { .. }");
        let mut copy = LinkUnit::new();
        unit.copy_for_trial(&mut copy);
        assert_eq!(unit.erase(), Ok(()));
        assert_eq!((unit.count(0), copy.count(0)), (Ok(0), Ok(1)));

        let ask = Offer {
            role: Role::A,
            aware: false,
            mandatory: false,
            teps: &[Tep::P256],
            resume: true,
            nonce: &[],
        };
        let out = &mut [0; TRANSCRIPT];
        assert_eq!(copy.offer(0, ask, out), Ok(12));
        let mut area = [0xab; 13];
        area[..4].copy_from_slice(&[0x45, 13, 1, 0xa1]);
        assert_eq!(copy.receive(0, true, true, &area), Ok(Phase::Open));
        assert_eq!(
            copy.result(0, out).map(|outcome| format!("{outcome:?}")),
            Ok("Encrypted { role: A, tep: P256, byte: 161, way: Resumed(Secret(..)), transcript: 25 }".into())
        );
    }

    #[test]
    fn a_unit_may_go_to_another_thread() {
        fn test<T: Send + Sync + Default + fmt::Debug>() {}
        test::<LinkUnit>();
    }
}
