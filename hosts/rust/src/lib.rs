//! The link unit for hosts in Rust: TCP-ENO options (RFC 8547), resumption of tcpcrypt sessions (RFC 8548), the doors of a platform, one pool of session
//! records, Init messages, frames and generations. A safe crate over the library of the crates `host_*`, every function of which is proved; it has no heap,
//! no global and no thread, and needs no `std`.
//!
//! | what | calls |
//! |---|---|
//! | the unit | [`LinkUnit`], a method for each call |
//! | Init messages | [`init1_write`], [`init1_read`], [`init2_write`], [`init2_read`] |
//! | frames | [`write_header`], [`read_header`], [`next_offset`], [`frame_id`], [`nonce`], [`write_plaintext`], [`read_plaintext`] |
//! | a stream in pieces | [`Pieces`]: an Init message, then frames, cut anywhere |
//! | generations | [`Generations`], a method for each step |
//! | captures and diagnosis | [`find_status`], [`judge`], [`judge_plainly`] |
//! | arguments as numbers and slices | [`untyped`] |
//!
//! No call panics. A call that is refused leaves the unit or the record and the lent buffer as found; beyond the bytes that a call reports as written,
//! a lent buffer stays as it was. Every number, length and byte is allowed in every argument. A call of the unit needs less than 4 KB of stack.
//!
//! # A fresh connection
//!
//! ```
//! use door_link::{Answer, LinkUnit, Offer, Outcome, Phase, Reply, Role, Tep, Way, ACK_OPTION, OPTION, TRANSCRIPT};
//! # fn main() -> Result<(), door_link::Error> {
//! let (mut active, mut passive) = (LinkUnit::new(), LinkUnit::new());
//! let (mut syn, mut syn_ack) = ([0; OPTION], [0; OPTION]);
//!
//! // The SYN: the option to be put into its option area.
//! let length = active.offer(
//!     0,
//!     Offer {
//!         role: Role::A,
//!         aware: false,
//!         mandatory: false,
//!         teps: &[Tep::P256, Tep::Curve25519],
//!         resume: false,
//!         nonce: &[],
//!     },
//!     &mut syn,
//! )?;
//! assert_eq!(syn[..length], [0x45, 4, 0x21, 0x23]);
//!
//! // The SYN+ACK: the passive end takes the whole option area of the SYN.
//! let reply = passive.answer(
//!     23,
//!     Answer {
//!         area: &syn[..length],
//!         aware: false,
//!         mandatory: false,
//!         teps: &[Tep::Curve448, Tep::Curve25519],
//!         nonce: &[],
//!     },
//!     &mut syn_ack,
//! )?;
//! assert_eq!(reply, Reply::Written(4));
//! assert_eq!(active.receive(0, true, true, &syn_ack[..4])?, Phase::Open);
//!
//! // The ACK: any ENO option will do.
//! assert_eq!(passive.receive(23, false, true, &ACK_OPTION)?, Phase::Open);
//!
//! let mut transcript = [0; TRANSCRIPT];
//! let outcome = passive.result(23, &mut transcript)?;
//! assert!(matches!(
//!     outcome,
//!     Outcome::Encrypted { role: Role::B, tep: Tep::Curve25519, way: Way::Fresh, transcript: 8, .. }
//! ));
//! assert_eq!(transcript[..8], [0x45, 4, 0x21, 0x23, 0x45, 4, 0x01, 0x23]);
//! # Ok(())
//! # }
//! ```
//!
//! # A session resumed
//!
//! ```
//! use door_link::{Answer, LinkUnit, Offer, Outcome, Phase, Reply, Role, Tep, Way, OPTION, TRANSCRIPT};
//! # fn main() -> Result<(), door_link::Error> {
//! let (mut active, mut passive) = (LinkUnit::new(), LinkUnit::new());
//! let (mut syn, mut syn_ack) = ([0; OPTION], [0; OPTION]);
//!
//! // Both ends keep the session of an earlier connection, each with the role that it had there.
//! let (identifier, secret) = ([7; 18], [9; 32]);
//! active.store(0, Tep::Curve25519, Role::A, &identifier, &secret)?;
//! passive.store(23, Tep::Curve25519, Role::B, &identifier, &secret)?;
//!
//! let length = active.offer(
//!     0,
//!     Offer {
//!         role: Role::A,
//!         aware: false,
//!         mandatory: false,
//!         teps: &[Tep::Curve25519],
//!         resume: true,
//!         nonce: &[1, 2, 3, 4, 5, 6, 7, 8],
//!     },
//!     &mut syn,
//! )?;
//! let reply = passive.answer(
//!     23,
//!     Answer {
//!         area: &syn[..length],
//!         aware: false,
//!         mandatory: false,
//!         teps: &[Tep::Curve25519],
//!         nonce: &[8, 7, 6, 5, 4, 3, 2, 1],
//!     },
//!     &mut syn_ack,
//! )?;
//! let Reply::Written(length) = reply else {
//!     unreachable!("the SYN has an option");
//! };
//! assert_eq!(active.receive(0, true, true, &syn_ack[..length])?, Phase::Open);
//!
//! let outcome = active.result(0, &mut [0; TRANSCRIPT])?;
//! let Outcome::Encrypted { byte, way: Way::Resumed(resumed), .. } = outcome else {
//!     unreachable!("both ends hold the session");
//! };
//! assert_eq!(byte, 0xa3);
//! assert_eq!(resumed.bytes(), &secret);
//!
//! // The record is used up at both ends.
//! assert_eq!((active.count(0)?, passive.count(23)?), (0, 0));
//! # Ok(())
//! # }
//! ```

#![no_std]
#![deny(unsafe_code, missing_docs)]

#[cfg(test)]
extern crate std;

#[allow(unsafe_code)]
mod ffi;
mod frame;
mod generation;
mod init;
mod judge;
mod pieces;
mod reply;
mod tep;
mod unit;
pub mod untyped;

pub use frame::{
    frame_id, next_offset, nonce, read_header, read_plaintext, write_header, write_plaintext,
    Header, Plaintext, FRAME_NONCE, HEADER, PLAINTEXT,
};
pub use generation::{Generations, Received, Sent};
pub use init::{
    cipher, init1_read, init1_write, init2_read, init2_write, Enabled, Init, INIT_KEY,
    INIT_LONGEST, INIT_NONCE,
};
pub use judge::{judge, judge_plainly, InHand, Judgement, Transcript};
pub use pieces::{Fed, Item, Pieces, Stopped, GATHERED, NUMBERS};
use reply::{read, Told};
pub use reply::{Error, Outcome, Phase, Reason, Refusal, Reply, Role, Secret, Status, Way};
pub use tep::Tep;
pub use unit::{Answer, LinkUnit, Offer};

/// Doors are 0 to `DOORS - 1`.
pub const DOORS: usize = 48;
/// Rows of the pool, one for each session record that may be held.
pub const ROWS: usize = 192;
/// Session records that a door may hold.
pub const RECORDS: usize = 4;
/// A buffer of this length is long enough for any option, and an option area is no longer.
pub const OPTION: usize = 40;
/// A buffer of this length is long enough for any transcript.
pub const TRANSCRIPT: usize = 80;
/// Bytes of a session's identifier.
pub const IDENTIFIER: usize = 18;
/// Bytes of a session's secret.
pub const SECRET: usize = 32;

/// The ENO option of a segment without SYN. In either role an end puts it into every segment without SYN that it sends, until the door is Plain or the end has
/// received a segment without SYN (RFC 8547, 4.6).
pub const ACK_OPTION: [u8; 2] = [0x45, 0x02];

/// Whether a TCP option area, 0 to 40 bytes, has an ENO option; `syn` says whether it is a SYN's, where two of them count as none.
///
/// Refused: 2.
///
/// ```
/// use door_link::{find_status, Error, Refusal, Status};
/// assert_eq!(find_status(&[0x01, 0x45, 0x03, 0x23], true), Ok(Status::Found));
/// assert_eq!(find_status(&[0x45, 0x02, 0x45, 0x02], true), Ok(Status::Nothing));
/// assert_eq!(find_status(&[0x45, 0x02, 0x45, 0x02], false), Ok(Status::Found));
/// let broken = Status::Unreadable { place: 6, kind: 8 };
/// assert_eq!(find_status(&[0x01, 0x01, 0x02, 0x04, 0x05, 0xb4, 0x08], false), Ok(broken));
/// assert_eq!(find_status(&[1; 41], false), Err(Error::Refused(Refusal::AreaTooLong)));
/// ```
pub fn find_status(area: &[u8], syn: bool) -> Result<Status, Error> {
    read(&ffi::find_status(area, syn), 0, |told| match told {
        Told::Status(status) => Some(status),
        _ => None,
    })
}
