//! The calls whose arguments the crate's types narrow, as the library takes them: TEPs and roles as numbers, bytes of a fixed length as slices. What does not fit, the
//! library refuses with 3. For tests, captures, and programs that hand on what they were given.
//!
//! ```
//! use door_link::{untyped, Error, LinkUnit, Refusal};
//! let mut unit = LinkUnit::new();
//! let short = untyped::store(&mut unit, 0, 0x23, 0, &[7; 17], &[9; 32]);
//! assert_eq!(short, Err(Error::Refused(Refusal::Unfit)));
//! assert_eq!(untyped::store(&mut unit, 0, 0x23, 0, &[7; 18], &[9; 32]), Ok(()));
//! ```

use core::fmt;

use crate::reply::{read, Told};
use crate::{ffi, Error, LinkUnit, Reply, IDENTIFIER};

pub use crate::frame::nonce_of as nonce;
pub use crate::init::{
    read1 as init1_read, read2 as init2_read, write1 as init1_write, write2 as init2_write,
};
pub use crate::judge::{judge_of as judge, judge_plainly_of as judge_plainly};
pub use crate::pieces::{feed, start_frames, start_init1, start_init2};

/// As [`Offer`](crate::Offer).
#[derive(Clone, Copy, PartialEq, Eq, Debug)]
pub struct Offer<'a> {
    /// This end's role, 0 host A, 1 host B.
    pub b: u8,
    /// The application-aware bit a.
    pub aware: bool,
    /// Plain TCP unless the other side is aware too.
    pub mandatory: bool,
    /// One to four TEPs in rising priority.
    pub teps: &'a [u8],
    /// Whether to propose a session record.
    pub resume: bool,
    /// 0 to 8 bytes for the resumption.
    pub nonce: &'a [u8],
}

/// As [`Answer`](crate::Answer).
#[derive(Clone, Copy, PartialEq, Eq, Debug)]
pub struct Answer<'a> {
    /// The TCP option area of the SYN, 0 to 40 bytes.
    pub area: &'a [u8],
    /// The application-aware bit a.
    pub aware: bool,
    /// Plain TCP unless the other side is aware too.
    pub mandatory: bool,
    /// One to four TEPs in rising priority.
    pub teps: &'a [u8],
    /// 0 to 8 bytes for the resumption.
    pub nonce: &'a [u8],
}

/// As [`InHand`](crate::InHand). [`Debug`](fmt::Debug) does not show the identifier.
#[derive(Clone, Copy, PartialEq, Eq)]
pub struct InHand {
    /// The TEP, without v.
    pub tep: u8,
    /// The end's role in the connection that made the session; any other number than 0 reads as host B.
    pub role: u8,
    /// Host A sends the first nine bytes, host B the last nine.
    pub identifier: [u8; IDENTIFIER],
}

impl fmt::Debug for InHand {
    fn fmt(&self, f: &mut fmt::Formatter<'_>) -> fmt::Result {
        let (tep, role) = (&self.tep, &self.role);
        f.debug_struct("InHand")
            .field("tep", tep)
            .field("role", role)
            .finish_non_exhaustive()
    }
}

/// As [`LinkUnit::offer`]. Refused with 3 also where `b` is above 1 or a TEP is unknown.
pub fn offer(
    unit: &mut LinkUnit,
    door: usize,
    ask: Offer<'_>,
    out: &mut [u8],
) -> Result<usize, Error> {
    let reply = ffi::offer(&mut unit.unit, door, &ask, out);
    read(&reply, out.len(), Told::written)
}

/// As [`LinkUnit::answer`]. Refused with 3 also where a TEP is unknown.
pub fn answer(
    unit: &mut LinkUnit,
    door: usize,
    ask: Answer<'_>,
    out: &mut [u8],
) -> Result<Reply, Error> {
    let reply = ffi::answer(&mut unit.unit, door, &ask, out);
    read(&reply, out.len(), |told| match told {
        Told::Written(length) => Some(Reply::Written(length)),
        Told::Plain(reason) => Some(Reply::Plain(reason)),
        _ => None,
    })
}

/// As [`LinkUnit::store`]. Refused with 3 where `tep` is unknown, `role` is above 1, `identifier` is not 18 or `secret` not 32 bytes.
pub fn store(
    unit: &mut LinkUnit,
    door: usize,
    tep: u8,
    role: u8,
    identifier: &[u8],
    secret: &[u8],
) -> Result<(), Error> {
    let reply = ffi::store(&mut unit.unit, door, tep, role, identifier, secret);
    read(&reply, 0, Told::done)
}

/// As [`LinkUnit::forget`]. Refused with 3 where `tep` is unknown or `identifier` is not 18 bytes.
pub fn forget(unit: &mut LinkUnit, door: usize, tep: u8, identifier: &[u8]) -> Result<(), Error> {
    let reply = ffi::forget(&mut unit.unit, door, tep, identifier);
    read(&reply, 0, Told::done)
}
