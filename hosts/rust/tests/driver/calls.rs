//! What a host can ask: the calls as traits, with what each gives back. The model and any binding implement them.

use std::ops::Range;

/// A value, or the number of the refusal.
pub type Answer<T> = Result<T, u8>;

/// Why a connection is plain TCP: the reason's number; of an unreadable area (1) where the option begins that makes it so, and its kind, else zeros.
#[derive(Clone, Copy, PartialEq, Eq, Debug)]
pub struct Cause {
    pub reason: u8,
    pub place: u8,
    pub kind: u8,
}

impl Cause {
    /// A reason that has no place.
    pub const fn bare(reason: u8) -> Cause {
        let (place, kind) = (0, 0);
        Cause {
            reason,
            place,
            kind,
        }
    }

    /// Reason 1.
    pub const fn unreadable(place: u8, kind: u8) -> Cause {
        let reason = 1;
        Cause {
            reason,
            place,
            kind,
        }
    }
}

/// A door's phase as *receive* tells it.
#[derive(Clone, Copy, PartialEq, Eq, Debug)]
pub enum PhaseNow {
    Idle,
    Offered,
    Crossed,
    Answered,
    Open,
    Plain(Cause),
}

/// What a call of the unit gives back, the lent buffer and the secret apart.
#[derive(Clone, Copy, PartialEq, Eq, Debug)]
pub enum Reply {
    /// Refused with this number; everything is as found.
    Refused(u8),
    /// *offer*, *answer*, *resend*: so many bytes were written.
    Written(usize),
    /// *answer*, *result*: the door is Plain, and why.
    Plain(Cause),
    /// *receive*: the phase after the segment.
    Now(PhaseNow),
    /// *result* in Open; `transcript` bytes were written.
    Open {
        role: u8,
        tep: u8,
        resumed: bool,
        transcript: usize,
    },
    /// *close*, *store*, *forget*, *erase*.
    Done,
    /// *count*.
    Count(usize),
}

/// A session record.
#[derive(Clone, PartialEq, Eq, Debug)]
pub struct Record {
    pub tep: u8,
    pub role: u8,
    pub identifier: [u8; 18],
    pub secret: [u8; 32],
}

/// The records of one door: those held, oldest first, and the one in hand.
#[derive(Clone, PartialEq, Eq, Debug)]
pub struct DoorRecords {
    pub held: Vec<Record>,
    pub in_hand: Option<Record>,
}

/// The ten calls of the unit. A new value is the empty unit.
pub trait Unit {
    #[allow(clippy::too_many_arguments)]
    fn offer(
        &mut self,
        door: usize,
        b: u8,
        aware: bool,
        mandatory: bool,
        teps: &[u8],
        resume: bool,
        nonce: &[u8],
        out: &mut [u8],
    ) -> Reply;
    #[allow(clippy::too_many_arguments)]
    fn answer(
        &mut self,
        door: usize,
        area: &[u8],
        aware: bool,
        mandatory: bool,
        teps: &[u8],
        nonce: &[u8],
        out: &mut [u8],
    ) -> Reply;
    fn receive(&mut self, door: usize, syn: bool, ack: bool, area: &[u8]) -> Reply;
    fn resend(&mut self, door: usize, out: &mut [u8]) -> Reply;
    /// The secret is that of a resumed connection, else zeros.
    fn result(&mut self, door: usize, out: &mut [u8]) -> (Reply, [u8; 32]);
    fn close(&mut self, door: usize) -> Reply;
    fn store(&mut self, door: usize, tep: u8, role: u8, identifier: &[u8], secret: &[u8]) -> Reply;
    fn forget(&mut self, door: usize, tep: u8, identifier: &[u8]) -> Reply;
    fn count(&mut self, door: usize) -> Reply;
    fn erase(&mut self) -> Reply;

    /// A look inside, for units that allow it: the records of a door below the last.
    fn records(&self, _door: usize) -> Option<DoorRecords> {
        None
    }

    /// A look inside: how often a row freed by one door was taken by another.
    fn rows_changed_hands(&self) -> u64 {
        0
    }
}

/// The answer of the finder's companion.
#[derive(Clone, Copy, PartialEq, Eq, Debug)]
pub enum Status {
    Found,
    Nothing,
    /// Where the option begins that makes it so, and its kind.
    Unreadable {
        place: u8,
        kind: u8,
    },
    Refused,
}

/// The finder and its companion. An empty part is `0..0`.
pub trait Finder {
    /// The part, where it is given to hosts.
    fn find_option(&self, _area: &[u8], _syn: bool) -> Option<Range<usize>> {
        None
    }
    fn find_status(&self, area: &[u8], syn: bool) -> Status;
}

/// An Init1 as host B reads it.
#[derive(Clone, PartialEq, Eq, Debug)]
pub struct Init1 {
    pub cipher: u16,
    pub count: usize,
    pub length: usize,
    pub nonce: [u8; 32],
    pub key: Vec<u8>,
}

/// An Init2 as host A reads it.
#[derive(Clone, PartialEq, Eq, Debug)]
pub struct Init2 {
    pub cipher: u16,
    pub length: usize,
    pub nonce: [u8; 32],
    pub key: Vec<u8>,
}

/// Init messages. `enabled` stands for the ciphers 0001, 0002, 0010.
pub trait Init {
    fn init1_write(
        &self,
        tep: u8,
        ciphers: &[u16],
        nonce: &[u8],
        key: &[u8],
        out: &mut [u8],
    ) -> Answer<usize>;
    fn init2_write(
        &self,
        tep: u8,
        cipher: u16,
        nonce: &[u8],
        key: &[u8],
        out: &mut [u8],
    ) -> Answer<usize>;
    fn init1_read(&self, tep: u8, enabled: [bool; 3], bytes: &[u8]) -> Answer<Init1>;
    /// `ciphers` is the list of this end's Init1.
    fn init2_read(&self, tep: u8, ciphers: &[u16], bytes: &[u8]) -> Answer<Init2>;
}

/// A frame header as received. `associated` is the associated data.
#[derive(Clone, PartialEq, Eq, Debug)]
pub struct Header {
    pub rekey: bool,
    pub length: usize,
    pub next: u64,
    pub associated: [u8; 3],
}

/// A plaintext as received; the data runs from `data` to the end.
#[derive(Clone, PartialEq, Eq, Debug)]
pub struct Plaintext {
    pub fin: bool,
    pub urgent: Option<u16>,
    pub data: usize,
}

/// Frame headers, frame IDs, nonces and plaintexts. `length` is that of the ciphertext.
pub trait Frames {
    /// Gives the offset at which the next frame begins.
    fn header_write(&self, rekey: bool, length: usize, offset: u64, out: &mut [u8]) -> Answer<u64>;
    fn header_read(&self, bytes: &[u8], offset: u64) -> Answer<Header>;
    fn next_offset(&self, offset: u64, length: usize) -> Answer<u64>;
    fn frame_id(&self, offset: u64) -> [u8; 12];
    fn nonce(&self, offset: u64, fixed: &[u8]) -> Answer<[u8; 12]>;
    fn plaintext_write(
        &self,
        fin: bool,
        urgent: Option<u16>,
        data: &[u8],
        out: &mut [u8],
    ) -> Answer<usize>;
    fn plaintext_read(&self, bytes: &[u8]) -> Answer<Plaintext>;
}

/// The generation record of one connection.
#[derive(Clone, Copy, PartialEq, Eq, Debug)]
pub struct Generations {
    pub local: u16,
    pub remote: u16,
    pub last: u16,
    pub fin: bool,
}

/// The frame to be sent: its generation and its rekey bit.
#[derive(Clone, Copy, PartialEq, Eq, Debug)]
pub struct Sent {
    pub generation: u16,
    pub rekey: bool,
}

/// Rekeying, over a generation record lent to be changed in place.
pub trait Rekeying {
    fn start(&self) -> Generations;
    fn send(&self, record: &mut Generations, fin: bool) -> Answer<Sent>;
    fn initiate(&self, record: &mut Generations, has_data: bool, fin: bool) -> Answer<Sent>;
    /// Gives the remote generation after the frame.
    fn receive_frame(&self, record: &mut Generations, rekey: bool) -> Answer<u16>;
    fn owed(&self, record: &Generations) -> bool;
}

/// What two option areas come to.
#[derive(Clone, PartialEq, Eq, Debug)]
pub enum Judged {
    Plain(Cause),
    Encrypted {
        role: u8,
        tep: u8,
        resumed: bool,
        transcript: Vec<u8>,
    },
}

/// The judge, for the end that sent `own`.
pub trait Judging {
    fn judge(
        &self,
        own: &[u8],
        peer: &[u8],
        mandatory: bool,
        in_hand: Option<&Record>,
    ) -> Answer<Judged>;
}
