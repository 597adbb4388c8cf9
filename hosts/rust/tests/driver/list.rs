//! Calls of the unit as values: a list of calls can be recorded, played again and compared.

use super::calls::{Reply, Unit};

/// A call with all that it is given; `out` is the lent buffer as lent.
#[derive(Clone, PartialEq, Eq, Debug)]
pub enum Call {
    Offer {
        door: usize,
        b: u8,
        aware: bool,
        mandatory: bool,
        teps: Vec<u8>,
        resume: bool,
        nonce: Vec<u8>,
        out: Vec<u8>,
    },
    Answer {
        door: usize,
        area: Vec<u8>,
        aware: bool,
        mandatory: bool,
        teps: Vec<u8>,
        nonce: Vec<u8>,
        out: Vec<u8>,
    },
    Receive {
        door: usize,
        syn: bool,
        ack: bool,
        area: Vec<u8>,
    },
    Resend {
        door: usize,
        out: Vec<u8>,
    },
    Result {
        door: usize,
        out: Vec<u8>,
    },
    Close {
        door: usize,
    },
    Store {
        door: usize,
        tep: u8,
        role: u8,
        identifier: Vec<u8>,
        secret: Vec<u8>,
    },
    Forget {
        door: usize,
        tep: u8,
        identifier: Vec<u8>,
    },
    Count {
        door: usize,
    },
    Erase,
}

/// All that a call gives back: the reply, the secret of *result*, the whole lent buffer.
#[derive(Clone, PartialEq, Eq, Debug)]
pub struct Told {
    pub reply: Reply,
    pub secret: Option<[u8; 32]>,
    pub buffer: Vec<u8>,
}

impl Call {
    /// The door named, whether there is such a door or not.
    pub fn door(&self) -> Option<usize> {
        match self {
            Call::Offer { door, .. }
            | Call::Answer { door, .. }
            | Call::Receive { door, .. }
            | Call::Resend { door, .. }
            | Call::Result { door, .. }
            | Call::Close { door }
            | Call::Store { door, .. }
            | Call::Forget { door, .. }
            | Call::Count { door } => Some(*door),
            Call::Erase => None,
        }
    }

    /// The buffer as lent.
    pub fn lent(&self) -> &[u8] {
        match self {
            Call::Offer { out, .. }
            | Call::Answer { out, .. }
            | Call::Resend { out, .. }
            | Call::Result { out, .. } => out,
            _ => &[],
        }
    }

    /// Makes the call.
    pub fn on<U: Unit + ?Sized>(&self, unit: &mut U) -> Told {
        let mut buffer = self.lent().to_vec();
        let mut secret = None;
        let reply = match self {
            Call::Offer {
                door,
                b,
                aware,
                mandatory,
                teps,
                resume,
                nonce,
                ..
            } => unit.offer(
                *door,
                *b,
                *aware,
                *mandatory,
                teps,
                *resume,
                nonce,
                &mut buffer,
            ),
            Call::Answer {
                door,
                area,
                aware,
                mandatory,
                teps,
                nonce,
                ..
            } => unit.answer(*door, area, *aware, *mandatory, teps, nonce, &mut buffer),
            Call::Receive {
                door,
                syn,
                ack,
                area,
            } => unit.receive(*door, *syn, *ack, area),
            Call::Resend { door, .. } => unit.resend(*door, &mut buffer),
            Call::Result { door, .. } => {
                let (reply, bytes) = unit.result(*door, &mut buffer);
                secret = Some(bytes);
                reply
            }
            Call::Close { door } => unit.close(*door),
            Call::Store {
                door,
                tep,
                role,
                identifier,
                secret,
            } => unit.store(*door, *tep, *role, identifier, secret),
            Call::Forget {
                door,
                tep,
                identifier,
            } => unit.forget(*door, *tep, identifier),
            Call::Count { door } => unit.count(*door),
            Call::Erase => unit.erase(),
        };
        Told {
            reply,
            secret,
            buffer,
        }
    }

    /// What holds of every call: bytes that it does not say it wrote are as lent, and a secret is zeros unless resumed.
    pub fn check(&self, told: &Told) -> Result<(), String> {
        let written = match told.reply {
            Reply::Written(length) => length,
            Reply::Open { transcript, .. } => transcript,
            _ => 0,
        };
        let lent = self.lent();
        if told.buffer.len() != lent.len() || told.buffer.get(written..) != lent.get(written..) {
            return Err(format!("wrote elsewhere: {self:?}\n  {told:?}"));
        }
        let resumed = matches!(told.reply, Reply::Open { resumed: true, .. });
        if !resumed && told.secret.is_some_and(|secret| secret != [0; 32]) {
            return Err(format!("a secret is shown: {self:?}\n  {told:?}"));
        }
        Ok(())
    }
}
