//! The library behind the driver's traits, reached through the crate's safe calls alone.

mod pieces;
mod wire;

use door_link::{self as link, untyped, Error, LinkUnit, Outcome, Phase, Reason, Role, Tep, Way};

use crate::driver::calls::{Cause, PhaseNow, Reply, Unit};

pub use pieces::Pieces;
pub use wire::{Calls, Plainly};

/// The number that stands for a reply that could not be read; the model never gives it.
const UNEXPECTED: u8 = 255;

pub struct Binding(LinkUnit);

impl Binding {
    pub fn new() -> Binding {
        Binding(LinkUnit::new())
    }
}

fn number(error: Error) -> u8 {
    match error {
        Error::Refused(refusal) => refusal.number(),
        _ => UNEXPECTED,
    }
}

fn cause(reason: Reason) -> Cause {
    match reason {
        Reason::Unreadable { place, kind } => Cause::unreadable(place, kind),
        _ => Cause::bare(reason.number()),
    }
}

/// A list of TEPs by the crate's type, where all of them have one.
fn typed(teps: &[u8]) -> Option<Vec<Tep>> {
    teps.iter().map(|tep| Tep::of(*tep)).collect()
}

fn told<T>(outcome: Result<T, Error>, reply: impl FnOnce(T) -> Reply) -> Reply {
    match outcome {
        Ok(value) => reply(value),
        Err(error) => Reply::Refused(number(error)),
    }
}

fn done(outcome: Result<(), Error>) -> Reply {
    told(outcome, |()| Reply::Done)
}

impl Unit for Binding {
    fn offer(
        &mut self,
        door: usize,
        b: u8,
        aware: bool,
        mandatory: bool,
        teps: &[u8],
        resume: bool,
        nonce: &[u8],
        out: &mut [u8],
    ) -> Reply {
        let (Some(role), Some(typed)) = (Role::of(b), typed(teps)) else {
            let ask = untyped::Offer {
                b,
                aware,
                mandatory,
                teps,
                resume,
                nonce,
            };
            return told(untyped::offer(&mut self.0, door, ask, out), Reply::Written);
        };
        let ask = link::Offer {
            role,
            aware,
            mandatory,
            teps: &typed,
            resume,
            nonce,
        };
        told(self.0.offer(door, ask, out), Reply::Written)
    }

    fn answer(
        &mut self,
        door: usize,
        area: &[u8],
        aware: bool,
        mandatory: bool,
        teps: &[u8],
        nonce: &[u8],
        out: &mut [u8],
    ) -> Reply {
        let answered = match typed(teps) {
            Some(teps) => {
                let ask = link::Answer {
                    area,
                    aware,
                    mandatory,
                    teps: &teps,
                    nonce,
                };
                self.0.answer(door, ask, out)
            }
            None => {
                let ask = untyped::Answer {
                    area,
                    aware,
                    mandatory,
                    teps,
                    nonce,
                };
                untyped::answer(&mut self.0, door, ask, out)
            }
        };
        told(answered, |reply| match reply {
            link::Reply::Written(length) => Reply::Written(length),
            link::Reply::Plain(reason) => Reply::Plain(cause(reason)),
        })
    }

    fn receive(&mut self, door: usize, syn: bool, ack: bool, area: &[u8]) -> Reply {
        told(self.0.receive(door, syn, ack, area), |phase| {
            Reply::Now(match phase {
                Phase::Idle => PhaseNow::Idle,
                Phase::Offered => PhaseNow::Offered,
                Phase::Crossed => PhaseNow::Crossed,
                Phase::Answered => PhaseNow::Answered,
                Phase::Open => PhaseNow::Open,
                Phase::Plain(reason) => PhaseNow::Plain(cause(reason)),
                other => panic!("{other:?}: a phase that document 01 has not"),
            })
        })
    }

    fn resend(&mut self, door: usize, out: &mut [u8]) -> Reply {
        told(self.0.resend(door, out), Reply::Written)
    }

    fn result(&mut self, door: usize, out: &mut [u8]) -> (Reply, [u8; 32]) {
        match self.0.result(door, out) {
            Ok(Outcome::Encrypted {
                role,
                tep,
                byte,
                way,
                transcript,
            }) => {
                assert_eq!(tep.number(), byte & 0x7f);
                let (resumed, secret) = match way {
                    Way::Fresh => (false, [0; 32]),
                    Way::Resumed(secret) => (true, *secret.bytes()),
                };
                let reply = Reply::Open {
                    role: role.number(),
                    tep: byte,
                    resumed,
                    transcript,
                };
                (reply, secret)
            }
            Ok(Outcome::Plain(reason)) => (Reply::Plain(cause(reason)), [0; 32]),
            Err(error) => (Reply::Refused(number(error)), [0; 32]),
        }
    }

    fn close(&mut self, door: usize) -> Reply {
        done(self.0.close(door))
    }

    fn store(&mut self, door: usize, tep: u8, role: u8, identifier: &[u8], secret: &[u8]) -> Reply {
        let typed = (
            Tep::of(tep),
            Role::of(role),
            identifier.try_into(),
            secret.try_into(),
        );
        if let (Some(tep), Some(role), Ok(identifier), Ok(secret)) = typed {
            return done(self.0.store(door, tep, role, identifier, secret));
        }
        done(untyped::store(
            &mut self.0,
            door,
            tep,
            role,
            identifier,
            secret,
        ))
    }

    fn forget(&mut self, door: usize, tep: u8, identifier: &[u8]) -> Reply {
        if let (Some(tep), Ok(identifier)) = (Tep::of(tep), identifier.try_into()) {
            return done(self.0.forget(door, tep, identifier));
        }
        done(untyped::forget(&mut self.0, door, tep, identifier))
    }

    fn count(&mut self, door: usize) -> Reply {
        told(self.0.count(door), Reply::Count)
    }

    fn erase(&mut self) -> Reply {
        done(self.0.erase())
    }
}
