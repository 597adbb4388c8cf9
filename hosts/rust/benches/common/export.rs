//! The exports behind the driver's trait, over the arrays of a unit as hosts/c/door_link.h hands them on.

use door_link::untyped::{Answer, Offer};

use crate::driver::calls::{Cause, PhaseNow, Reply, Unit};
use crate::ffi;

pub struct Export(ffi::Unit);

fn told(reply: &ffi::Reply) -> Reply {
    let number = reply.number;
    match reply.kind {
        0 => Reply::Refused(number as u8),
        1 => Reply::Written(number),
        2 => Reply::Plain(Cause {
            reason: number as u8,
            place: reply.place,
            kind: reply.option,
        }),
        3 => Reply::Now(match number {
            0x100_0000 => PhaseNow::Idle,
            0x100_0001 => PhaseNow::Offered,
            0x100_0002 => PhaseNow::Crossed,
            0x100_0003 => PhaseNow::Answered,
            _ => PhaseNow::Open,
        }),
        4 => Reply::Open {
            role: reply.role,
            tep: reply.tep,
            resumed: reply.resumed == 1,
            transcript: number,
        },
        6 => Reply::Count(number),
        _ => Reply::Done,
    }
}

impl Export {
    pub fn new() -> Export {
        Export(ffi::new())
    }
}

impl Unit for Export {
    fn offer(
        &mut self,
        door: usize,
        b: u8,
        aware: bool,
        mandatory: bool,
        teps: &[u8],
        resume: bool,
        nonce: &[u8],
        out: &mut [u8],
    ) -> Reply {
        let ask = Offer {
            b,
            aware,
            mandatory,
            teps,
            resume,
            nonce,
        };
        told(&ffi::offer(&mut self.0, door, &ask, out))
    }

    fn answer(
        &mut self,
        door: usize,
        area: &[u8],
        aware: bool,
        mandatory: bool,
        teps: &[u8],
        nonce: &[u8],
        out: &mut [u8],
    ) -> Reply {
        let ask = Answer {
            area,
            aware,
            mandatory,
            teps,
            nonce,
        };
        told(&ffi::answer(&mut self.0, door, &ask, out))
    }

    fn receive(&mut self, door: usize, syn: bool, ack: bool, area: &[u8]) -> Reply {
        let reply = told(&ffi::receive(&mut self.0, door, syn, ack, area));
        match reply {
            Reply::Plain(cause) => Reply::Now(PhaseNow::Plain(cause)),
            _ => reply,
        }
    }

    fn resend(&mut self, door: usize, out: &mut [u8]) -> Reply {
        told(&ffi::resend(&self.0, door, out))
    }

    fn result(&mut self, door: usize, out: &mut [u8]) -> (Reply, [u8; 32]) {
        let given = ffi::result(&self.0, door, out);
        (told(&given.reply), given.secret)
    }

    fn close(&mut self, door: usize) -> Reply {
        told(&ffi::close(&mut self.0, door))
    }

    fn store(&mut self, door: usize, tep: u8, role: u8, identifier: &[u8], secret: &[u8]) -> Reply {
        told(&ffi::store(
            &mut self.0,
            door,
            tep,
            role,
            identifier,
            secret,
        ))
    }

    fn forget(&mut self, door: usize, tep: u8, identifier: &[u8]) -> Reply {
        told(&ffi::forget(&mut self.0, door, tep, identifier))
    }

    fn count(&mut self, door: usize) -> Reply {
        told(&ffi::count(&self.0, door))
    }

    fn erase(&mut self) -> Reply {
        told(&ffi::erase(&mut self.0))
    }
}
