//! The plain Rust that the benchmarks hold the library against, behind the driver's traits: it must do what the model does.

#[path = "../../benches/plain/mod.rs"]
pub mod plain;

mod pieces;

use crate::driver::calls::*;
use crate::driver::links::Links;
use crate::driver::random::{calls, seed};
use crate::driver::{every, finder, frames, generations, init, judge, places};
use crate::good;
use crate::model::{Model, Wire};
use plain::area::Finding;
use plain::judge::{ENCRYPTED, PLAIN};
use plain::Session;

/// The calls without a unit, with one of the two judges.
struct Plain {
    judge: fn(&[u8], &[u8], bool, Option<&Session>) -> plain::judge::Judged,
}

impl Finder for Plain {
    fn find_status(&self, area: &[u8], syn: bool) -> Status {
        if area.len() > 40 {
            return Status::Refused;
        }
        match plain::area::find(area, syn) {
            Finding::Found(_) => Status::Found,
            Finding::Nothing => Status::Nothing,
            Finding::Unreadable { place, kind } => Status::Unreadable { place, kind },
        }
    }
}

impl Init for Plain {
    fn init1_write(
        &self,
        tep: u8,
        ciphers: &[u16],
        nonce: &[u8],
        key: &[u8],
        out: &mut [u8],
    ) -> Answer<usize> {
        plain::init::init1_write(tep, ciphers, nonce, key, out)
    }

    fn init2_write(
        &self,
        tep: u8,
        cipher: u16,
        nonce: &[u8],
        key: &[u8],
        out: &mut [u8],
    ) -> Answer<usize> {
        plain::init::init2_write(tep, cipher, nonce, key, out)
    }

    fn init1_read(&self, tep: u8, enabled: [bool; 3], bytes: &[u8]) -> Answer<Init1> {
        let read = plain::init::init1_read(tep, enabled, bytes)?;
        Ok(Init1 {
            cipher: read.cipher,
            count: read.count,
            length: read.length,
            nonce: read.nonce,
            key: read.key[..if tep == 0x24 { 56 } else { 32 }].to_vec(),
        })
    }

    fn init2_read(&self, tep: u8, ciphers: &[u16], bytes: &[u8]) -> Answer<Init2> {
        let read = plain::init::init2_read(tep, ciphers, bytes)?;
        Ok(Init2 {
            cipher: read.cipher,
            length: read.length,
            nonce: read.nonce,
            key: read.key[..if tep == 0x24 { 56 } else { 32 }].to_vec(),
        })
    }
}

impl Frames for Plain {
    fn header_write(&self, rekey: bool, length: usize, offset: u64, out: &mut [u8]) -> Answer<u64> {
        plain::frame::header_write(rekey, length, offset, out)
    }

    fn header_read(&self, bytes: &[u8], offset: u64) -> Answer<Header> {
        let read = plain::frame::header_read(bytes, offset)?;
        Ok(Header {
            rekey: read.rekey,
            length: usize::from(read.length),
            next: read.next,
            associated: read.associated,
        })
    }

    fn next_offset(&self, offset: u64, length: usize) -> Answer<u64> {
        plain::frame::next_offset(offset, length)
    }

    fn frame_id(&self, offset: u64) -> [u8; 12] {
        plain::frame::frame_id(offset)
    }

    fn nonce(&self, offset: u64, fixed: &[u8]) -> Answer<[u8; 12]> {
        plain::frame::nonce(fixed, offset)
    }

    fn plaintext_write(
        &self,
        fin: bool,
        urgent: Option<u16>,
        data: &[u8],
        out: &mut [u8],
    ) -> Answer<usize> {
        plain::frame::plaintext_write(fin, urgent, data, out)
    }

    fn plaintext_read(&self, bytes: &[u8]) -> Answer<Plaintext> {
        let read = plain::frame::plaintext_read(bytes)?;
        Ok(Plaintext {
            fin: read.fin,
            urgent: read.urgent,
            data: read.data,
        })
    }
}

/// Makes a step and takes over what the record then is.
fn step<T>(
    record: &mut Generations,
    step: impl FnOnce(&mut plain::generation::Record) -> Answer<T>,
) -> Answer<T> {
    let mut changed = plain::generation::Record {
        local: record.local,
        remote: record.remote,
        last: record.last,
        fin: record.fin,
    };
    let told = step(&mut changed);
    *record = Generations {
        local: changed.local,
        remote: changed.remote,
        last: changed.last,
        fin: changed.fin,
    };
    told
}

fn sent((generation, rekey): (u16, bool)) -> Sent {
    Sent { generation, rekey }
}

impl Rekeying for Plain {
    fn start(&self) -> Generations {
        let mut record = Wire.start();
        let _ = step(&mut record, |record| {
            *record = plain::generation::Record::new();
            Ok(())
        });
        record
    }

    fn send(&self, record: &mut Generations, fin: bool) -> Answer<Sent> {
        step(record, |record| record.send(fin)).map(sent)
    }

    fn initiate(&self, record: &mut Generations, has_data: bool, fin: bool) -> Answer<Sent> {
        step(record, |record| record.initiate(has_data, fin)).map(sent)
    }

    fn receive_frame(&self, record: &mut Generations, rekey: bool) -> Answer<u16> {
        step(record, |record| record.receive(rekey))
    }

    fn owed(&self, record: &Generations) -> bool {
        let mut copy = *record;
        step(&mut copy, |record| Ok(record.is_owed())) == Ok(true)
    }
}

impl Judging for Plain {
    fn judge(
        &self,
        own: &[u8],
        peer: &[u8],
        mandatory: bool,
        in_hand: Option<&Record>,
    ) -> Answer<Judged> {
        let hand = in_hand.map(|record| Session {
            tep: record.tep,
            role: record.role,
            identifier: record.identifier,
            secret: record.secret,
        });
        let judged = (self.judge)(own, peer, mandatory, hand.as_ref());
        match judged.kind {
            PLAIN => Ok(Judged::Plain(Cause {
                reason: judged.number as u8,
                place: judged.place,
                kind: judged.option,
            })),
            ENCRYPTED => Ok(Judged::Encrypted {
                role: judged.role,
                tep: judged.tep,
                resumed: judged.resumed == 1,
                transcript: judged.transcript[..judged.number].to_vec(),
            }),
            _ => Err(judged.number as u8),
        }
    }
}

/// The unit, the finder, both judges, Init messages, frames and generations.
#[test]
fn the_plain_rust_of_the_benchmarks() {
    let (seed, calls) = (seed(), calls() / 2);
    good(Links::new(seed, Model::new, plain::unit::Plain::new).run(calls));
    for judge in [plain::judge::judge, plain::fastest::judge] {
        good(judge::compare(seed, calls, &Wire, &Plain { judge }));
        good(places::judge(&Wire, &Plain { judge }));
    }
    good(places::unit(Model::new(), plain::unit::Plain::new()));
    good(every::pool(Model::new(), plain::unit::Plain::new()));
    let plain = Plain {
        judge: plain::judge::judge,
    };
    good(finder::compare(seed, calls, &Wire, &plain));
    good(every::areas(&Wire, &plain));
    good(places::finder(&Wire, &plain));
    good(init::compare(seed, calls, &Wire, &plain));
    good(frames::compare(seed, calls, &Wire, &plain));
    good(generations::compare(seed, calls, &Wire, &plain));
}
