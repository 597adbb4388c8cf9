//! The calls that need no unit.

use door_link::{self as link, untyped, Enabled, Judgement, Role, Tep};

use super::{cause, number};
use crate::driver::calls::*;

pub struct Calls;

/// The finder's word; its part has no export.
impl Finder for Calls {
    fn find_status(&self, area: &[u8], syn: bool) -> Status {
        match link::find_status(area, syn) {
            Ok(link::Status::Found) => Status::Found,
            Ok(link::Status::Nothing) => Status::Nothing,
            Ok(link::Status::Unreadable { place, kind }) => Status::Unreadable { place, kind },
            Err(error) => {
                assert_eq!(number(error), 2, "{error}: {area:02x?}");
                Status::Refused
            }
        }
    }
}

impl Init for Calls {
    fn init1_write(
        &self,
        tep: u8,
        ciphers: &[u16],
        nonce: &[u8],
        key: &[u8],
        out: &mut [u8],
    ) -> Answer<usize> {
        if let (Some(tep), Ok(nonce)) = (Tep::of(tep), nonce.try_into()) {
            return link::init1_write(tep, ciphers, nonce, key, out).map_err(number);
        }
        untyped::init1_write(tep, ciphers, nonce, key, out).map_err(number)
    }

    fn init2_write(
        &self,
        tep: u8,
        cipher: u16,
        nonce: &[u8],
        key: &[u8],
        out: &mut [u8],
    ) -> Answer<usize> {
        if let (Some(tep), Ok(nonce)) = (Tep::of(tep), nonce.try_into()) {
            return link::init2_write(tep, cipher, nonce, key, out).map_err(number);
        }
        untyped::init2_write(tep, cipher, nonce, key, out).map_err(number)
    }

    fn init1_read(&self, tep: u8, enabled: [bool; 3], bytes: &[u8]) -> Answer<Init1> {
        let [aes128, aes256, chacha20] = enabled;
        let enabled = Enabled {
            aes128,
            aes256,
            chacha20,
        };
        let read = match Tep::of(tep) {
            Some(tep) => link::init1_read(tep, enabled, bytes),
            None => untyped::init1_read(tep, enabled, bytes),
        };
        let read = read.map_err(number)?;
        Ok(Init1 {
            cipher: read.cipher(),
            count: read.count(),
            length: read.length(),
            nonce: *read.nonce(),
            key: read.key().to_vec(),
        })
    }

    fn init2_read(&self, tep: u8, ciphers: &[u16], bytes: &[u8]) -> Answer<Init2> {
        let read = match Tep::of(tep) {
            Some(tep) => link::init2_read(tep, ciphers, bytes),
            None => untyped::init2_read(tep, ciphers, bytes),
        };
        let read = read.map_err(number)?;
        assert_eq!(read.count(), 1, "{bytes:02x?}");
        Ok(Init2 {
            cipher: read.cipher(),
            length: read.length(),
            nonce: *read.nonce(),
            key: read.key().to_vec(),
        })
    }
}

impl Frames for Calls {
    fn header_write(&self, rekey: bool, length: usize, offset: u64, out: &mut [u8]) -> Answer<u64> {
        link::write_header(rekey, length, offset, out).map_err(number)
    }

    fn header_read(&self, bytes: &[u8], offset: u64) -> Answer<Header> {
        let read = link::read_header(bytes, offset).map_err(number)?;
        Ok(Header {
            rekey: read.rekey,
            length: usize::from(read.length),
            next: read.next,
            associated: read.associated,
        })
    }

    fn next_offset(&self, offset: u64, length: usize) -> Answer<u64> {
        link::next_offset(offset, length).map_err(number)
    }

    fn frame_id(&self, offset: u64) -> [u8; 12] {
        link::frame_id(offset)
    }

    fn nonce(&self, offset: u64, fixed: &[u8]) -> Answer<[u8; 12]> {
        match fixed.try_into() {
            Ok(fixed) => link::nonce(fixed, offset).map_err(number),
            Err(_) => untyped::nonce(fixed, offset).map_err(number),
        }
    }

    fn plaintext_write(
        &self,
        fin: bool,
        urgent: Option<u16>,
        data: &[u8],
        out: &mut [u8],
    ) -> Answer<usize> {
        link::write_plaintext(fin, urgent, data, out).map_err(number)
    }

    fn plaintext_read(&self, bytes: &[u8]) -> Answer<Plaintext> {
        let read = link::read_plaintext(bytes).map_err(number)?;
        Ok(Plaintext {
            fin: read.fin,
            urgent: read.urgent,
            data: bytes.len() - read.data.len(),
        })
    }
}

fn lent(record: &Generations) -> link::Generations {
    link::Generations {
        local: record.local,
        remote: record.remote,
        last: record.last,
        fin: record.fin,
    }
}

/// Makes a step on the crate's record and takes over what it then is.
fn step<T>(
    record: &mut Generations,
    step: impl FnOnce(&mut link::Generations) -> Result<T, link::Error>,
) -> Answer<T> {
    let mut changed = lent(record);
    let told = step(&mut changed).map_err(number);
    *record = Generations {
        local: changed.local,
        remote: changed.remote,
        last: changed.last,
        fin: changed.fin,
    };
    told
}

fn sent(sent: link::Sent) -> Sent {
    Sent {
        generation: sent.generation,
        rekey: sent.rekey,
    }
}

impl Rekeying for Calls {
    fn start(&self) -> Generations {
        let first = link::Generations::new().expect("the first record");
        Generations {
            local: first.local,
            remote: first.remote,
            last: first.last,
            fin: first.fin,
        }
    }

    fn send(&self, record: &mut Generations, fin: bool) -> Answer<Sent> {
        step(record, |record| record.send(fin)).map(sent)
    }

    fn initiate(&self, record: &mut Generations, has_data: bool, fin: bool) -> Answer<Sent> {
        step(record, |record| record.initiate(has_data, fin)).map(sent)
    }

    fn receive_frame(&self, record: &mut Generations, rekey: bool) -> Answer<u16> {
        let mut dropped = lent(record);
        let looked = dropped.receive(rekey).map(|received| received.generation());
        assert_eq!(dropped, lent(record), "a frame that is not accepted");
        let told = step(record, |record| {
            record.receive(rekey).map(link::Received::accept)
        });
        assert_eq!(looked.map_err(number), told);
        told
    }

    fn owed(&self, record: &Generations) -> bool {
        lent(record).is_owed().expect("a flag")
    }
}

/// A judge of the crate, by its types or by numbers.
type Judge<H> = fn(&[u8], &[u8], bool, Option<&H>) -> Result<Judgement, link::Error>;

/// By the crate's types, where the record in hand has them.
fn judged(
    (typed, by_numbers): (Judge<link::InHand>, Judge<untyped::InHand>),
    (own, peer): (&[u8], &[u8]),
    mandatory: bool,
    in_hand: Option<&Record>,
) -> Answer<Judged> {
    let hand = in_hand.map(
        |record| match (Tep::of(record.tep), Role::of(record.role)) {
            (Some(tep), Some(role)) => Ok(link::InHand {
                tep,
                role,
                identifier: record.identifier,
            }),
            _ => Err(untyped::InHand {
                tep: record.tep,
                role: record.role,
                identifier: record.identifier,
            }),
        },
    );
    let judged = match hand {
        None => typed(own, peer, mandatory, None),
        Some(Ok(hand)) => typed(own, peer, mandatory, Some(&hand)),
        Some(Err(hand)) => by_numbers(own, peer, mandatory, Some(&hand)),
    };
    Ok(match judged.map_err(number)? {
        Judgement::Plain(reason) => Judged::Plain(cause(reason)),
        Judgement::Encrypted {
            role,
            byte,
            resumed,
            transcript,
            ..
        } => Judged::Encrypted {
            role: role.number(),
            tep: byte,
            resumed,
            transcript: transcript.bytes().to_vec(),
        },
    })
}

impl Judging for Calls {
    fn judge(
        &self,
        own: &[u8],
        peer: &[u8],
        mandatory: bool,
        in_hand: Option<&Record>,
    ) -> Answer<Judged> {
        let quick = (link::judge as _, untyped::judge as _);
        judged(quick, (own, peer), mandatory, in_hand)
    }
}

/// The plain judge.
pub struct Plainly;

impl Judging for Plainly {
    fn judge(
        &self,
        own: &[u8],
        peer: &[u8],
        mandatory: bool,
        in_hand: Option<&Record>,
    ) -> Answer<Judged> {
        let plain = (link::judge_plainly as _, untyped::judge_plainly as _);
        judged(plain, (own, peer), mandatory, in_hand)
    }
}
