//! Document 01 as plain Rust, its open points decided as docs/DECISIONS.md has them; written for reading, not for speed. It was not
//! written from the proved code or its definitions, but it takes the same decisions: an error in one of those is in both.

pub mod area;
pub mod door;
pub mod frames;
pub mod generations;
pub mod init;
pub mod judge;
pub mod pieces;
pub mod records;
pub mod suboptions;
pub mod unit;
pub mod writer;

use std::ops::Range;

use crate::driver::calls::*;

pub use unit::Model;

/// The calls that need no unit.
pub struct Wire;

impl Finder for Wire {
    fn find_option(&self, area: &[u8], syn: bool) -> Option<Range<usize>> {
        Some(area::find_option(area, syn))
    }

    fn find_status(&self, area: &[u8], syn: bool) -> Status {
        area::find_status(area, syn)
    }
}

impl Init for Wire {
    fn init1_write(
        &self,
        tep: u8,
        ciphers: &[u16],
        nonce: &[u8],
        key: &[u8],
        out: &mut [u8],
    ) -> Answer<usize> {
        init::init1_write(tep, ciphers, nonce, key, out)
    }

    fn init2_write(
        &self,
        tep: u8,
        cipher: u16,
        nonce: &[u8],
        key: &[u8],
        out: &mut [u8],
    ) -> Answer<usize> {
        init::init2_write(tep, cipher, nonce, key, out)
    }

    fn init1_read(&self, tep: u8, enabled: [bool; 3], bytes: &[u8]) -> Answer<Init1> {
        init::init1_read(tep, enabled, bytes)
    }

    fn init2_read(&self, tep: u8, ciphers: &[u16], bytes: &[u8]) -> Answer<Init2> {
        init::init2_read(tep, ciphers, bytes)
    }
}

impl Frames for Wire {
    fn header_write(&self, rekey: bool, length: usize, offset: u64, out: &mut [u8]) -> Answer<u64> {
        frames::header_write(rekey, length, offset, out)
    }

    fn header_read(&self, bytes: &[u8], offset: u64) -> Answer<Header> {
        frames::header_read(bytes, offset)
    }

    fn next_offset(&self, offset: u64, length: usize) -> Answer<u64> {
        frames::next_offset(offset, length)
    }

    fn frame_id(&self, offset: u64) -> [u8; 12] {
        frames::frame_id(offset)
    }

    fn nonce(&self, offset: u64, fixed: &[u8]) -> Answer<[u8; 12]> {
        frames::nonce(offset, fixed)
    }

    fn plaintext_write(
        &self,
        fin: bool,
        urgent: Option<u16>,
        data: &[u8],
        out: &mut [u8],
    ) -> Answer<usize> {
        frames::plaintext_write(fin, urgent, data, out)
    }

    fn plaintext_read(&self, bytes: &[u8]) -> Answer<Plaintext> {
        frames::plaintext_read(bytes)
    }
}

impl Rekeying for Wire {
    fn start(&self) -> Generations {
        generations::start()
    }

    fn send(&self, record: &mut Generations, fin: bool) -> Answer<Sent> {
        generations::send(record, fin)
    }

    fn initiate(&self, record: &mut Generations, has_data: bool, fin: bool) -> Answer<Sent> {
        generations::initiate(record, has_data, fin)
    }

    fn receive_frame(&self, record: &mut Generations, rekey: bool) -> Answer<u16> {
        generations::receive_frame(record, rekey)
    }

    fn owed(&self, record: &Generations) -> bool {
        generations::owed(record)
    }
}

impl Judging for Wire {
    fn judge(
        &self,
        own: &[u8],
        peer: &[u8],
        mandatory: bool,
        in_hand: Option<&Record>,
    ) -> Answer<Judged> {
        match judge::judge(mandatory, in_hand, own, peer) {
            judge::Judgement::Refused(number) => Err(number),
            judge::Judgement::Plain(cause) => Ok(Judged::Plain(cause)),
            judge::Judgement::Encrypted(verdict) => Ok(Judged::Encrypted {
                role: verdict.role,
                tep: verdict.tep,
                resumed: verdict.resumed,
                transcript: verdict.transcript,
            }),
        }
    }
}

/// Bytes written as in the papers' tables.
pub fn hex(text: &str) -> Vec<u8> {
    let byte = |pair| u8::from_str_radix(pair, 16).expect("two hex digits");
    text.split_whitespace().map(byte).collect()
}

/// The bench table's record R, with a secret of thirty-two 5a.
pub fn record_r() -> Record {
    Record {
        tep: 0x23,
        role: 0,
        identifier: std::array::from_fn(|i| i as u8),
        secret: [0x5a; 32],
    }
}
