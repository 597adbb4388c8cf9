//! Calls without a unit, each time wrong in one thing.

use crate::driver::calls::*;
use crate::driver::counts::Counts;
use crate::driver::{finder, frames, generations, init, judge};
use crate::model::Wire;

/// The one thing; the model does the rest.
#[derive(Clone, Copy, PartialEq, Eq, Debug)]
enum Fault {
    /// 9 for another magic.
    MagicIncomplete,
    /// 10 before the ignored bytes are there.
    CipherTooSoon,
    /// B's own order of ciphers.
    OwnOrder,
    /// A message with bytes behind it is none.
    NothingBehind,
    /// A TEP byte with v.
    TepWithV,
    /// Room for the longest key.
    RoomForLongest,
    /// A cipher 0000 is seen once the message is all there.
    VoidAtTheEnd,
    /// 10 for a list of no ciphers, once the message is all there.
    EmptyIsUncommon,
    /// The least length of an Init1 with no ciphers.
    LeastAsBefore,
    /// Associated data rebuilt, with reserved bits cleared.
    AssociatedRebuilt,
    /// 11 before 5.
    LengthBeforeRoom,
    /// A ciphertext length's low two bytes.
    LengthCut,
    /// Four zeros in the frame ID.
    ZerosInId,
    /// 12 for a reserved flag.
    ReservedFlags,
    /// 65,519 bytes of data.
    LimitOnData,
    /// The rekey bit on each frame of a generation.
    RekeyTwice,
    /// Generations left out.
    Jumps,
    /// Local stays where it is.
    DoesNotFollow,
    /// 15 before 14.
    DataBeforeFin,
    /// A refused step changes the record.
    ChangesWhenRefused,
    /// Owed, whatever was sent.
    AlwaysOwed,
    /// Owed after FINp too.
    OwedAfterFin,
    /// 4 after FINp, where local is above last-used.
    OwedBeforeFin,
    /// Own option first.
    OwnFirst,
    /// The TEP byte without v.
    NoV,
    /// The halves of a record the other way round.
    SwappedHalves,
    /// No look at the other side's a.
    NotMandatory,
    /// The other side's area before the own one.
    PeerBlamedFirst,
    /// The place of an unreadable area's first option, whole or not.
    PlaceOfFirst,
    /// Its kind.
    KindOfFirst,
}

struct Wrong(Fault);

impl Wrong {
    fn is(&self, fault: Fault) -> bool {
        self.0 == fault
    }

    fn tep(&self, tep: u8) -> u8 {
        match self.0 {
            Fault::TepWithV => tep & 0x7f,
            _ => tep,
        }
    }

    /// Init bytes that a wrong reader takes these for.
    fn mended(&self, bytes: &[u8]) -> Option<Vec<u8>> {
        let first = *bytes.first()? == 0x15;
        let length: [u8; 4] = bytes.get(4..8)?.try_into().ok()?;
        let longer = u32::from_be_bytes(length).checked_add(2)?.to_be_bytes();
        let mut other = bytes.to_vec();
        match self.0 {
            Fault::VoidAtTheEnd => {
                let (list, count) = if first { (9, *bytes.get(8)?) } else { (8, 1) };
                let list = other.get_mut(list..)?;
                let voids = list.chunks_exact_mut(2).take(usize::from(count));
                voids.filter(|c| **c == [0, 0]).for_each(|c| c[1] = 1);
            }
            Fault::EmptyIsUncommon if first && *bytes.get(8)? == 0 => {
                other[4..8].copy_from_slice(&longer);
                other.splice(8..9, [1, 0x77, 0x77]);
            }
            Fault::LeastAsBefore if first && bytes.len() == 8 => {
                other[4..8].copy_from_slice(&longer);
            }
            _ => return None,
        }
        Some(other)
    }

    /// What a reader gives, changed; `again` reads other bytes.
    fn read<T>(
        &self,
        answer: Answer<T>,
        bytes: &[u8],
        length: impl Fn(&T) -> usize,
        again: impl Fn(&[u8]) -> Answer<T>,
    ) -> Answer<T> {
        match answer {
            Err(8) if self.is(Fault::MagicIncomplete) && bytes.len() <= 4 => Err(9),
            Err(8) => match self.mended(bytes).map(|other| again(&other)) {
                Some(Err(9)) => Err(9),
                Some(Err(10)) if self.is(Fault::EmptyIsUncommon) => Err(10),
                _ => answer,
            },
            Err(9) if self.is(Fault::CipherTooSoon) => {
                let mut whole = bytes.to_vec();
                whole.resize(bytes.len().max(4096), 0);
                match again(&whole) {
                    Err(10) => Err(10),
                    _ => answer,
                }
            }
            Ok(read) if self.is(Fault::NothingBehind) && length(&read) < bytes.len() => Err(8),
            _ => answer,
        }
    }
}

impl Finder for Wrong {
    fn find_status(&self, area: &[u8], syn: bool) -> Status {
        let mut status = Wire.find_status(area, syn);
        if let Status::Unreadable { place, kind } = &mut status {
            let first = area.iter().position(|byte| *byte > 1).unwrap_or(0);
            match self.0 {
                Fault::PlaceOfFirst => *place = first as u8,
                Fault::KindOfFirst => *kind = area[first],
                _ => {}
            }
        }
        status
    }
}

impl Init for Wrong {
    fn init1_write(
        &self,
        tep: u8,
        ciphers: &[u16],
        nonce: &[u8],
        key: &[u8],
        out: &mut [u8],
    ) -> Answer<usize> {
        if self.is(Fault::RoomForLongest) && key.len() == 32 && nonce.len() == 32 {
            let need = 41 + 2 * ciphers.len() + 56;
            let listed = (1..256).contains(&ciphers.len()) && !ciphers.contains(&0);
            if tep == 0x23 && listed && out.len() < need {
                return Err(5);
            }
        }
        Wire.init1_write(self.tep(tep), ciphers, nonce, key, out)
    }

    fn init2_write(
        &self,
        tep: u8,
        cipher: u16,
        nonce: &[u8],
        key: &[u8],
        out: &mut [u8],
    ) -> Answer<usize> {
        Wire.init2_write(self.tep(tep), cipher, nonce, key, out)
    }

    fn init1_read(&self, tep: u8, enabled: [bool; 3], bytes: &[u8]) -> Answer<Init1> {
        let read = |enabled, bytes: &[u8]| Wire.init1_read(self.tep(tep), enabled, bytes);
        if self.is(Fault::OwnOrder) {
            for one in (0..3).filter(|one| enabled[*one]) {
                let mut alone = [false; 3];
                alone[one] = true;
                if let Ok(taken) = read(alone, bytes) {
                    return Ok(taken);
                }
            }
        }
        let answer = read(enabled, bytes);
        self.read(
            answer,
            bytes,
            |init| init.length,
            |more| read(enabled, more),
        )
    }

    fn init2_read(&self, tep: u8, ciphers: &[u16], bytes: &[u8]) -> Answer<Init2> {
        let read = |bytes: &[u8]| Wire.init2_read(self.tep(tep), ciphers, bytes);
        self.read(read(bytes), bytes, |init| init.length, read)
    }
}

impl Frames for Wrong {
    fn header_write(&self, rekey: bool, length: usize, offset: u64, out: &mut [u8]) -> Answer<u64> {
        if self.is(Fault::LengthBeforeRoom) {
            Wire.next_offset(offset, length)?;
        }
        let cut = self.is(Fault::LengthCut) && length > 0xffff;
        let length = if cut { length & 0xffff } else { length };
        Wire.header_write(rekey, length, offset, out)
    }

    fn header_read(&self, bytes: &[u8], offset: u64) -> Answer<Header> {
        let mut header = Wire.header_read(bytes, offset)?;
        if self.is(Fault::AssociatedRebuilt) {
            header.associated[0] &= 1;
        }
        Ok(header)
    }

    fn next_offset(&self, offset: u64, length: usize) -> Answer<u64> {
        Wire.next_offset(offset, length)
    }

    fn frame_id(&self, offset: u64) -> [u8; 12] {
        let mut id = Wire.frame_id(offset);
        if self.is(Fault::ZerosInId) {
            id[..4].fill(0);
        }
        id
    }

    fn nonce(&self, offset: u64, fixed: &[u8]) -> Answer<[u8; 12]> {
        Wire.nonce(offset, fixed)
    }

    fn plaintext_write(
        &self,
        fin: bool,
        urgent: Option<u16>,
        data: &[u8],
        out: &mut [u8],
    ) -> Answer<usize> {
        match Wire.plaintext_write(fin, urgent, data, out) {
            Err(11) if self.is(Fault::LimitOnData) && data.len() <= 65_519 => Ok(data.len() + 1),
            answer => answer,
        }
    }

    fn plaintext_read(&self, bytes: &[u8]) -> Answer<Plaintext> {
        let plaintext = Wire.plaintext_read(bytes)?;
        if self.is(Fault::ReservedFlags) && bytes[0] > 3 {
            return Err(12);
        }
        Ok(plaintext)
    }
}

impl Rekeying for Wrong {
    fn start(&self) -> Generations {
        Wire.start()
    }

    fn send(&self, record: &mut Generations, fin: bool) -> Answer<Sent> {
        let jumps = self.is(Fault::Jumps) && Wire.owed(record);
        if jumps {
            record.last = record.local - 1;
        }
        let mut sent = Wire.send(record, fin)?;
        if self.is(Fault::RekeyTwice) && sent.generation > 0 {
            sent.rekey = true;
        }
        Ok(sent)
    }

    fn initiate(&self, record: &mut Generations, has_data: bool, fin: bool) -> Answer<Sent> {
        match Wire.initiate(record, has_data, fin) {
            Err(14) if self.is(Fault::DataBeforeFin) => {
                let without = !has_data && record.remote < record.local;
                Err(if without { 15 } else { 14 })
            }
            Err(_) if self.is(Fault::OwedBeforeFin) && record.local > record.last => Err(4),
            answer => answer,
        }
    }

    fn receive_frame(&self, record: &mut Generations, rekey: bool) -> Answer<u16> {
        let before = *record;
        let answer = Wire.receive_frame(record, rekey);
        if self.is(Fault::DoesNotFollow) {
            record.local = before.local;
        }
        if self.is(Fault::ChangesWhenRefused) && answer.is_err() {
            record.local = 0xffff;
        }
        answer
    }

    fn owed(&self, record: &Generations) -> bool {
        let above = self.is(Fault::OwedAfterFin) && record.local > record.last;
        self.is(Fault::AlwaysOwed) || above || Wire.owed(record)
    }
}

impl Judging for Wrong {
    fn judge(
        &self,
        own: &[u8],
        peer: &[u8],
        mandatory: bool,
        in_hand: Option<&Record>,
    ) -> Answer<Judged> {
        let mandatory = mandatory && !self.is(Fault::NotMandatory);
        let mut hand = in_hand.cloned();
        if let (Some(record), Fault::SwappedHalves) = (&mut hand, self.0) {
            record.role = u8::from(record.role == 0);
        }
        let mut judged = Wire.judge(own, peer, mandatory, hand.as_ref())?;
        if self.is(Fault::PeerBlamedFirst) && matches!(judged, Judged::Plain(_)) {
            if let Status::Unreadable { place, kind } = Wire.find_status(peer, true) {
                return Ok(Judged::Plain(Cause::unreadable(place, kind)));
            }
        }
        if let Judged::Encrypted {
            role,
            tep,
            transcript,
            ..
        } = &mut judged
        {
            match self.0 {
                Fault::NoV => *tep &= 0x7f,
                Fault::OwnFirst if *role == 1 => {
                    let middle = usize::from(transcript[1]);
                    transcript.rotate_left(middle);
                }
                _ => {}
            }
        }
        Ok(judged)
    }
}

/// Fails where a wrong one is not seen, or the model itself is.
fn each_is_seen(faults: &[Fault], compare: impl Fn(Option<Fault>) -> Result<Counts, String>) {
    assert!(compare(None).is_ok());
    for fault in faults {
        assert!(compare(Some(*fault)).is_err(), "{fault:?}");
    }
}

/// One comparison of the driver, with the model or with a wrong one.
macro_rules! against {
    ($compare:path) => {
        |fault| match fault {
            None => $compare(1, 20_000, &Wire, &Wire),
            Some(fault) => $compare(1, 20_000, &Wire, &Wrong(fault)),
        }
    };
}

#[test]
fn wrong_findings_are_seen() {
    let faults = [Fault::PlaceOfFirst, Fault::KindOfFirst];
    each_is_seen(&faults, against!(finder::compare));
}

#[test]
fn wrong_init_messages_are_seen() {
    let faults = [
        Fault::MagicIncomplete,
        Fault::CipherTooSoon,
        Fault::OwnOrder,
        Fault::NothingBehind,
        Fault::TepWithV,
        Fault::RoomForLongest,
        Fault::VoidAtTheEnd,
        Fault::EmptyIsUncommon,
        Fault::LeastAsBefore,
    ];
    each_is_seen(&faults, against!(init::compare));
}

#[test]
fn wrong_frames_are_seen() {
    let faults = [
        Fault::AssociatedRebuilt,
        Fault::LengthBeforeRoom,
        Fault::LengthCut,
        Fault::ZerosInId,
        Fault::ReservedFlags,
        Fault::LimitOnData,
    ];
    each_is_seen(&faults, against!(frames::compare));
}

#[test]
fn wrong_generations_are_seen() {
    let faults = [
        Fault::RekeyTwice,
        Fault::Jumps,
        Fault::DoesNotFollow,
        Fault::DataBeforeFin,
        Fault::ChangesWhenRefused,
        Fault::AlwaysOwed,
        Fault::OwedAfterFin,
        Fault::OwedBeforeFin,
    ];
    each_is_seen(&faults, against!(generations::compare));
}

#[test]
fn wrong_judgements_are_seen() {
    let faults = [
        Fault::OwnFirst,
        Fault::NoV,
        Fault::SwappedHalves,
        Fault::NotMandatory,
        Fault::PeerBlamedFirst,
    ];
    each_is_seen(&faults, against!(judge::compare));
}
