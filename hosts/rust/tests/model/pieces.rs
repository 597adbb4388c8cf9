//! Messages in pieces (change request (i)): a whole stream by the one-shot readers of this model alone, and a reader that keeps all bytes that it was given.

use crate::driver::calls::*;
use crate::driver::pieces::{Fed, Item, Memory, Parsed, Reader, Says, Start, Whole};
use crate::model::{frames, init, Wire};

/// The first prefix that a one-shot reader does not want more of, and what it says to it.
fn opening<T>(stream: &[u8], read: impl Fn(&[u8]) -> Answer<T>) -> Option<(Answer<T>, usize)> {
    let prefixes = (1..=stream.len()).map(|n| (read(&stream[..n]), n));
    let mut settled = prefixes.filter(|(answer, _)| !matches!(answer, Err(9)));
    settled.next()
}

/// Whether each header that begins so is refused with 11 at this offset.
fn hopeless(offset: u64, seen: &[u8]) -> bool {
    let refused = |rest: usize| {
        let [high, low] = (rest as u16).to_be_bytes();
        let rest = &[high, low][seen.len() - 1..];
        let header = [seen, rest].concat();
        frames::header_read(&header, offset) == Err(11)
    };
    let all = [0x10000, 0x100, 1][seen.len() - 1];
    (0..all).all(refused)
}

/// Frames that begin at an offset.
fn read_frames(parsed: &mut Parsed, stream: &[u8], from: u64) {
    let (mut rest, mut offset) = (stream, from);
    loop {
        let seen = (1..=rest.len().min(3)).find(|n| hopeless(offset, &rest[..*n]));
        if let Some(n) = seen {
            parsed.refused = Some((11, offset + (n as u64 - 1)));
            return;
        }
        let Ok(header) = frames::header_read(rest, offset) else {
            return;
        };
        let (length, next) = (header.length, header.next);
        parsed.items.push((Item::Header(header), offset + 3));
        let Some(behind) = rest.get(3 + length..) else {
            return;
        };
        parsed.items.push((Item::Body(offset + 3..next), next));
        (rest, offset) = (behind, next);
    }
}

/// The Init message, and the frames behind it.
fn read_init<T>(
    stream: &[u8],
    read: impl Fn(&[u8]) -> Answer<T>,
    item: impl Fn(T) -> (Item, usize),
) -> Parsed {
    let mut parsed = Parsed::default();
    match opening(stream, read) {
        None => {}
        Some((Err(number), n)) => parsed.refused = Some((number, n as u64 - 1)),
        Some((Ok(init), _)) => {
            let (item, length) = item(init);
            parsed.items.push((item, length as u64));
            read_frames(&mut parsed, &stream[length..], length as u64);
        }
    }
    parsed
}

pub fn parse(start: &Start, stream: &[u8]) -> Parsed {
    match start {
        Start::Init1 { tep, enabled } => read_init(
            stream,
            |bytes| init::init1_read(*tep, *enabled, bytes),
            |init| (Item::Init1(init.clone()), init.length),
        ),
        Start::Init2 { tep, own } => read_init(
            stream,
            |bytes| init::init2_read(*tep, own, bytes),
            |init| (Item::Init2(init.clone()), init.length),
        ),
        Start::Frames { from } => {
            let mut parsed = Parsed::default();
            read_frames(&mut parsed, stream, *from);
            parsed
        }
    }
}

fn accepts(start: &Start) -> Answer<()> {
    match start {
        Start::Init1 { tep, .. } => init::key_length(*tep).map(|_| ()).ok_or(3),
        Start::Init2 { tep, own } if own.len() <= 255 => {
            init::key_length(*tep).map(|_| ()).ok_or(3)
        }
        Start::Init2 { .. } => Err(3),
        Start::Frames { .. } => Ok(()),
    }
}

/// The numbers of a reader that waits, as docs/DECISIONS.md has them.
fn waiting(start: &Start, stream: &[u8], parsed: &Parsed) -> [u64; 4] {
    let position = start.from().wrapping_add(stream.len() as u64);
    match (parsed.items.last(), start) {
        (Some((Item::Header(header), after)), _) => [position, *after, header.next, 3],
        (None, Start::Init1 { tep, enabled }) => {
            let flags = (0..3).map(|i| u64::from(enabled[i]) << i).sum();
            [position, u64::from(*tep), flags, 4]
        }
        (None, Start::Init2 { tep, own }) => [position, u64::from(*tep), own.len() as u64, 5],
        (last, _) => {
            let after = last.map_or(start.from(), |(_, after)| *after);
            let at_hand = &stream[(after - start.from()) as usize..];
            let byte = |i: usize| at_hand.get(i).map_or(0, |byte| u64::from(*byte));
            [position, byte(0), byte(1), at_hand.len() as u64]
        }
    }
}

/// The memory behind a stream that came to this: the numbers, the Init message as far as it came, and host A's list.
fn leaves(start: &Start, stream: &[u8], parsed: &Parsed, before: Memory) -> Memory {
    let numbers = match parsed.refused {
        Some((number, position)) => [position, u64::from(number), 0, 6],
        None => waiting(start, stream, parsed),
    };
    let mut gathered = before.gathered;
    if let Start::Init2 { own, .. } = start {
        for (i, cipher) in own.iter().enumerate() {
            gathered[4096 + 2 * i..][..2].copy_from_slice(&cipher.to_be_bytes());
        }
    }
    if !matches!(start, Start::Frames { .. }) {
        let came = match (parsed.items.first(), parsed.refused) {
            (Some((_, after)), _) => *after as usize,
            (None, Some((_, position))) => position as usize + 1,
            (None, None) => stream.len(),
        };
        gathered[..came].copy_from_slice(&stream[..came]);
    }
    Memory {
        numbers: numbers.to_vec(),
        gathered,
    }
}

impl Whole for Wire {
    fn accepts(&self, start: &Start) -> Answer<()> {
        accepts(start)
    }

    fn reads(&self, start: &Start, stream: &[u8], before: Memory) -> (Parsed, Memory) {
        let parsed = parse(start, stream);
        let memory = leaves(start, stream, &parsed, before);
        (parsed, memory)
    }
}

/// A reader that reads all it was given anew at each call.
#[derive(Clone)]
pub struct Anew {
    pub start: Start,
    pub seen: Vec<u8>,
    pub told: usize,
    pub refused: Option<(u8, u64)>,
    before: Memory,
}

impl Anew {
    pub fn new() -> Anew {
        Anew {
            start: Start::Frames { from: 0 },
            seen: vec![],
            told: 0,
            refused: None,
            before: Memory {
                numbers: vec![0; 4],
                gathered: vec![0; 4608],
            },
        }
    }
}

impl Reader for Anew {
    fn start(&mut self, start: &Start) -> Answer<()> {
        accepts(start)?;
        self.before = self.memory();
        (self.start, self.seen) = (start.clone(), vec![]);
        (self.told, self.refused) = (0, None);
        Ok(())
    }

    fn feed(&mut self, piece: &[u8]) -> Fed {
        let seen = [&self.seen[..], piece].concat();
        let parsed = parse(&self.start, &seen);
        if let (None, Some((item, after))) = (self.refused, parsed.items.get(self.told)) {
            let used = (after - self.start.from()) as usize - self.seen.len();
            self.seen.extend(&piece[..used]);
            self.told += 1;
            let says = Says::Item(item.clone());
            return Fed { used, says };
        }
        if self.refused.is_none() {
            self.seen = seen;
            self.refused = parsed.refused;
        }
        match self.refused {
            Some((number, position)) => Fed {
                used: 0,
                says: Says::Refused(number, position),
            },
            None => Fed {
                used: piece.len(),
                says: Says::Waiting,
            },
        }
    }

    fn memory(&self) -> Memory {
        let parsed = parse(&self.start, &self.seen);
        leaves(&self.start, &self.seen, &parsed, self.before.clone())
    }
}

mod tests {
    use super::*;
    use crate::model::hex;

    const B: Start = Start::Init1 {
        tep: 0x23,
        enabled: [true; 3],
    };

    fn refused(start: &Start, stream: &str) -> Option<(u8, u64)> {
        parse(start, &hex(stream)).refused
    }

    /// The examples of the request's plan.
    #[test]
    fn refusals_at_their_bytes() {
        assert_eq!(refused(&B, "15"), None);
        assert_eq!(refused(&B, "15 11"), Some((8, 1)));
        assert_eq!(refused(&B, "15 10 1a 0e 00 00 10 01"), Some((8, 7)));
        assert_eq!(refused(&B, "15 10 1a 0e 00 00 00 4b 02"), Some((8, 8)));
        let void = "15 10 1a 0e 00 00 00 4d 02 00 01 00 00";
        assert_eq!(refused(&B, void), Some((8, 12)));
        let a = Start::Init2 {
            tep: 0x23,
            own: vec![1],
        };
        let void = "09 71 05 e0 00 00 00 4a 00 00";
        assert_eq!(refused(&a, void), Some((8, 9)));
        let at = |from| Start::Frames { from };
        assert_eq!(refused(&at(75), "00 00 10"), Some((11, 77)));
        let last = u64::MAX;
        assert_eq!(refused(&at(last - 19), "00"), Some((11, last - 19)));
        assert_eq!(refused(&at(last - 20), "00 01"), Some((11, last - 19)));
        assert_eq!(refused(&at(last - 20), "00 00 11"), None);
    }
}
