//! Random streams, good and damaged, cut in many ways before a reader of pieces: what it tells and what it has come to, beside the whole stream read at once.

use std::ops::Range;

use super::alike;
use super::calls::{Answer, Header, Init, Init1, Init2};
use super::counts::Counts;
use super::random::Random;

/// How a reader is started. Frames from another place than 0 are a reader of the test's own making.
#[derive(Clone, Debug)]
pub enum Start {
    Init1 { tep: u8, enabled: [bool; 3] },
    Init2 { tep: u8, own: Vec<u16> },
    Frames { from: u64 },
}

impl Start {
    /// The position of the stream's first byte.
    pub fn from(&self) -> u64 {
        match self {
            Start::Frames { from } => *from,
            _ => 0,
        }
    }
}

#[derive(Clone, PartialEq, Eq, Debug)]
pub enum Item {
    Init1(Init1),
    Init2(Init2),
    Header(Header),
    Body(Range<u64>),
}

/// What a call says; a refusal has its number and its position.
#[derive(Clone, PartialEq, Eq, Debug)]
pub enum Says {
    Waiting,
    Item(Item),
    Refused(u8, u64),
}

#[derive(Clone, PartialEq, Eq, Debug)]
pub struct Fed {
    pub used: usize,
    pub says: Says,
}

/// A reader's memory.
#[derive(Clone, PartialEq, Eq, Debug)]
pub struct Memory {
    pub numbers: Vec<u64>,
    pub gathered: Vec<u8>,
}

pub trait Reader: Clone {
    /// Starts anew, or stays as it was.
    fn start(&mut self, start: &Start) -> Answer<()>;
    fn feed(&mut self, piece: &[u8]) -> Fed;
    fn memory(&self) -> Memory;
    /// Whether the memory is that of docs/DECISIONS.md.
    fn shows(&self) -> bool {
        true
    }
}

/// What a stream comes to: the items, each with the position behind its last byte, and the refusal.
#[derive(Clone, PartialEq, Eq, Debug, Default)]
pub struct Parsed {
    pub items: Vec<(Item, u64)>,
    pub refused: Option<(u8, u64)>,
}

/// The whole stream at once, and what a reader that was started so has come to behind it.
pub trait Whole: Init {
    fn accepts(&self, start: &Start) -> Answer<()>;
    fn reads(&self, start: &Start, stream: &[u8], before: Memory) -> (Parsed, Memory);
}

/// Gives a reader the pieces, each again without its used bytes after an item. After a refusal all that follows must be refused alike.
fn run<T: Reader>(reader: &mut T, from: u64, pieces: &[&[u8]]) -> Result<Parsed, String> {
    let mut parsed = Parsed::default();
    let mut taken = from;
    for piece in pieces {
        let mut rest = *piece;
        loop {
            let before = parsed.refused.map(|_| reader.memory());
            let Fed { used, says } = reader.feed(rest);
            if used > rest.len() {
                return Err(format!("{used} bytes used of {}", rest.len()));
            }
            taken = taken.wrapping_add(used as u64);
            rest = &rest[used..];
            match (says, parsed.refused) {
                (Says::Refused(number, position), None) if used == 0 => {
                    parsed.refused = Some((number, position));
                    break;
                }
                (Says::Refused(number, position), Some(refused)) => {
                    alike(
                        || "again".into(),
                        &(refused, 0),
                        &((number, position), used),
                    )?;
                    alike(|| "a refused piece".into(), &before, &Some(reader.memory()))?;
                    break;
                }
                (Says::Waiting, None) if rest.is_empty() => break,
                (Says::Item(item), None) if used > 0 => parsed.items.push((item, taken)),
                (says, refused) => return Err(format!("{says:?} after {refused:?}, {used} used")),
            }
        }
    }
    Ok(parsed)
}

/// Cuts a stream at random, with empty pieces.
fn cut<'a>(random: &mut Random, stream: &'a [u8]) -> Vec<&'a [u8]> {
    let (mut pieces, mut rest) = (vec![], stream);
    let most = random.pick(&[1, 2, 5, 40, 200]);
    while !rest.is_empty() || random.chance(20) {
        let (piece, behind) = rest.split_at(random.below(most + 1).min(rest.len()));
        pieces.push(piece);
        rest = behind;
    }
    pieces
}

fn start(random: &mut Random) -> Start {
    let tep = match random.below(20) {
        0 => random.pick(&[0x21, 0x22, 0x25, 0xa3, 0xa4, 0]),
        _ => random.pick(&[0x23, 0x24]),
    };
    match random.below(6) {
        0 | 1 => Start::Init1 {
            tep,
            enabled: std::array::from_fn(|_| random.chance(70)),
        },
        2 | 3 => {
            let count = match random.below(20) {
                0 => random.pick(&[255, 256]),
                _ => random.below(5),
            };
            let own = (0..count).map(|_| random.pick(&[0, 1, 2, 0x10, 0x77]));
            Start::Init2 {
                tep,
                own: own.collect(),
            }
        }
        _ => Start::Frames {
            from: match random.below(3) {
                0 => 0,
                1 => u64::MAX - random.below(120) as u64,
                _ => u64::MAX - random.below(70_000) as u64,
            },
        },
    }
}

/// An Init message for a start, perhaps longer than its fields, perhaps damaged.
fn message<R: Init>(random: &mut Random, init: &R, start: &Start) -> Vec<u8> {
    let mut out = vec![0; 700];
    let nonce = random.bytes(32);
    let key = |tep: u8| if tep == 0x24 { 56 } else { 32 };
    let count = if random.chance(5) {
        255
    } else {
        random.from(1, 4)
    };
    let mut ciphers: Vec<u16> = (0..count)
        .map(|_| random.pick(&[1, 2, 0x10, 0x77]))
        .collect();
    let written = match start {
        Start::Init1 { tep, .. } => {
            let key = random.bytes(key(*tep));
            init.init1_write(*tep, &ciphers, &nonce, &key, &mut out)
        }
        Start::Init2 { tep, own } => {
            if let (Some(one), true) = (own.first(), random.chance(70)) {
                ciphers[0] = (*one).max(1);
            }
            let key = random.bytes(key(*tep));
            init.init2_write(*tep, ciphers[0], &nonce, &key, &mut out)
        }
        Start::Frames { .. } => return vec![],
    };
    out.truncate(written.unwrap_or(0));
    if out.is_empty() {
        return random.bytes(20);
    }
    if random.chance(40) {
        let more = random.from(1, 7);
        let tail = random.bytes(more);
        out.extend(tail);
        let length = (out.len() as u32).to_be_bytes();
        out[4..8].copy_from_slice(&length);
    }
    match random.below(12) {
        0 => {
            let place = random.below(9);
            out[place] ^= 1 << random.below(8);
        }
        1 => {
            let list = if out[0] == 0x15 { 9 } else { 8 };
            let count = if list == 9 { out[8] } else { 1 };
            let place = list + 2 * random.below(usize::from(count));
            out[place..place + 2].fill(0);
        }
        2 => out[8] = random.pick(&[0, 1, 2, 3]),
        3 => {
            let length: u32 = random.pick(&[73, 74, 75, 98, 99, 4096, 4097]);
            out[4..8].copy_from_slice(&length.to_be_bytes());
        }
        _ => {}
    }
    out
}

/// A stream for a start: the message, then frames, of which one may be damaged; it may end anywhere.
fn stream<R: Init>(random: &mut Random, init: &R, start: &Start) -> Vec<u8> {
    let mut stream = message(random, init, start);
    for _ in 0..random.below(5) {
        let clen = match random.below(40) {
            0..=3 => random.below(17),
            4 => random.from(200, 700),
            _ => random.from(17, 40),
        };
        stream.push(random.byte());
        stream.extend((clen as u16).to_be_bytes());
        let body = random.bytes(clen);
        stream.extend(body);
    }
    if random.chance(40) {
        stream.truncate(random.below(stream.len() + 1));
    }
    stream
}

/// A stream for a start, and what a reader must come to.
struct Expected<'a> {
    start: &'a Start,
    stream: &'a [u8],
    answer: Answer<()>,
    parsed: Parsed,
    memory: Memory,
}

impl<'a> Expected<'a> {
    fn new<R: Whole>(whole: &R, start: &'a Start, stream: &'a [u8], before: Memory) -> Self {
        let answer = whole.accepts(start);
        let (parsed, memory) = match answer {
            Ok(()) => whole.reads(start, stream, before),
            Err(_) => (Parsed::default(), before),
        };
        Expected {
            start,
            stream,
            answer,
            parsed,
            memory,
        }
    }

    /// Starts a reader and gives it the stream in pieces; compares all that it tells, and its memory.
    fn compare<T: Reader>(&self, reader: &mut T, pieces: &[&[u8]]) -> Result<(), String> {
        let (start, stream) = (self.start, self.stream);
        let call = || {
            let lengths = lengths(pieces);
            format!("{start:02x?}\n  {stream:02x?}\n  in pieces of {lengths:?}")
        };
        let answer = reader.start(start);
        alike(call, &self.answer, &answer)?;
        if answer.is_ok() {
            let parsed = run(reader, start.from(), pieces);
            let parsed = parsed.map_err(|what| format!("{}: {what}", call()))?;
            alike(call, &self.parsed, &parsed)?;
        }
        if !reader.shows() {
            return Ok(());
        }
        alike(call, &self.memory, &reader.memory())
    }
}

fn lengths(pieces: &[&[u8]]) -> Vec<usize> {
    pieces.iter().map(|piece| piece.len()).collect()
}

fn count(counts: &mut Counts, parsed: &Parsed) {
    for (item, _) in &parsed.items {
        counts.meet(match item {
            Item::Init1(_) => "Init1 told",
            Item::Init2(_) => "Init2 told",
            Item::Header(_) => "header told",
            Item::Body(_) => "body told",
        });
    }
    if let Some((number, _)) = parsed.refused {
        counts.refusal(number);
    }
}

/// Random streams, each whole, byte by byte and cut at random; so many bytes in all. One reader is started anew for each.
pub fn compare<R: Whole, T: Reader>(
    seed: u64,
    bytes: usize,
    whole: &R,
    make: impl Fn() -> T,
) -> Result<Counts, String> {
    let mut counts = Counts::default();
    let mut random = Random::new(seed);
    let (mut reader, mut fed) = (make(), 0);
    while fed < bytes {
        let start = start(&mut random);
        let stream = stream(&mut random, whole, &start);
        let bytes: Vec<&[u8]> = stream.chunks(1).collect();
        let pieces = cut(&mut random, &stream);
        let cuts = [&[&stream[..]][..], &bytes, &pieces];
        let kept = reader.clone();
        let expected = Expected::new(whole, &start, &stream, kept.memory());
        for pieces in cuts {
            reader = kept.clone();
            expected.compare(&mut reader, pieces)?;
            count(&mut counts, &expected.parsed);
            fed += stream.len() + 1;
        }
        counts.meet("streams");
    }
    Ok(counts)
}

/// A stream of each start, cut at every two places.
pub fn every_two_cuts<R: Whole, T: Reader>(
    whole: &R,
    make: impl Fn() -> T,
) -> Result<Counts, String> {
    let mut counts = Counts::default();
    let mut init1 = vec![0; 79];
    let written = whole.init1_write(0x23, &[0x77, 1], &[7; 32], &[9; 32], &mut init1);
    assert_eq!(written, Ok(77));
    init1[7] = 79;
    let mut init2 = vec![0; 74];
    assert_eq!(
        whole.init2_write(0x23, 1, &[7; 32], &[9; 32], &mut init2),
        Ok(74)
    );
    let frames = [&[1, 0, 17][..], &[0xaa; 17], &[0xfe, 0, 18], &[0xbb; 18]].concat();
    let ends = [[0, 0, 16], [0, 0, 17]];
    for (start, message) in [
        (
            Start::Init1 {
                tep: 0x23,
                enabled: [true; 3],
            },
            init1,
        ),
        (
            Start::Init2 {
                tep: 0x23,
                own: vec![2, 1],
            },
            init2,
        ),
        (Start::Frames { from: 0 }, vec![]),
    ] {
        for end in &ends {
            let stream = [&message[..], &frames, end].concat();
            let expected = Expected::new(whole, &start, &stream, make().memory());
            for first in 0..=stream.len() {
                for second in first..=stream.len() {
                    let (a, b) = stream.split_at(second);
                    let pieces = [&a[..first], &a[first..], b];
                    expected.compare(&mut make(), &pieces)?;
                    count(&mut counts, &expected.parsed);
                    counts.meet("cuts");
                }
            }
        }
    }
    Ok(counts)
}

/// So many readers of the test's own making: any numbers, any bytes, any lengths of the lent memory. However the stream is cut, all is the same.
pub fn made_up<T: Reader>(
    seed: u64,
    readers: usize,
    make: impl Fn(Memory) -> T,
) -> Result<Counts, String> {
    let mut counts = Counts::default();
    let mut random = Random::new(seed);
    for _ in 0..readers {
        let memory = strange(&mut random);
        let length = random.below(120);
        let mut stream = random.bytes(length);
        if random.chance(50) {
            // Short frames, so that a reader that is past its item goes on.
            stream.iter_mut().for_each(|byte| *byte %= 32);
        }
        let pieces = cut(&mut random, &stream);
        let bytes: Vec<&[u8]> = stream.chunks(1).collect();
        let told = |pieces: &[&[u8]]| {
            let mut reader = make(memory.clone());
            let parsed = run(&mut reader, 0, pieces)?;
            Ok((parsed, reader.memory()))
        };
        let call = |what: String| format!("{:?}\n  {stream:02x?}: {what}", memory.numbers);
        let once = told(&[&stream]).map_err(call)?;
        for pieces in [&bytes[..], &pieces] {
            if stream.is_empty() && pieces.is_empty() {
                continue;
            }
            let again = told(pieces).map_err(call)?;
            alike(|| call(format!("{:?}", lengths(pieces))), &once, &again)?;
        }
        count(&mut counts, &once.0);
        if once.0.refused.is_some_and(|(number, _)| number == 5) {
            alike(|| call("no room".into()), &memory, &once.1)?;
        }
        counts.meet("readers");
    }
    Ok(counts)
}

fn strange(random: &mut Random) -> Memory {
    let position = match random.below(6) {
        0 => random.word(),
        1 => u64::MAX - random.below(40) as u64,
        2 => random.from(4090, 4100) as u64,
        3 => random.below(10) as u64,
        _ => random.below(130) as u64,
    };
    let first = match random.below(4) {
        0 => random.word(),
        1 => random.pick(&[8, 10, 11, 0x23, 0x24]),
        _ => random.below(200) as u64,
    };
    let second = match random.below(4) {
        0 => random.word(),
        1 => position.wrapping_add(random.below(50) as u64),
        _ => random.below(300) as u64,
    };
    let stage = match random.below(12) {
        0 => random.word(),
        _ => random.below(8) as u64,
    };
    let mut numbers = vec![position, first, second, stage];
    if random.chance(10) {
        numbers.resize(random.below(6), 3);
    }
    let length = match random.below(10) {
        0 => random.pick(&[0, 1, 4607, 4609]),
        _ => 4608,
    };
    let mut gathered = random.bytes(length);
    if length >= 4608 {
        let magic = random.pick(&[[0x15, 0x10, 0x1a, 0x0e], [0x09, 0x71, 0x05, 0xe0]]);
        let long = random.pick(&[0, 60, 75, 100, 4095, 4096, 5000]) as u32;
        gathered[..4].copy_from_slice(&magic);
        gathered[4..8].copy_from_slice(&long.to_be_bytes());
        gathered[8] = random.pick(&[0, 1, 2, 20, 255]);
        for byte in &mut gathered[9..40] {
            *byte %= 3;
        }
        for byte in &mut gathered[4096..4120] {
            *byte %= 3;
        }
    }
    Memory { numbers, gathered }
}
