//! A stream in pieces: the reader through the exports, through the crate, and a push parser in plain Rust.

use std::hint::black_box;

use door_link as link;

use crate::plain::pieces::{Event, Reader};
use crate::timing::{best, head, ns, ratio, round, row};
use crate::{ffi, Enabled};

const ROUNDS: usize = 400;

const ENABLED: Enabled = Enabled {
    aes128: true,
    aes256: true,
    chacha20: false,
};

/// A stream: an Init1 with three ciphers where one is wanted, then frames, each of so many bytes or of 17 to 1,500.
fn stream(init: bool, frames: usize, body: Option<usize>) -> Vec<u8> {
    let mut stream = vec![];
    if init {
        let mut message = [0; 79];
        let ciphers = [0x77, link::cipher::CHACHA20, link::cipher::AES128];
        let tep = link::Tep::Curve25519;
        let written = link::init1_write(tep, &ciphers, &[7; 32], &[9; 32], &mut message);
        stream.extend(&message[..written.expect("a message")]);
    }
    for i in 0..frames {
        let length = body.unwrap_or(17 + i * 37 % 1484);
        stream.push((i % 2) as u8);
        stream.extend((length as u16).to_be_bytes());
        stream.extend(std::iter::repeat(i as u8).take(length));
    }
    stream
}

/// What is told, as a number: the same of each reader.
#[derive(Default)]
struct Sum(u64);

impl Sum {
    fn add(&mut self, number: u64) {
        self.0 = self.0.wrapping_mul(31).wrapping_add(number);
    }
}

/// Gives the stream in pieces to a call that gives back how many bytes it used and whether it goes on; counts the calls.
#[inline(always)]
fn cut(stream: &[u8], size: usize, mut feed: impl FnMut(&[u8]) -> (usize, bool)) -> u64 {
    let mut calls = 0;
    for piece in stream.chunks(size) {
        let mut rest = piece;
        loop {
            calls += 1;
            let (used, goes_on) = feed(black_box(rest));
            rest = &rest[used..];
            if !goes_on || rest.is_empty() {
                break;
            }
        }
    }
    calls
}

fn exports(stream: &[u8], init: bool, size: usize, gathered: &mut [u8]) -> (u64, u64) {
    let (mut numbers, mut sum) = ([0; 4], Sum::default());
    if init {
        ffi::pieces::start_init1(0x23, ENABLED, &mut numbers);
    } else {
        ffi::pieces::start_frames(&mut numbers);
    }
    let calls = cut(stream, size, |piece| {
        let fed = ffi::pieces::feed(&mut numbers, gathered, piece);
        match fed.kind {
            10 => sum.add(fed.number + u64::from(gathered[fed.place as usize])),
            12 => sum.add(fed.number),
            18 => sum.add(fed.number ^ fed.place),
            _ => {}
        }
        (fed.used, fed.kind != 17)
    });
    (calls, sum.0)
}

fn crate_calls(stream: &[u8], init: bool, size: usize, reader: &mut link::Pieces) -> (u64, u64) {
    let mut sum = Sum::default();
    if init {
        let _ = reader.start_init1(link::Tep::Curve25519, ENABLED);
    } else {
        let _ = reader.start_frames();
    }
    let calls = cut(stream, size, |piece| {
        let Ok(fed) = reader.feed(piece) else {
            return (piece.len(), false);
        };
        match &fed.item {
            None => {}
            Some(link::Item::Init(init)) => {
                sum.add(init.length() as u64 + u64::from(init.nonce()[0]));
            }
            Some(link::Item::Header(header)) => sum.add(header.next),
            Some(link::Item::Body(body)) => sum.add(body.end ^ body.start),
        }
        (fed.used, fed.item.is_some())
    });
    (calls, sum.0)
}

fn plainly(stream: &[u8], init: bool, size: usize, reader: &mut Reader) -> (u64, u64) {
    let mut sum = Sum::default();
    if init {
        let _ = reader.start_init1(0x23, [true, true, false]);
    } else {
        reader.start_frames(0);
    }
    let calls = cut(stream, size, |piece| {
        let (used, event) = reader.feed(piece);
        match event {
            Event::Init(init) => sum.add(init.length as u64 + u64::from(init.nonce[0])),
            Event::Header(header) => sum.add(header.next),
            Event::Body { begins, ends } => sum.add(ends ^ begins),
            Event::Waiting | Event::Refused { .. } => return (used, false),
        }
        (used, true)
    });
    (calls, sum.0)
}

/// Nanoseconds for one call, and what was told.
fn time(mut run: impl FnMut() -> (u64, u64)) -> (f64, u64) {
    let (calls, sum) = run();
    let fastest = best(ROUNDS, || {
        round(|| {
            black_box(run());
        })
    });
    (fastest / calls as f64, sum)
}

pub fn run() {
    let title = format!("Streams in pieces, ns for each call; best of {ROUNDS} rounds");
    let columns = [
        "stream and pieces",
        "exports",
        "crate",
        "plain",
        "exports to plain",
        "crate to plain",
    ];
    head(&title, &columns);
    let mut gathered = vec![0; link::GATHERED];
    let mut reader = Box::new(link::Pieces::frames());
    let mut plain_reader = Reader::new();
    for (name, init, frames, body) in [
        ("Init1 and frames of 17 to 1,500 bytes", true, 60, None),
        ("Init1 alone", true, 0, None),
        ("frames of 17 bytes", false, 600, Some(17)),
        ("frames of 1,400 bytes", false, 40, Some(1400)),
    ] {
        let stream = stream(init, frames, body);
        for size in [1, 64, 1460, usize::MAX] {
            let export = time(|| exports(&stream, init, size, &mut gathered));
            let safe = time(|| crate_calls(&stream, init, size, &mut reader));
            let plain = time(|| plainly(&stream, init, size, &mut plain_reader));
            assert!(
                export.1 == plain.1 && safe.1 == plain.1,
                "{name}: not the same"
            );
            let pieces = match size {
                usize::MAX => "all at once".to_string(),
                1 => "1 byte".to_string(),
                _ => format!("{size} bytes"),
            };
            row(&[
                format!("{name}, {pieces}"),
                ns(export.0),
                ns(safe.0),
                ns(plain.0),
                ratio(export.0, plain.0),
                ratio(safe.0, plain.0),
            ]);
        }
    }
}
