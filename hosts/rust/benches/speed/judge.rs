//! The judge over a million pairs of option areas.

use std::hint::black_box;

use crate::driver::calls::Record;
use crate::driver::judge::{altered, invented, real, Ask};
use crate::driver::random::{seed, Random};
use crate::plain::judge::Judged;
use crate::plain::{self, Session};
use crate::timing::{best, head, ns, ratio, round, row};
use crate::untyped::{self, InHand};
use crate::{ffi, model};

/// So many pairs are judged by all before the next are: they stay in the cache, so that their reading is not what is measured.
const BLOCK: usize = 1000;
const ROUNDS: usize = 9;
/// Areas are kept in so many bytes; the driver's longer ones are refused as well at this length.
const AREA: usize = 44;

/// A pair, with the record in hand as each of the judges takes it.
struct Pair {
    own: ([u8; AREA], usize),
    peer: ([u8; AREA], usize),
    mandatory: bool,
    hand: Option<InHand>,
    session: Option<Session>,
    record: Option<Record>,
}

fn kept(area: &[u8]) -> ([u8; AREA], usize) {
    let mut bytes = [0; AREA];
    let length = area.len().min(AREA);
    bytes[..length].copy_from_slice(&area[..length]);
    (bytes, length)
}

/// The library's numbers as the plain Rust gives them.
fn as_plain(told: ffi::judge::JudgementNumbers) -> Judged {
    Judged {
        number: told.reply.number,
        kind: told.reply.kind,
        role: told.reply.role,
        tep: told.reply.tep,
        resumed: told.reply.resumed,
        place: told.reply.place,
        option: told.reply.option,
        transcript: told.transcript,
    }
}

impl Pair {
    fn of(ask: Ask) -> Pair {
        let record = ask.in_hand;
        Pair {
            own: kept(&ask.own),
            peer: kept(&ask.peer),
            mandatory: ask.mandatory,
            hand: record.as_ref().map(|record| InHand {
                tep: record.tep,
                role: record.role,
                identifier: record.identifier,
            }),
            session: record.as_ref().map(|record| Session {
                tep: record.tep,
                role: record.role,
                identifier: record.identifier,
                secret: record.secret,
            }),
            record,
        }
    }

    fn areas(&self) -> (&[u8], &[u8]) {
        (&self.own.0[..self.own.1], &self.peer.0[..self.peer.1])
    }

    fn library(&self) -> ffi::judge::JudgementNumbers {
        let (own, peer) = self.areas();
        ffi::judge::judge(own, peer, self.mandatory, self.hand.as_ref())
    }

    fn slowly(&self) -> ffi::judge::JudgementNumbers {
        let (own, peer) = self.areas();
        ffi::judge::judge_plainly(own, peer, self.mandatory, self.hand.as_ref())
    }

    fn safe(&self) -> Result<door_link::Judgement, door_link::Error> {
        let (own, peer) = self.areas();
        untyped::judge(own, peer, self.mandatory, self.hand.as_ref())
    }

    fn plain(&self) -> Judged {
        let (own, peer) = self.areas();
        plain::judge::judge(own, peer, self.mandatory, self.session.as_ref())
    }

    fn fastest(&self) -> Judged {
        let (own, peer) = self.areas();
        plain::fastest::judge(own, peer, self.mandatory, self.session.as_ref())
    }

    fn model(&self) -> model::judge::Judgement {
        let (own, peer) = self.areas();
        model::judge::judge(self.mandatory, self.record.as_ref(), own, peer)
    }

    /// All judges say the same.
    fn check(&self) {
        let numbers = as_plain(self.library());
        assert_eq!(numbers, as_plain(self.slowly()), "{:02x?}", self.areas());
        assert_eq!(numbers, self.plain(), "{:02x?}", self.areas());
        assert_eq!(numbers, self.fastest(), "{:02x?}", self.areas());
        let expected = match self.model() {
            model::judge::Judgement::Refused(number) => Judged::short(0, number.into()),
            model::judge::Judgement::Plain(cause) => Judged::plain(cause),
            model::judge::Judgement::Encrypted(verdict) => {
                let (role, tep) = (verdict.role, verdict.tep);
                Judged::encrypted(role, tep, verdict.resumed, &verdict.transcript, &[])
            }
        };
        assert_eq!(numbers, expected, "{:02x?}", self.areas());
    }
}

/// Nanoseconds for each pair of a block.
fn time<T>(block: &[Pair], judge: impl Fn(&Pair) -> T) -> f64 {
    best(ROUNDS, || {
        round(|| {
            for pair in block {
                black_box(judge(black_box(pair)));
            }
        })
    })
}

/// A kind of pairs: its name, how many are judged, and how one is made.
type Kind = (&'static str, usize, fn(&mut Random) -> Ask);

/// The summed times of the judges over so many pairs of a kind.
fn over(random: &mut Random, pairs: usize, kind: fn(&mut Random) -> Ask) -> [f64; 6] {
    let mut times = [0.0; 6];
    for _ in 0..pairs / BLOCK {
        let block: Vec<Pair> = (0..BLOCK).map(|_| Pair::of(kind(random))).collect();
        block.iter().for_each(Pair::check);
        times[0] += time(&block, Pair::library);
        times[1] += time(&block, Pair::safe);
        times[2] += time(&block, Pair::plain);
        times[3] += time(&block, Pair::fastest);
        times[4] += time(&block, Pair::model);
        times[5] += time(&block, Pair::slowly);
    }
    times
}

fn print(name: &str, pairs: usize, times: [f64; 6]) {
    let [library, safe, plain, fastest, model, slowly] = times.map(|time| time / pairs as f64);
    row(&[
        name.to_string(),
        ns(library),
        ns(safe),
        ns(plain),
        ns(fastest),
        ns(model),
        ratio(library, plain),
        ratio(library, fastest),
        ns(slowly),
        ratio(slowly, library),
    ]);
}

pub fn run() {
    let mut random = Random::new(seed());
    let title = format!(
        "The judge, ns for each pair; blocks of {BLOCK} pairs, best of {ROUNDS} rounds for each block"
    );
    let columns = [
        "pairs",
        "door_link_judge",
        "crate",
        "plain",
        "fastest",
        "test model",
        "to plain",
        "to fastest",
        "door_link_judge_plainly",
        "plain judge to quick",
    ];
    head(&title, &columns);
    let mut all = [0.0; 6];
    let mut count = 0;
    let kinds: [Kind; 3] = [
        ("such as two ends send", 700_000, real),
        ("one of them damaged", 150_000, altered),
        ("made up", 150_000, invented),
    ];
    for (name, pairs, kind) in kinds {
        let times = over(&mut random, pairs, kind);
        print(&format!("{pairs} {name}"), pairs, times);
        all.iter_mut()
            .zip(times)
            .for_each(|(sum, time)| *sum += time);
        count += pairs;
    }
    print(&format!("all {count}"), count, all);
}
