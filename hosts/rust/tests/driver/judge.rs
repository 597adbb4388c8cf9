//! Random pairs of option areas for the judge: such as two ends send, damaged ones, made-up ones.

use super::alike;
use super::calls::{Judged, Judging, Record};
use super::counts::Counts;
use super::options::{broken, damaged, made_up, wrap, Quote};
use super::random::Random;
use super::seen::halves;

/// What the judge is asked.
#[derive(Clone, Debug)]
pub struct Ask {
    pub own: Vec<u8>,
    pub peer: Vec<u8>,
    pub mandatory: bool,
    pub in_hand: Option<Record>,
}

/// A session record; its role is sometimes none.
fn record(random: &mut Random) -> Record {
    Record {
        tep: random.from(0x21, 0x24) as u8,
        role: match random.below(40) {
            0 => random.byte(),
            _ => random.below(2) as u8,
        },
        identifier: random.array(),
        secret: random.array(),
    }
}

/// One to four known TEPs, none twice.
fn list(random: &mut Random) -> Vec<u8> {
    let mut teps = vec![0x21, 0x22, 0x23, 0x24];
    for place in 0..4 {
        teps.swap(place, random.from(place, 3));
    }
    teps.truncate(random.from(1, 4));
    teps
}

/// An option such as an end sends: the global byte if it is not zero, fresh TEPs, a resumption last.
fn option(b: u8, aware: bool, teps: &[u8], resumption: Option<(u8, &[u8], &[u8])>) -> Vec<u8> {
    let mut option = vec![0x45, 0];
    option.extend(Some(b + 2 * u8::from(aware)).filter(|global| *global > 0));
    let resumed = resumption.map(|(tep, _, _)| tep);
    option.extend(teps.iter().filter(|tep| Some(**tep) != resumed));
    if let Some((tep, half, nonce)) = resumption {
        option.push(0x80 | tep);
        option.extend(half);
        option.extend(nonce);
    }
    option[1] = option.len() as u8;
    option
}

/// What two ends send to each other that mean to open a connection: host A's list, host B's answer to it, often with a session that both hold.
/// Either of them judges.
pub fn real(random: &mut Random) -> Ask {
    let held = Record {
        role: random.below(2) as u8,
        ..record(random)
    };
    let (sent, expected) = halves(&held);
    let mut teps = list(random);
    let resumes = random.chance(50);
    if resumes && !teps.contains(&held.tep) {
        teps[0] = held.tep;
    }
    let chosen = if resumes {
        held.tep
    } else {
        random.pick(&teps)
    };
    let follows = resumes && random.chance(85);
    let length = random.below(9);
    let (nonces, own_is_a) = (
        (random.bytes(length), random.bytes(length)),
        random.chance(50),
    );
    let aware = (random.chance(40), random.chance(40));
    let (half_a, half_b) = if own_is_a {
        (&sent, &expected)
    } else {
        (&expected, &sent)
    };
    let proposal = resumes.then_some((held.tep, &half_a[..], &nonces.0[..]));
    let a = option(0, aware.0, &teps, proposal);
    let answer = follows.then_some((held.tep, &half_b[..], &nonces.1[..]));
    let b = option(1, aware.1, &[chosen], answer);
    let (a, b) = (wrap(random, &a), wrap(random, &b));
    let (own, peer) = if own_is_a { (a, b) } else { (b, a) };
    Ask {
        own,
        peer,
        mandatory: random.chance(20),
        in_hand: (resumes && random.chance(95)).then_some(held),
    }
}

/// Something happened to one of the areas, to both, or to the record in hand.
pub fn altered(random: &mut Random) -> Ask {
    let mut ask = real(random);
    let quotes: Vec<Quote> = ask.in_hand.iter().flat_map(quotes).collect();
    match random.below(9) {
        0 => ask.own = damaged(random, &ask.own, &quotes),
        8 => {
            ask.own = broken(random, &ask.own);
            ask.peer = damaged(random, &ask.peer, &quotes);
        }
        1 => {
            if let Some(record) = &mut ask.in_hand {
                match random.below(3) {
                    0 => record.role ^= 1,
                    1 => record.tep = random.pick(&[0x21, 0x22, 0x23, 0x24, 0xa3, 0x2f]),
                    _ => record.identifier[random.below(18)] ^= 1,
                }
            }
        }
        _ => ask.peer = damaged(random, &ask.peer, &quotes),
    }
    ask
}

/// Made-up options that quote the record in hand.
pub fn invented(random: &mut Random) -> Ask {
    let in_hand = random.chance(60).then(|| record(random));
    let quotes: Vec<Quote> = in_hand.iter().flat_map(quotes).collect();
    let own = made_up(random, 0, &quotes);
    let b = u8::from(random.chance(90));
    let peer = made_up(random, b, &quotes);
    let (one, other) = (wrap(random, &own), wrap(random, &peer));
    let (own, peer) = if random.chance(50) {
        (one, other)
    } else {
        (other, one)
    };
    Ask {
        own,
        peer,
        mandatory: random.chance(20),
        in_hand,
    }
}

/// Both halves of a record with its TEP.
fn quotes(record: &Record) -> [Quote; 2] {
    let (sent, expected) = halves(record);
    [(record.tep, sent), (record.tep, expected)]
}

/// Of a hundred: `real` such as two ends send, half of the rest damaged, half made up.
pub fn ask(random: &mut Random, real_ones: usize) -> Ask {
    if random.chance(real_ones) {
        real(random)
    } else if random.chance(50) {
        altered(random)
    } else {
        invented(random)
    }
}

/// Makes so many calls.
pub fn compare<R: Judging, T: Judging>(
    seed: u64,
    calls: usize,
    reference: &R,
    tested: &T,
) -> Result<Counts, String> {
    let mut counts = Counts::default();
    let mut random = Random::new(seed);
    for _ in 0..calls {
        let ask = ask(&mut random, 40);
        let in_hand = ask.in_hand.as_ref();
        let answer = reference.judge(&ask.own, &ask.peer, ask.mandatory, in_hand);
        let again = tested.judge(&ask.own, &ask.peer, ask.mandatory, in_hand);
        alike(|| format!("{ask:02x?}"), &answer, &again)?;
        match answer {
            Err(number) => counts.refusal(number),
            Ok(Judged::Plain(cause)) => counts.cause(cause),
            Ok(Judged::Encrypted {
                role, tep, resumed, ..
            }) => {
                let way = if resumed { "resumed" } else { "fresh" };
                let end = if role == 0 { "A" } else { "B" };
                counts.meet(&format!("{way} as {end}"));
                if tep >= 0x80 && !resumed {
                    counts.meet("fresh with v = 1");
                }
            }
        }
    }
    Ok(counts)
}
