//! Every place at which an option area can be unreadable, before every call that reads one: what is told must be the place and the kind.

use super::alike;
use super::calls::{Answer, Cause, Finder, Judged, Judging, PhaseNow, Reply, Status, Unit};
use super::counts::Counts;
use super::every::Pair;
use super::list::Call;

/// Whole options of the two ends.
const SYN: [u8; 3] = [0x45, 3, 0x23];
const SYN_ACK: [u8; 4] = [0x45, 4, 1, 0x23];

/// An area that is unreadable, and where.
struct Broken {
    place: u8,
    kind: u8,
    area: Vec<u8>,
}

/// Every place with each of these kinds, behind padding and behind an ENO option, in every way: no length byte, one below 2, one beyond the end.
fn broken(kinds: impl Iterator<Item = u8> + Clone) -> Vec<Broken> {
    let mut all = Vec::new();
    for place in 0..40_u8 {
        let padding = vec![1; usize::from(place)];
        let mut option = padding.clone();
        if let [first, second, ..] = &mut option[..] {
            (*first, *second) = (0x45, place);
        }
        let full = usize::from(39 - place);
        let ways = [
            vec![],
            vec![0],
            vec![1],
            vec![3],
            vec![255],
            vec![0; full],
            vec![1; full],
            vec![41 - place; full],
        ];
        for behind in ways.iter().filter(|way| way.len() <= full) {
            for before in [&padding, &option] {
                all.extend(kinds.clone().map(|kind| Broken {
                    place,
                    kind,
                    area: [before, &[kind][..], behind].concat(),
                }));
            }
        }
    }
    all
}

/// The finder's companion, with every kind.
pub fn finder<R: Finder, T: Finder>(reference: &R, tested: &T) -> Result<usize, String> {
    let mut calls = 0;
    for Broken { place, kind, area } in broken(2..=255) {
        for syn in [false, true] {
            let call = || format!("syn {syn} {area:02x?}");
            let status = reference.find_status(&area, syn);
            alike(call, &Status::Unreadable { place, kind }, &status)?;
            alike(call, &status, &tested.find_status(&area, syn))?;
            calls += 1;
        }
    }
    Ok(calls)
}

/// How a door comes to read an area: the calls before it, and the call itself.
fn courses(door: usize, area: &[u8]) -> Vec<Vec<Call>> {
    let answer = |area: &[u8]| Call::Answer {
        door,
        area: area.to_vec(),
        aware: false,
        mandatory: false,
        teps: vec![0x23],
        nonce: Vec::new(),
        out: vec![0xee; 24],
    };
    let offer = || Call::Offer {
        door,
        b: 0,
        aware: false,
        mandatory: false,
        teps: vec![0x23],
        resume: false,
        nonce: Vec::new(),
        out: vec![0xee; 24],
    };
    let receive = |syn, ack, area: &[u8]| Call::Receive {
        door,
        syn,
        ack,
        area: area.to_vec(),
    };
    let crossed = || receive(true, false, &SYN_ACK);
    vec![
        vec![answer(area)],
        vec![answer(&SYN), receive(true, false, area)],
        vec![answer(&SYN), receive(false, true, area)],
        vec![offer(), receive(true, false, area)],
        vec![offer(), receive(true, true, area)],
        vec![offer(), crossed(), receive(true, true, area)],
        vec![offer(), crossed(), receive(false, true, area)],
    ]
}

/// The unit: *answer* and *receive* in every phase that reads an area, then *receive* in Plain and *result*, each twice.
pub fn unit<R: Unit, T: Unit>(reference: R, tested: T) -> Result<Counts, String> {
    let mut pair = Pair::new(reference, tested);
    for Broken { place, kind, area } in broken([2, 8, 0x45, 0xff].into_iter()) {
        let cause = Cause::unreadable(place, kind);
        let door = usize::from(place) % door_link::DOORS;
        for course in courses(door, &area) {
            let mut last = None;
            for call in course {
                last = Some(pair.call(call)?.reply);
            }
            let told = || format!("door {door} {area:02x?}");
            let plain = match last {
                Some(Reply::Plain(cause) | Reply::Now(PhaseNow::Plain(cause))) => Some(cause),
                _ => None,
            };
            alike(told, &Some(cause), &plain)?;
            for again in [&SYN_ACK[..], &[0x45]] {
                let (syn, ack, area) = (true, true, again.to_vec());
                let call = Call::Receive {
                    door,
                    syn,
                    ack,
                    area,
                };
                alike(
                    told,
                    &Reply::Now(PhaseNow::Plain(cause)),
                    &pair.call(call)?.reply,
                )?;
                let out = vec![0xee; 80];
                let result = pair.call(Call::Result { door, out })?;
                alike(told, &Reply::Plain(cause), &result.reply)?;
            }
            pair.result_and_close(door)?;
        }
    }
    Ok(pair.counts)
}

/// The judge: an unreadable area on either side, and one on both, where the own one counts.
pub fn judge<R: Judging, T: Judging>(reference: &R, tested: &T) -> Result<usize, String> {
    let mut calls = 0;
    let mut judged = |own: &[u8], peer: &[u8], expected: Answer<Judged>| {
        let call = || format!("{own:02x?} {peer:02x?}");
        let answer = reference.judge(own, peer, false, None);
        alike(call, &expected, &answer)?;
        calls += 1;
        alike(call, &answer, &tested.judge(own, peer, false, None))
    };
    let plain = |one: &Broken| Ok(Judged::Plain(Cause::unreadable(one.place, one.kind)));
    let (owns, peers) = (broken([2].into_iter()), broken([8].into_iter()));
    for own in &owns {
        for peer in &peers {
            judged(&own.area, &peer.area, plain(own))?;
        }
        judged(&own.area, &SYN_ACK, plain(own))?;
        judged(&own.area, &[], plain(own))?;
        judged(&own.area, &[1; 41], Err(2))?;
    }
    for peer in &peers {
        judged(&SYN, &peer.area, plain(peer))?;
        judged(&[0x45, 3, 0x80], &peer.area, plain(peer))?;
        judged(&[], &peer.area, plain(peer))?;
        judged(&[1; 41], &peer.area, Err(2))?;
    }
    Ok(calls)
}
