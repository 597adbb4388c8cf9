//! One door: its phases, the record in hand, and each call as the door alone sees it (document 01, "A door's phases").

use super::area::{find, Finding, MOST};
use super::judge::{judge, Judgement, Verdict};
use super::records::{expected, known, sent};
use super::suboptions::{read, Class, Contents};
use super::writer::{option, Resumption};
use crate::driver::calls::{Cause, PhaseNow, Record, Reply};

#[derive(Clone, PartialEq, Eq, Debug)]
pub enum Phase {
    Idle,
    Offered {
        own: Vec<u8>,
        mandatory: bool,
    },
    Crossed {
        own: Vec<u8>,
        peer: Vec<u8>,
        verdict: Verdict,
    },
    Answered {
        own: Vec<u8>,
        peer: Vec<u8>,
        verdict: Verdict,
    },
    Open(Verdict),
    Plain(Cause),
}

#[derive(Clone, PartialEq, Eq, Debug)]
pub struct Door {
    pub phase: Phase,
    pub in_hand: Option<Record>,
}

/// What an offer asks for.
pub struct Offer<'a> {
    pub b: u8,
    pub aware: bool,
    pub mandatory: bool,
    pub teps: &'a [u8],
    pub resume: bool,
    pub nonce: &'a [u8],
}

/// What an answer asks for.
pub struct Answer<'a> {
    pub area: &'a [u8],
    pub aware: bool,
    pub mandatory: bool,
    pub teps: &'a [u8],
    pub nonce: &'a [u8],
}

/// A TEP list that number 3 refuses.
fn bad_list(teps: &[u8]) -> bool {
    let repeated = (1..teps.len()).any(|i| teps[..i].contains(&teps[i]));
    teps.is_empty() || teps.len() > 4 || repeated || teps.iter().any(|tep| !known(*tep))
}

/// Writes at the start of a lent buffer, or gives 5.
fn write(bytes: &[u8], out: &mut [u8]) -> Option<usize> {
    out.get_mut(..bytes.len())?.copy_from_slice(bytes);
    Some(bytes.len())
}

impl Door {
    pub fn idle() -> Door {
        Door {
            phase: Phase::Idle,
            in_hand: None,
        }
    }

    /// The phase as *receive* tells it.
    fn now(&self) -> PhaseNow {
        match &self.phase {
            Phase::Idle => PhaseNow::Idle,
            Phase::Offered { .. } => PhaseNow::Offered,
            Phase::Crossed { .. } => PhaseNow::Crossed,
            Phase::Answered { .. } => PhaseNow::Answered,
            Phase::Open(_) => PhaseNow::Open,
            Phase::Plain(cause) => PhaseNow::Plain(*cause),
        }
    }

    fn enter(&mut self, phase: Phase) {
        let keeps = match &phase {
            Phase::Idle | Phase::Plain(_) => false,
            Phase::Open(verdict) => verdict.resumed,
            _ => true,
        };
        if !keeps {
            self.in_hand = None;
        }
        self.phase = phase;
    }

    /// Gives the reply and the place among the held records of the one taken in hand.
    pub fn offer(&mut self, held: &[Record], ask: Offer, out: &mut [u8]) -> (Reply, Option<usize>) {
        if ask.b > 1 || bad_list(ask.teps) || ask.nonce.len() > 8 || (ask.mandatory && !ask.aware) {
            return (Reply::Refused(3), None);
        }
        if self.phase != Phase::Idle {
            return (Reply::Refused(4), None);
        }
        let oldest = held.iter().position(|r| ask.teps.contains(&r.tep));
        let taken = oldest.filter(|_| ask.resume);
        let own = match taken.map(|place| &held[place]) {
            None => option(ask.b, ask.aware, ask.teps, None),
            Some(record) => {
                let mut fresh = ask.teps.to_vec();
                fresh.retain(|tep| *tep != record.tep);
                let resumption = Resumption {
                    tep: record.tep,
                    half: sent(record),
                    nonce: ask.nonce,
                };
                option(ask.b, ask.aware, &fresh, Some(resumption))
            }
        };
        let Some(length) = write(&own, out) else {
            return (Reply::Refused(5), None);
        };
        self.in_hand = taken.map(|place| held[place].clone());
        self.phase = Phase::Offered {
            own,
            mandatory: ask.mandatory,
        };
        (Reply::Written(length), taken)
    }

    /// As *offer*. The area has at most 40 bytes.
    pub fn answer(
        &mut self,
        held: &[Record],
        ask: Answer,
        out: &mut [u8],
    ) -> (Reply, Option<usize>) {
        if ask.area.len() > MOST {
            return (Reply::Refused(2), None);
        }
        if bad_list(ask.teps) || ask.nonce.len() > 8 || (ask.mandatory && !ask.aware) {
            return (Reply::Refused(3), None);
        }
        if self.phase != Phase::Idle {
            return (Reply::Refused(4), None);
        }
        let (peer, tep, taken) = match choose(held, &ask) {
            Ok(choice) => choice,
            Err(cause) => {
                self.enter(Phase::Plain(cause));
                return (Reply::Plain(cause), None);
            }
        };
        let own = match taken.map(|place| &held[place]) {
            None => option(1, ask.aware, &[tep], None),
            Some(record) => {
                let resumption = Resumption {
                    tep,
                    half: sent(record),
                    nonce: ask.nonce,
                };
                option(1, ask.aware, &[], Some(resumption))
            }
        };
        let Some(length) = write(&own, out) else {
            return (Reply::Refused(5), None);
        };
        self.in_hand = taken.map(|place| held[place].clone());
        let verdict = Verdict {
            role: 1,
            tep: if taken.is_some() { tep | 0x80 } else { tep },
            resumed: taken.is_some(),
            transcript: [&peer[..], &own[..]].concat(),
        };
        let judged = judge(ask.mandatory, self.in_hand.as_ref(), &own, ask.area);
        assert_eq!(judged, Judgement::Encrypted(verdict.clone()));
        self.phase = Phase::Answered { own, peer, verdict };
        (Reply::Written(length), taken)
    }

    pub fn receive(&mut self, syn: bool, ack: bool, area: &[u8]) -> Reply {
        if area.len() > MOST {
            return Reply::Refused(2);
        }
        let next = match (self.phase.clone(), syn, ack) {
            (phase @ (Phase::Open(_) | Phase::Plain(_)), _, _) => phase,
            (Phase::Offered { own, mandatory }, true, _) => {
                match judge(mandatory, self.in_hand.as_ref(), &own, area) {
                    Judgement::Refused(number) => return Reply::Refused(number),
                    Judgement::Plain(cause) => Phase::Plain(cause),
                    Judgement::Encrypted(verdict) if ack => Phase::Open(verdict),
                    Judgement::Encrypted(verdict) => {
                        let Finding::Found(place) = find(area, true) else {
                            unreachable!("it was judged");
                        };
                        let peer = area[place].to_vec();
                        Phase::Crossed { own, peer, verdict }
                    }
                }
            }
            (Phase::Crossed { peer, verdict, .. }, true, true) => match again(&peer, area) {
                Some(cause) => Phase::Plain(cause),
                None => Phase::Open(verdict),
            },
            (Phase::Answered { own, peer, verdict }, true, false) => match again(&peer, area) {
                Some(cause) => Phase::Plain(cause),
                None => Phase::Answered { own, peer, verdict },
            },
            (Phase::Answered { verdict, .. } | Phase::Crossed { verdict, .. }, false, true) => {
                match find(area, false) {
                    Finding::Unreadable { place, kind } => {
                        Phase::Plain(Cause::unreadable(place, kind))
                    }
                    Finding::Found(_) => Phase::Open(verdict),
                    _ => Phase::Plain(Cause::bare(2)),
                }
            }
            _ => return Reply::Refused(4),
        };
        self.enter(next);
        Reply::Now(self.now())
    }

    pub fn resend(&self, out: &mut [u8]) -> Reply {
        let (Phase::Offered { own, .. } | Phase::Crossed { own, .. } | Phase::Answered { own, .. }) =
            &self.phase
        else {
            return Reply::Refused(4);
        };
        match write(own, out) {
            Some(length) => Reply::Written(length),
            None => Reply::Refused(5),
        }
    }

    pub fn result(&self, out: &mut [u8]) -> (Reply, [u8; 32]) {
        let none = [0; 32];
        let verdict = match &self.phase {
            Phase::Open(verdict) => verdict,
            Phase::Plain(cause) => return (Reply::Plain(*cause), none),
            _ => return (Reply::Refused(4), none),
        };
        let Some(transcript) = write(&verdict.transcript, out) else {
            return (Reply::Refused(5), none);
        };
        let reply = Reply::Open {
            role: verdict.role,
            tep: verdict.tep,
            resumed: verdict.resumed,
            transcript,
        };
        let secret = match &self.in_hand {
            Some(record) if verdict.resumed => record.secret,
            _ => none,
        };
        (reply, secret)
    }

    pub fn close(&mut self) -> Reply {
        self.enter(Phase::Idle);
        Reply::Done
    }
}

/// A's option, the TEP to answer with, and the place of the record to resume; or why it ends in Plain.
fn choose(held: &[Record], ask: &Answer) -> Result<(Vec<u8>, u8, Option<usize>), Cause> {
    let peer = match find(ask.area, true) {
        Finding::Unreadable { place, kind } => return Err(Cause::unreadable(place, kind)),
        Finding::Found(place) => ask.area[place].to_vec(),
        _ => return Err(Cause::bare(2)),
    };
    let contents = read(&peer).ok_or(Cause::bare(3))?;
    if contents.b() == 1 {
        return Err(Cause::bare(4));
    }
    if ask.mandatory && !contents.aware() {
        return Err(Cause::bare(5));
    }
    let good = |tep: &u8| {
        contents
            .once(*tep)
            .is_some_and(|suboption| suboption.class() != Class::Bad)
    };
    let resumed = ask
        .teps
        .iter()
        .rev()
        .filter(|tep| good(tep))
        .find_map(|tep| Some((*tep, fitting(held, &contents, *tep)?)));
    if let Some((tep, place)) = resumed {
        return Ok((peer, tep, Some(place)));
    }
    let last = ask.teps.iter().rev().find(|tep| good(tep));
    Ok((peer, *last.ok_or(Cause::bare(6))?, None))
}

/// The oldest held record of a TEP that expects the half that A sent.
fn fitting(held: &[Record], contents: &Contents, tep: u8) -> Option<usize> {
    let Class::Resumption(half) = contents.once(tep)?.class() else {
        return None;
    };
    held.iter()
        .position(|record| record.tep == tep && expected(record) == half)
}

/// Why a second SYN ends in Plain, if it does: it must carry the same option.
fn again(peer: &[u8], area: &[u8]) -> Option<Cause> {
    let place = match find(area, true) {
        Finding::Unreadable { place, kind } => return Some(Cause::unreadable(place, kind)),
        Finding::Found(place) => place,
        _ => return Some(Cause::bare(2)),
    };
    if read(&area[place.clone()]).is_none() {
        return Some(Cause::bare(3));
    }
    if &area[place] != peer {
        return Some(Cause::bare(7));
    }
    None
}

mod tests {
    use super::*;
    use crate::model::{hex, record_r};

    /// One end that is played through a table row.
    struct End {
        door: Door,
        held: Vec<Record>,
    }

    impl End {
        fn new(held: Vec<Record>) -> End {
            End {
                door: Door::idle(),
                held,
            }
        }

        fn take(&mut self, (reply, place): (Reply, Option<usize>), out: &[u8]) -> Vec<u8> {
            if let Some(place) = place {
                self.held.remove(place);
            }
            match reply {
                Reply::Written(length) => out[..length].to_vec(),
                other => panic!("{other:?}"),
            }
        }

        fn offer(&mut self, b: u8, teps: &str, resume: bool) -> Vec<u8> {
            let teps = &hex(teps);
            let ask = Offer {
                b,
                aware: false,
                mandatory: false,
                teps,
                resume,
                nonce: &[],
            };
            let mut out = [0; 64];
            let told = self.door.offer(&self.held, ask, &mut out);
            self.take(told, &out)
        }

        fn ask(
            &mut self,
            area: &str,
            mandatory: bool,
            teps: &str,
            out: &mut [u8],
        ) -> (Reply, Option<usize>) {
            let (area, teps) = (&hex(area), &hex(teps));
            let ask = Answer {
                area,
                aware: mandatory,
                mandatory,
                teps,
                nonce: &[],
            };
            self.door.answer(&self.held, ask, out)
        }

        fn answer(&mut self, area: &str, teps: &str) -> Vec<u8> {
            let mut out = [0; 64];
            let told = self.ask(area, false, teps, &mut out);
            self.take(told, &out)
        }

        fn plain(&mut self, area: &str, mandatory: bool, teps: &str) -> PhaseNow {
            match self.ask(area, mandatory, teps, &mut []) {
                (Reply::Plain(cause), None) => PhaseNow::Plain(cause),
                other => panic!("{other:?}"),
            }
        }

        fn syn(&mut self, area: &str) -> PhaseNow {
            self.get(true, false, area)
        }

        fn syn_ack(&mut self, area: &str) -> PhaseNow {
            self.get(true, true, area)
        }

        fn ack(&mut self, area: &str) -> PhaseNow {
            self.get(false, true, area)
        }

        fn get(&mut self, syn: bool, ack: bool, area: &str) -> PhaseNow {
            match self.door.receive(syn, ack, &hex(area)) {
                Reply::Now(phase) => phase,
                other => panic!("{other:?}"),
            }
        }

        /// (role, TEP byte, resumed, transcript)
        fn opened(&self) -> (u8, u8, bool, Vec<u8>) {
            let mut out = [0; 80];
            match self.door.result(&mut out) {
                (
                    Reply::Open {
                        role,
                        tep,
                        resumed,
                        transcript,
                    },
                    _,
                ) => (role, tep, resumed, out[..transcript].to_vec()),
                other => panic!("{other:?}"),
            }
        }
    }

    const H0: &str = "00 01 02 03 04 05 06 07 08";
    const H1: &str = "09 0a 0b 0c 0d 0e 0f 10 11";

    fn end() -> End {
        End::new(Vec::new())
    }

    fn plain(reason: u8) -> PhaseNow {
        PhaseNow::Plain(Cause::bare(reason))
    }

    fn unreadable(place: u8, kind: u8) -> PhaseNow {
        PhaseNow::Plain(Cause::unreadable(place, kind))
    }

    #[test]
    fn figure_9() {
        let transcript = hex("45 04 21 23 45 04 01 23");
        let mut a = end();
        assert_eq!(a.offer(0, "21 23", false), hex("45 04 21 23"));
        assert_eq!(a.syn_ack("45 04 01 23"), PhaseNow::Open);
        assert_eq!(a.opened(), (0, 0x23, false, transcript.clone()));
        let mut b = end();
        assert_eq!(b.answer("45 04 21 23", "23"), hex("45 04 01 23"));
        assert_eq!(b.ack("45 02"), PhaseNow::Open);
        assert_eq!(b.opened(), (1, 0x23, false, transcript));
    }

    #[test]
    fn figures_10_and_11() {
        let mut a = end();
        a.offer(0, "21 23", false);
        assert_eq!(a.syn_ack(""), plain(2));
        assert_eq!(end().plain("45 04 21 23", false, "22 24"), plain(6));
        assert_eq!(end().plain("45 04 21 23", true, "23"), plain(5));
        assert_eq!(end().plain("02 04 05 b4", false, "23"), plain(2));
        let mut b = end();
        assert_eq!(b.answer("45 04 21 23", "21"), hex("45 04 01 21"));
        assert_eq!(b.ack(""), plain(2));
    }

    #[test]
    fn figure_12() {
        let transcript = hex("45 04 23 21 45 06 01 21 23 24");
        let mut a = end();
        assert_eq!(a.offer(0, "23 21", false), hex("45 04 23 21"));
        assert_eq!(a.syn("45 06 01 21 23 24"), PhaseNow::Crossed);
        assert_eq!(a.syn_ack("45 06 01 21 23 24"), PhaseNow::Open);
        assert_eq!(a.opened(), (0, 0x23, false, transcript.clone()));
        let mut b = end();
        assert_eq!(b.offer(1, "21 23 24", false), hex("45 06 01 21 23 24"));
        assert_eq!(b.syn("45 04 23 21"), PhaseNow::Crossed);
        assert_eq!(b.syn_ack("45 04 23 21"), PhaseNow::Open);
        assert_eq!(b.opened(), (1, 0x23, false, transcript));
        let mut lost = end();
        lost.offer(1, "21 23 24", false);
        assert_eq!(lost.syn_ack("45 04 23 21"), PhaseNow::Open);
        let (role, tep, _, _) = lost.opened();
        assert_eq!((role, tep), (1, 0x23));
    }

    #[test]
    fn what_a_syn_ack_comes_to() {
        for (area, phase) in [
            ("45 03 23", plain(4)),
            ("45 03 01", plain(6)),
            ("45 02", plain(4)),
            ("45 04 01 23 45 04 01 23", plain(2)),
            ("45 05 01 00 23", PhaseNow::Open),
            ("45 05 01 81 a3", plain(3)),
            ("45 05 01 80 9f", plain(3)),
            ("45 03 23 02", unreadable(3, 2)),
        ] {
            let mut a = end();
            a.offer(0, "23", false);
            assert_eq!(a.syn_ack(area), phase, "{area}");
        }
        let mut a = end();
        a.offer(0, "23", false);
        assert_eq!(a.syn_ack("45 04 01 a3"), PhaseNow::Open);
        let (_, tep, resumed, _) = a.opened();
        assert_eq!((tep, resumed), (0xa3, false));
    }

    #[test]
    fn answers_that_end_plain() {
        assert_eq!(end().plain("45 04 01 23", false, "23"), plain(4));
        assert_eq!(end().plain("45 02", false, "23"), plain(6));
        assert_eq!(end().plain("45 03 80", false, "23"), plain(3));
        assert_eq!(end().plain("45 03 23 02", false, "23"), unreadable(3, 2));
        let mut b = end();
        b.answer("45 04 21 23", "23");
        assert_eq!(b.ack("45 04 01 23 45 04 01 23"), PhaseNow::Open);
        let mut b = end();
        b.answer("45 04 21 23", "23");
        assert_eq!(b.ack("45 04 80 21"), PhaseNow::Open);
    }

    #[test]
    fn the_bench_rows_on_r() {
        for (area, phase) in [
            (format!("45 0d 01 a3 {H1}"), PhaseNow::Open),
            (format!("45 0d 01 a3 {H0}"), plain(6)),
            ("45 04 01 23".to_string(), PhaseNow::Open),
        ] {
            let mut a = End::new(vec![record_r()]);
            assert_eq!(a.offer(0, "21 23", true), hex(&format!("45 0d 21 a3 {H0}")));
            assert!(a.held.is_empty() && a.door.in_hand == Some(record_r()));
            assert_eq!(a.syn_ack(&area), phase, "{area}");
            let resumed = area.contains(H1);
            assert_eq!(a.door.in_hand.is_some(), resumed);
            if resumed {
                assert_eq!(a.door.result(&mut [0; 40]).1, [0x5a; 32]);
            }
        }
    }

    #[test]
    fn either_role_may_resume() {
        let rb = Record {
            role: 1,
            ..record_r()
        };
        let mut a = End::new(vec![rb.clone()]);
        assert_eq!(a.offer(0, "23", true), hex(&format!("45 0c a3 {H1}")));
        assert_eq!(a.syn_ack(&format!("45 0d 01 a3 {H0}")), PhaseNow::Open);
        let (role, tep, resumed, _) = a.opened();
        assert_eq!((role, tep, resumed), (0, 0xa3, true));
        let mut b = End::new(vec![rb]);
        let written = b.answer(&format!("45 0d 21 a3 {H0}"), "23 21");
        assert_eq!(written, hex(&format!("45 0d 01 a3 {H1}")));
        assert_eq!(b.ack("45 02"), PhaseNow::Open);
        assert!(b.opened().2);
    }

    #[test]
    fn age_decides_at_the_offer_and_resumption_at_the_answer() {
        let p = Record {
            tep: 0x21,
            ..record_r()
        };
        let mut a = End::new(vec![p, record_r()]);
        assert_eq!(a.offer(0, "21 23", true), hex(&format!("45 0d 23 a1 {H0}")));
        let mut b = End::new(vec![record_r()]);
        assert_eq!(b.answer("45 05 21 23 24", "23 21"), hex("45 04 01 21"));
        assert_eq!(b.held.len(), 1);
    }

    #[test]
    fn a_buffer_too_short_takes_no_record() {
        let mut door = Door::idle();
        let ask = || Offer {
            b: 0,
            aware: false,
            mandatory: false,
            teps: &[0x21, 0x23],
            resume: true,
            nonce: &[],
        };
        assert_eq!(
            door.offer(&[record_r()], ask(), &mut [0; 12]),
            (Reply::Refused(5), None)
        );
        assert_eq!(door, Door::idle());
        assert_eq!(
            door.offer(&[record_r()], ask(), &mut [0; 13]),
            (Reply::Written(13), Some(0))
        );
    }

    #[test]
    fn second_syns() {
        for (area, phase) in [
            ("01 45 04 21 23", PhaseNow::Answered),
            ("45 04 23 21", plain(7)),
            ("45 05 01 21 23", plain(7)),
            ("45 03 80", plain(3)),
            ("45 04 21 23 45 04 21 23", plain(2)),
            ("", plain(2)),
            ("45 04 21 23 02", unreadable(4, 2)),
        ] {
            let mut b = end();
            b.answer("45 04 21 23", "23");
            assert_eq!(b.syn(area), phase, "{area}");
        }
    }

    #[test]
    fn where_an_area_broke_is_told_again() {
        let area = "01 01 02 04 05 b4 08";
        let answered = || {
            let mut b = end();
            b.answer("45 03 23", "23");
            b
        };
        let offered = || {
            let mut a = end();
            a.offer(0, "23", false);
            a
        };
        let crossed = || {
            let mut a = offered();
            a.syn("45 04 01 23");
            a
        };
        type Call = fn(&mut End, &str) -> PhaseNow;
        let ends: [(End, Call); 7] = [
            (end(), |end, area| end.plain(area, false, "23")),
            (offered(), End::syn),
            (offered(), End::syn_ack),
            (crossed(), End::syn_ack),
            (crossed(), End::ack),
            (answered(), End::syn),
            (answered(), End::ack),
        ];
        for (mut end, call) in ends {
            assert_eq!(call(&mut end, area), unreadable(6, 8));
            for again in ["", "45 03 23 02"] {
                assert_eq!(end.syn(again), unreadable(6, 8));
                let told = (Reply::Plain(Cause::unreadable(6, 8)), [0; 32]);
                assert_eq!(end.door.result(&mut []), told);
            }
        }
    }

    #[test]
    fn out_of_turn_in_every_cell() {
        let kinds = [(true, false), (true, true), (false, true), (false, false)];
        let none = hex("45 04 01 23");
        let mut crossed = end();
        crossed.offer(0, "23", false);
        crossed.syn("45 04 01 23");
        let mut offered = end();
        offered.offer(0, "23", false);
        let mut answered = end();
        answered.answer("45 03 23", "23");
        let mut open = end();
        open.offer(0, "23", false);
        open.syn_ack("45 04 01 23");
        let mut unencrypted = end();
        unencrypted.plain("", false, "23");
        for (end, out_of_turn) in [
            (end(), [true; 4]),
            (offered, [false, false, true, true]),
            (crossed, [true, false, false, true]),
            (answered, [false, true, false, true]),
            (open, [false; 4]),
            (unencrypted, [false; 4]),
        ] {
            for ((syn, ack), refused) in kinds.into_iter().zip(out_of_turn) {
                let mut door = end.door.clone();
                let reply = door.receive(syn, ack, &none);
                assert_eq!(
                    reply == Reply::Refused(4),
                    refused,
                    "{:?} {syn} {ack}",
                    end.door
                );
                assert_eq!(door.receive(syn, ack, &[1; 41]), Reply::Refused(2));
            }
        }
    }
}
