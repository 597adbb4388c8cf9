//! What two options come to (document 01, "Roles and the negotiated TEP" and "Reasons for Plain").

use super::area::{find, Finding};
use super::records::{expected, known, sent};
use super::suboptions::{read, Class};
use crate::driver::calls::{Cause, Record};

/// An encrypted connection, as this end sees it.
#[derive(Clone, PartialEq, Eq, Debug)]
pub struct Verdict {
    pub role: u8,
    pub tep: u8,
    pub resumed: bool,
    pub transcript: Vec<u8>,
}

/// A judgement: refused, plain TCP and why, or a verdict.
#[derive(Clone, PartialEq, Eq, Debug)]
pub enum Judgement {
    Refused(u8),
    Plain(Cause),
    Encrypted(Verdict),
}

/// Judges two option areas of SYN segments for the end that sent `own`.
pub fn judge(mandatory: bool, in_hand: Option<&Record>, own: &[u8], peer: &[u8]) -> Judgement {
    let findings = [find(own, true), find(peer, true)];
    if findings.contains(&Finding::Refused) {
        return Judgement::Refused(2);
    }
    // The own area before the other side's.
    for finding in &findings {
        if let Finding::Unreadable { place, kind } = finding {
            return Judgement::Plain(Cause::unreadable(*place, *kind));
        }
    }
    let [Finding::Found(own_place), Finding::Found(peer_place)] = findings else {
        return Judgement::Plain(Cause::bare(2));
    };
    let (own_option, peer_option) = (&own[own_place], &peer[peer_place]);
    let (Some(own), Some(peer)) = (read(own_option), read(peer_option)) else {
        return Judgement::Plain(Cause::bare(3));
    };
    if own.b() == peer.b() {
        return Judgement::Plain(Cause::bare(4));
    }
    if mandatory && !peer.aware() {
        return Judgement::Plain(Cause::bare(5));
    }
    let (a, b, a_option, b_option) = if own.b() == 0 {
        (&own, &peer, own_option, peer_option)
    } else {
        (&peer, &own, peer_option, own_option)
    };
    let mut last = None;
    for suboption in &b.teps {
        let tep = suboption.tep();
        let (Some(from_a), Some(from_b)) = (a.once(tep), b.once(tep)) else {
            continue;
        };
        if !known(tep) {
            continue;
        }
        let (half_own, half_peer) = match (from_a.class(), from_b.class()) {
            (Class::Bad, _) | (_, Class::Bad) => continue,
            (_, Class::Fresh) => {
                last = Some((from_b.byte, false));
                continue;
            }
            (Class::Fresh, Class::Resumption(_)) => continue,
            (Class::Resumption(of_a), Class::Resumption(of_b)) if own.b() == 0 => (of_a, of_b),
            (Class::Resumption(of_a), Class::Resumption(of_b)) => (of_b, of_a),
        };
        if let Some(record) = in_hand {
            if record.tep == tep && sent(record) == half_own && expected(record) == half_peer {
                last = Some((from_b.byte, true));
            }
        }
    }
    match last {
        None => Judgement::Plain(Cause::bare(6)),
        Some((tep, resumed)) => Judgement::Encrypted(Verdict {
            role: own.b(),
            tep,
            resumed,
            transcript: [a_option, b_option].concat(),
        }),
    }
}

mod tests {
    use super::*;
    use crate::model::{hex, record_r};

    const H0: &str = "00 01 02 03 04 05 06 07 08";
    const H1: &str = "09 0a 0b 0c 0d 0e 0f 10 11";

    /// (role, TEP byte, resumed) or the reason.
    fn comes_to(own: &str, peer: &str, record: Option<&Record>) -> Result<(u8, u8, bool), u8> {
        match judge(false, record, &hex(own), &hex(peer)) {
            Judgement::Plain(cause) => Err(cause.reason),
            Judgement::Encrypted(v) => Ok((v.role, v.tep, v.resumed)),
            Judgement::Refused(n) => panic!("refused with {n}"),
        }
    }

    #[test]
    fn k1_to_k4() {
        let k1 = judge(false, None, &hex("45 04 21 23"), &hex("45 04 01 23"));
        let expected = Verdict {
            role: 0,
            tep: 0x23,
            resumed: false,
            transcript: hex("45 04 21 23 45 04 01 23"),
        };
        assert_eq!(k1, Judgement::Encrypted(expected));
        assert_eq!(
            comes_to("45 05 21 23 24", "45 05 01 23 21", None),
            Ok((0, 0x21, false))
        );
        assert_eq!(
            comes_to("45 04 21 23", "45 05 01 21 2f", None),
            Ok((0, 0x21, false))
        );
        assert_eq!(comes_to("45 03 23", "45 03 23", None), Err(4));
    }

    #[test]
    fn both_ends_give_one_transcript() {
        let a = hex("01 45 03 23");
        let b = hex("45 04 01 23");
        let Judgement::Encrypted(v) = judge(false, None, &b, &a) else {
            panic!("plain");
        };
        assert_eq!((v.role, v.transcript), (1, hex("45 03 23 45 04 01 23")));
    }

    #[test]
    fn reasons_in_their_order() {
        let a = "45 04 21 23";
        for (peer, reason) in [
            ("45 03 80 02", 1),
            ("02", 1),
            ("", 2),
            ("45 04 01 23 45 04 01 23", 2),
            ("45 05 01 81 a3", 3),
            ("45 02", 4),
            ("45 03 01", 6),
            ("45 05 01 23 23", 6),
            ("45 05 01 ff 23", 6),
            ("45 03 2f", 4),
        ] {
            assert_eq!(comes_to(a, peer, None), Err(reason), "{peer}");
        }
        let own = hex("45 04 02 23");
        assert_eq!(
            judge(true, None, &own, &hex("45 04 01 23")),
            Judgement::Plain(Cause::bare(5))
        );
        assert_eq!(
            judge(true, None, &own, &hex("45 03 23")),
            Judgement::Plain(Cause::bare(4))
        );
        assert_eq!(judge(false, None, &own, &[1; 41]), Judgement::Refused(2));
    }

    #[test]
    fn the_own_area_is_blamed_first() {
        for (own, peer, place, kind) in [
            ("02", "01 03 01", 0, 0x02),
            ("45 03 23", "01 03 01", 1, 0x03),
            ("", "01 03 01", 1, 0x03),
            ("45 03 80", "01 03 01", 1, 0x03),
            ("01 01 02 04 05 b4 08", "", 6, 0x08),
            ("45 03 23 02", "45 04 01 23", 3, 0x02),
        ] {
            let expected = Judgement::Plain(Cause::unreadable(place, kind));
            let judged = judge(false, None, &hex(own), &hex(peer));
            assert_eq!(judged, expected, "{own}, {peer}");
        }
        let refused = judge(false, None, &hex("02"), &[1; 41]);
        assert_eq!(refused, Judgement::Refused(2));
    }

    #[test]
    fn repetition_voids_a_tep_and_no_other() {
        assert_eq!(
            comes_to("45 05 23 23 21", "45 05 01 21 23", None),
            Ok((0, 0x21, false))
        );
        assert_eq!(
            comes_to("45 04 21 23", "45 06 01 23 23 21", None),
            Ok((0, 0x21, false))
        );
        assert_eq!(
            comes_to("45 04 2f 21", "45 05 01 21 2f", None),
            Ok((0, 0x21, false))
        );
    }

    #[test]
    fn resumption() {
        let r = record_r();
        let own = format!("45 0d 21 a3 {H0}");
        for (peer, outcome) in [
            (format!("45 0d 01 a3 {H1}"), Ok((0, 0xa3, true))),
            (format!("45 0d 01 a3 {H0}"), Err(6)),
            ("45 04 01 23".to_string(), Ok((0, 0x23, false))),
            ("45 04 01 a3".to_string(), Ok((0, 0xa3, false))),
            (format!("45 0e 01 21 a3 {H0}"), Ok((0, 0x21, false))),
            (format!("45 0e 01 21 a3 {H1}"), Ok((0, 0xa3, true))),
            (format!("45 0f 01 88 a3 {H1} 21"), Ok((0, 0x21, false))),
        ] {
            assert_eq!(comes_to(&own, &peer, Some(&r)), outcome, "{peer}");
        }
        let fresh = "45 04 23 24";
        let peer = format!("45 0f 01 88 a3 {H1} 24");
        assert_eq!(comes_to(fresh, &peer, Some(&r)), Ok((0, 0x24, false)));
        assert_eq!(comes_to(&own, &format!("45 0d 01 a3 {H1}"), None), Err(6));
    }

    #[test]
    fn a_bad_with_b_fresh_is_not_valid() {
        let own = format!("45 15 a3 {H0} {H1}");
        assert_eq!(comes_to(&own, "45 04 01 23", None), Err(6));
        let eight = "45 0c 01 a3 00 01 02 03 04 05 06 07";
        assert_eq!(comes_to("45 04 21 23", eight, None), Ok((0, 0xa3, false)));
    }
}
