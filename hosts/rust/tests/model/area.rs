//! TCP option areas and the ENO option in them (document 01, "Finding the option").

use std::ops::Range;

use crate::driver::calls::Status;

/// The kind of an ENO option.
pub const ENO: u8 = 0x45;
/// The most bytes of an option area.
pub const MOST: usize = 40;

/// The first option that does not fit: its kind, and where it begins.
struct Misfit {
    kind: u8,
    at: usize,
}

/// The options of an area, each with its kind and its place.
fn options(area: &[u8]) -> Result<Vec<(u8, Range<usize>)>, Misfit> {
    let mut list = Vec::new();
    let mut rest = 0..area.len();
    while let Some(at) = rest.next() {
        match area[at] {
            0 => break,
            1 => continue,
            kind => {
                let length = area.get(at + 1).map_or(0, |length| usize::from(*length));
                if length < 2 || at + length > area.len() {
                    return Err(Misfit { kind, at });
                }
                list.push((kind, at..at + length));
                rest = at + length..area.len();
            }
        }
    }
    Ok(list)
}

/// The finder's finding.
#[derive(Clone, PartialEq, Eq, Debug)]
pub enum Finding {
    Refused,
    Unreadable { place: u8, kind: u8 },
    Nothing,
    Found(Range<usize>),
}

pub fn find(area: &[u8], syn: bool) -> Finding {
    if area.len() > MOST {
        return Finding::Refused;
    }
    let options = match options(area) {
        Ok(options) => options,
        Err(Misfit { kind, at }) => {
            let place = u8::try_from(at).expect("an area has at most 40 bytes");
            return Finding::Unreadable { place, kind };
        }
    };
    let mut eno = options.into_iter().filter(|(kind, _)| *kind == ENO);
    match (eno.next(), eno.next()) {
        (None, _) => Finding::Nothing,
        (Some(_), Some(_)) if syn => Finding::Nothing,
        (Some((_, place)), _) => Finding::Found(place),
    }
}

pub fn find_option(area: &[u8], syn: bool) -> Range<usize> {
    match find(area, syn) {
        Finding::Found(place) => place,
        _ => 0..0,
    }
}

pub fn find_status(area: &[u8], syn: bool) -> Status {
    match find(area, syn) {
        Finding::Refused => Status::Refused,
        Finding::Unreadable { place, kind } => Status::Unreadable { place, kind },
        Finding::Nothing => Status::Nothing,
        Finding::Found(_) => Status::Found,
    }
}

mod tests {
    use super::*;
    use crate::model::hex;

    fn syn(area: &str) -> Finding {
        find(&hex(area), true)
    }

    fn other(area: &str) -> Finding {
        find(&hex(area), false)
    }

    #[test]
    fn k10_and_k11() {
        assert_eq!(syn("01 01 45 03 23 00 ff"), Finding::Found(2..5));
        assert_eq!(syn("02 04 05 b4 45 03 23 45 03 21"), Finding::Nothing);
        assert_eq!(other("02 04 05 b4 45 03 23 45 03 21"), Finding::Found(4..7));
    }

    #[test]
    fn unreadable_as_a_whole() {
        for (area, place, kind) in [
            ("01 01 02 04 05 b4 08", 6, 0x08),
            ("45 03 23 02", 3, 0x02),
            ("45 02 45 02 02 01", 4, 0x02),
            ("45 02 02", 2, 0x02),
            ("45 01", 0, 0x45),
            ("45 00", 0, 0x45),
            ("45", 0, 0x45),
            ("02 05 00 00", 0, 0x02),
            ("02 02 ff 00 02", 2, 0xff),
            ("02", 0, 0x02),
            ("01 03 01", 1, 0x03),
            ("01 08 01 00", 1, 0x08),
        ] {
            let unreadable = Finding::Unreadable { place, kind };
            assert_eq!(syn(area), unreadable, "{area}");
            assert_eq!(other(area), unreadable, "{area}");
        }
        let last = [&[1; 39][..], &[ENO]].concat();
        let (place, kind) = (39, ENO);
        assert_eq!(find(&last, true), Finding::Unreadable { place, kind });
    }

    #[test]
    fn the_end_mark_hides_what_follows() {
        assert_eq!(syn("45 03 23 00 02"), Finding::Found(0..3));
        assert_eq!(syn("00 45 02"), Finding::Nothing);
        assert_eq!(syn("45 03 23 00 45 03 21"), Finding::Found(0..3));
    }

    #[test]
    fn forty_bytes_and_one_more() {
        assert_eq!(find(&[1; 40], true), Finding::Nothing);
        assert_eq!(find(&[1; 41], true), Finding::Refused);
        assert_eq!(find(&[0; 41], false), Finding::Refused);
        let mut full = [0x21; 40];
        full[0] = ENO;
        full[1] = 40;
        assert_eq!(find(&full, true), Finding::Found(0..40));
        assert_eq!(syn(""), Finding::Nothing);
    }

    #[test]
    fn only_kind_69_counts() {
        assert_eq!(syn("fd 05 45 4e 23"), Finding::Nothing);
        assert_eq!(syn("02 04 45 03"), Finding::Nothing);
    }

    #[test]
    fn a_found_part_is_not_empty() {
        for area in ["", "45 03 23", "45 02", "01 45", "45 02 45 02", "00"] {
            let area = hex(area);
            for syn in [false, true] {
                let part = find_option(&area, syn);
                assert_eq!(find_status(&area, syn) == Status::Found, !part.is_empty());
            }
        }
    }
}
