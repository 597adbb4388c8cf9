//! The ENO option in an option area.

/// What an area has.
pub enum Finding<'a> {
    Found(&'a [u8]),
    Nothing,
    /// Where the option begins that makes it so, and its kind.
    Unreadable {
        place: u8,
        kind: u8,
    },
}

/// Looks through an area of at most 40 bytes.
pub fn find(area: &[u8], syn: bool) -> Finding<'_> {
    let mut found = None;
    let mut twice = false;
    let mut rest = area;
    while let Some((&kind, tail)) = rest.split_first() {
        match kind {
            0 => break,
            1 => rest = tail,
            _ => {
                let length = tail.first().map_or(0, |length| usize::from(*length));
                if length < 2 || length > rest.len() {
                    let place = (area.len() - rest.len()) as u8;
                    return Finding::Unreadable { place, kind };
                }
                let (option, tail) = rest.split_at(length);
                if kind == 0x45 {
                    twice |= found.is_some();
                    found = found.or(Some(option));
                }
                rest = tail;
            }
        }
    }
    match found {
        Some(option) if !(syn && twice) => Finding::Found(option),
        _ => Finding::Nothing,
    }
}
