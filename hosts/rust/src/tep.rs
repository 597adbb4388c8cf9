//! The TEPs (encryption protocols) that the unit knows.

/// A TEP that the unit knows. Its number is without the bit v (0x80).
#[derive(Clone, Copy, PartialEq, Eq, Hash, Debug)]
#[non_exhaustive]
#[repr(u8)]
pub enum Tep {
    /// ECDHE with P-256. Its Init messages are the host's.
    P256 = 0x21,
    /// ECDHE with P-521. Its Init messages are the host's.
    P521 = 0x22,
    /// ECDHE with Curve25519.
    Curve25519 = 0x23,
    /// ECDHE with Curve448.
    Curve448 = 0x24,
}

/// More TEPs than a list may have; a longer list is refused as one of this length is.
const TOO_MANY: usize = 5;

impl Tep {
    /// The number, as options carry it without v.
    pub const fn number(self) -> u8 {
        self as u8
    }

    /// The TEP of a number without v.
    ///
    /// ```
    /// use door_link::Tep;
    /// assert_eq!(Tep::of(0x23), Some(Tep::Curve25519));
    /// assert_eq!((Tep::of(0xa3), Tep::of(0x25)), (None, None));
    /// ```
    pub const fn of(number: u8) -> Option<Tep> {
        Some(match number {
            0x21 => Tep::P256,
            0x22 => Tep::P521,
            0x23 => Tep::Curve25519,
            0x24 => Tep::Curve448,
            _ => return None,
        })
    }

    /// The numbers of a list, and how many count.
    pub(crate) fn numbers(teps: &[Tep]) -> ([u8; TOO_MANY], usize) {
        let mut numbers = [0; TOO_MANY];
        for (number, tep) in numbers.iter_mut().zip(teps) {
            *number = tep.number();
        }
        (numbers, teps.len().min(TOO_MANY))
    }
}

#[cfg(test)]
mod tests {
    use super::*;

    #[test]
    fn numbers() {
        for number in 0..=255 {
            let tep = Tep::of(number).map(Tep::number);
            assert_eq!(tep, (0x21..=0x24).contains(&number).then_some(number));
        }
        assert_eq!(Tep::numbers(&[]).1, 0);
        let (numbers, length) = Tep::numbers(&[Tep::P256, Tep::Curve448]);
        assert_eq!(numbers[..length], [0x21, 0x24]);
        assert_eq!(Tep::numbers(&[Tep::P256; 300]), ([0x21; 5], 5));
    }
}
