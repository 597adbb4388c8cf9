//! The option that an offer or an answer sends.

/// A resumption suboption to be written last.
pub struct Resumption<'a> {
    pub tep: u8,
    pub half: &'a [u8],
    pub nonce: &'a [u8],
}

/// The option's bytes: the global byte if it is not zero, the TEPs to be fresh, the resumption.
pub fn option(b: u8, aware: bool, fresh: &[u8], resumption: Option<Resumption>) -> Vec<u8> {
    let mut contents = vec![b + if aware { 2 } else { 0 }];
    if contents == [0] {
        contents.clear();
    }
    contents.extend(fresh);
    if let Some(resumption) = resumption {
        contents.push(0x80 | resumption.tep);
        contents.extend(resumption.half);
        contents.extend(resumption.nonce);
    }
    let mut option = vec![super::area::ENO, contents.len() as u8 + 2];
    option.append(&mut contents);
    option
}

mod tests {
    use super::*;
    use crate::model::hex;

    #[test]
    fn fresh() {
        assert_eq!(option(0, false, &[0x21, 0x23], None), hex("45 04 21 23"));
        assert_eq!(option(1, false, &[0x23], None), hex("45 04 01 23"));
        assert_eq!(option(0, true, &[0x23], None), hex("45 04 02 23"));
        assert_eq!(option(1, true, &[0x24, 0x21], None), hex("45 05 03 24 21"));
    }

    #[test]
    fn resumed_comes_last() {
        let resumption = Resumption {
            tep: 0x23,
            half: &hex("00 01 02 03 04 05 06 07 08"),
            nonce: &[0xee],
        };
        let expected = hex("45 0e 21 a3 00 01 02 03 04 05 06 07 08 ee");
        assert_eq!(option(0, false, &[0x21], Some(resumption)), expected);
    }
}
