//! The contents of a SYN-form ENO option (document 01, "Inside a SYN-form option"; RFC 8547, 4.1 to 4.4).

/// A TEP as it was sent: its byte, v included, and its data.
#[derive(Clone, PartialEq, Eq, Debug)]
pub struct Suboption {
    pub byte: u8,
    pub data: Vec<u8>,
}

/// What the data of a known TEP asks for.
#[derive(Clone, PartialEq, Eq, Debug)]
pub enum Class {
    Fresh,
    Resumption(Vec<u8>),
    Bad,
}

impl Suboption {
    pub fn tep(&self) -> u8 {
        self.byte & 0x7f
    }

    pub fn class(&self) -> Class {
        match self.data.len() {
            0..=8 => Class::Fresh,
            9..=17 => Class::Resumption(self.data[..9].to_vec()),
            _ => Class::Bad,
        }
    }
}

/// A well-formed option.
#[derive(Clone, PartialEq, Eq, Debug)]
pub struct Contents {
    global: u8,
    pub teps: Vec<Suboption>,
}

impl Contents {
    pub fn b(&self) -> u8 {
        self.global & 1
    }

    pub fn aware(&self) -> bool {
        self.global & 2 == 2
    }

    /// The suboption of a TEP that was sent exactly once.
    pub fn once(&self, tep: u8) -> Option<&Suboption> {
        let mut sent = self.teps.iter().filter(|s| s.tep() == tep);
        match (sent.next(), sent.next()) {
            (Some(only), None) => Some(only),
            _ => None,
        }
    }
}

/// The contents of an option, kind and length included, or nothing if it is ill-formed.
pub fn read(option: &[u8]) -> Option<Contents> {
    let mut rest = option.get(2..).unwrap_or(&[]);
    let mut globals = Vec::new();
    let mut teps = Vec::new();
    while let Some((&first, tail)) = rest.split_first() {
        rest = tail;
        match first {
            0x00..=0x1f => globals.push(first),
            0x20..=0x7f => teps.push(Suboption {
                byte: first,
                data: Vec::new(),
            }),
            0x80..=0x9f => {
                let length = usize::from(first & 0x1f) + 1;
                let (&byte, tail) = rest.split_first().filter(|(byte, _)| **byte >= 0xa0)?;
                if tail.len() < length {
                    return None;
                }
                let (data, tail) = tail.split_at(length);
                teps.push(Suboption {
                    byte,
                    data: data.to_vec(),
                });
                rest = tail;
            }
            0xa0..=0xff => {
                teps.push(Suboption {
                    byte: first,
                    data: rest.to_vec(),
                });
                rest = &[];
            }
        }
    }
    Some(Contents {
        global: globals.first().copied().unwrap_or(0),
        teps,
    })
}

mod tests {
    use super::*;
    use crate::model::hex;

    fn of(option: &str) -> Option<Contents> {
        read(&hex(option))
    }

    fn teps(option: &str) -> Vec<(u8, usize)> {
        let contents = of(option).expect("well-formed");
        contents
            .teps
            .iter()
            .map(|s| (s.tep(), s.data.len()))
            .collect()
    }

    fn b(option: &str) -> u8 {
        of(option).expect("well-formed").b()
    }

    const NINE: &str = "00 01 02 03 04 05 06 07 08";

    #[test]
    fn k5_to_k9() {
        assert_eq!(b("45 05 00 01 23"), 0);
        assert_eq!(
            teps(&format!("45 0e 88 a3 {NINE} 21")),
            [(0x23, 9), (0x21, 0)]
        );
        assert_eq!(teps(&format!("45 0e 89 a3 {NINE} 21")), [(0x23, 10)]);
        assert_eq!(of(&format!("45 0e 8a a3 {NINE} 21")), None);
        for option in ["45 04 80 21", "45 03 80", "45 04 80 a3"] {
            assert_eq!(of(option), None, "{option}");
        }
    }

    #[test]
    fn the_first_global_counts_wherever_it_stands() {
        assert_eq!(b("45 04 23 01"), 1);
        assert_eq!(b("45 05 a3 01 01"), 0);
        assert_eq!(b("45 06 80 a3 55 01"), 1);
        assert_eq!(b("45 02"), 0);
        for (global, b, aware) in [(0x1d, 1, false), (0x1e, 0, true), (0x1f, 1, true)] {
            let contents = read(&[0x45, 3, global]).expect("well-formed");
            assert_eq!((contents.b(), contents.aware()), (b, aware));
        }
    }

    #[test]
    fn data_to_the_end_and_behind_a_length_byte() {
        assert_eq!(teps("45 05 01 a3 80"), [(0x23, 1)]);
        assert_eq!(of("45 05 01 23 80"), None);
        assert_eq!(teps("45 05 80 a3 55"), [(0x23, 1)]);
        assert_eq!(teps("45 05 01 ff 23"), [(0x7f, 1)]);
        assert_eq!(teps("45 07 01 80 ff 00 23"), [(0x7f, 1), (0x23, 0)]);
        assert_eq!(teps("45 03 a3"), [(0x23, 0)]);
        assert_eq!(of("45 05 01 81 a3"), None);
        assert_eq!(of("45 05 01 80 9f"), None);
    }

    #[test]
    fn sent_once() {
        for option in ["45 04 23 a3", "45 04 23 23", "45 06 80 a3 00 23"] {
            assert_eq!(of(option).expect("well-formed").once(0x23), None);
        }
        assert!(of("45 05 23 23 21")
            .expect("well-formed")
            .once(0x21)
            .is_some());
    }

    #[test]
    fn resumption_data_of_8_9_17_18() {
        let class = |n: usize| {
            let mut option = vec![0x45, n as u8 + 3, 0xa3];
            option.extend((0..n).map(|i| i as u8));
            read(&option).expect("well-formed").teps[0].class()
        };
        let half = hex(NINE);
        assert_eq!(class(8), Class::Fresh);
        assert_eq!(class(9), Class::Resumption(half.clone()));
        assert_eq!(class(17), Class::Resumption(half));
        assert_eq!(class(18), Class::Bad);
    }
}
