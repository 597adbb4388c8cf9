//! The contents of a SYN-form option, in an array.

/// A TEP as it was sent.
#[derive(Clone, Copy)]
pub struct Suboption<'a> {
    pub byte: u8,
    pub data: &'a [u8],
}

/// What the data of a known TEP asks for.
pub enum Class<'a> {
    Fresh,
    Resumption(&'a [u8]),
    Bad,
}

impl<'a> Suboption<'a> {
    pub fn tep(&self) -> u8 {
        self.byte & 0x7f
    }

    pub fn class(&self) -> Class<'a> {
        match self.data.len() {
            0..=8 => Class::Fresh,
            9..=17 => Class::Resumption(&self.data[..9]),
            _ => Class::Bad,
        }
    }
}

/// A well-formed option. There are 38 bytes for suboptions at most.
pub struct Contents<'a> {
    global: Option<u8>,
    teps: [Suboption<'a>; 38],
    count: usize,
}

impl<'a> Contents<'a> {
    /// Of an option, kind and length included, at most 40 bytes; nothing if it is ill-formed.
    pub fn read(option: &'a [u8]) -> Option<Contents<'a>> {
        let none = Suboption { byte: 0, data: &[] };
        let mut contents = Contents {
            global: None,
            teps: [none; 38],
            count: 0,
        };
        let mut rest = &option[2..];
        while let Some((&byte, tail)) = rest.split_first() {
            rest = tail;
            match byte {
                0x00..=0x1f => contents.global = contents.global.or(Some(byte)),
                0x20..=0x7f => contents.push(byte, &[]),
                0x80..=0x9f => {
                    let length = usize::from(byte & 0x1f) + 1;
                    let (&byte, tail) = rest.split_first()?;
                    if byte < 0xa0 || tail.len() < length {
                        return None;
                    }
                    let (data, tail) = tail.split_at(length);
                    contents.push(byte, data);
                    rest = tail;
                }
                0xa0..=0xff => {
                    contents.push(byte, rest);
                    break;
                }
            }
        }
        Some(contents)
    }

    fn push(&mut self, byte: u8, data: &'a [u8]) {
        self.teps[self.count] = Suboption { byte, data };
        self.count += 1;
    }

    pub fn teps(&self) -> &[Suboption<'a>] {
        &self.teps[..self.count]
    }

    pub fn b(&self) -> u8 {
        self.global.unwrap_or(0) & 1
    }

    pub fn aware(&self) -> bool {
        self.global.unwrap_or(0) & 2 != 0
    }

    /// The suboption of a TEP that was sent exactly once.
    pub fn once(&self, tep: u8) -> Option<&Suboption<'a>> {
        let mut sent = self.teps().iter().filter(|s| s.tep() == tep);
        match (sent.next(), sent.next()) {
            (only, None) => only,
            _ => None,
        }
    }
}
