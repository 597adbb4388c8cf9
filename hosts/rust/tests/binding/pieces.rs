//! A reader of pieces: by the crate's type where the start has its types, and always by lent memory; both must say the same.

use door_link::{self as link, untyped, Enabled, Stopped, Tep};

use super::number;
use crate::driver::calls::{Answer, Header, Init1, Init2};
use crate::driver::pieces::{Fed, Item, Memory, Reader, Says, Start};

#[derive(Clone)]
pub struct Pieces {
    memory: Memory,
    typed: Option<Box<link::Pieces>>,
    first: bool,
}

impl Pieces {
    pub fn new() -> Pieces {
        Pieces {
            memory: Memory {
                numbers: vec![0; link::NUMBERS],
                gathered: vec![0; link::GATHERED],
            },
            typed: Some(Box::new(link::Pieces::frames())),
            first: false,
        }
    }

    /// Of any memory.
    pub fn of(memory: Memory) -> Pieces {
        Pieces {
            first: memory.numbers.get(3) == Some(&4),
            memory,
            typed: None,
        }
    }
}

fn item(item: link::Item, first: bool) -> Item {
    match item {
        link::Item::Init(init) if first => Item::Init1(Init1 {
            cipher: init.cipher(),
            count: init.count(),
            length: init.length(),
            nonce: *init.nonce(),
            key: init.key().to_vec(),
        }),
        link::Item::Init(init) => {
            assert_eq!(init.count(), 1);
            Item::Init2(Init2 {
                cipher: init.cipher(),
                length: init.length(),
                nonce: *init.nonce(),
                key: init.key().to_vec(),
            })
        }
        link::Item::Header(header) => Item::Header(Header {
            rekey: header.rekey,
            length: usize::from(header.length),
            next: header.next,
            associated: header.associated,
        }),
        link::Item::Body(range) => Item::Body(range),
    }
}

impl Reader for Pieces {
    fn start(&mut self, start: &Start) -> Answer<()> {
        let Memory { numbers, gathered } = &mut self.memory;
        let typed = self.typed.as_mut();
        let (answer, typed) = match start {
            Start::Init1 { tep, enabled } => {
                let [aes128, aes256, chacha20] = *enabled;
                let enabled = Enabled {
                    aes128,
                    aes256,
                    chacha20,
                };
                let answer = untyped::start_init1(*tep, enabled, numbers);
                let typed = typed.zip(Tep::of(*tep));
                (
                    answer,
                    typed.map(|(reader, tep)| reader.start_init1(tep, enabled)),
                )
            }
            Start::Init2 { tep, own } => {
                let answer = untyped::start_init2(*tep, own, numbers, gathered);
                let typed = typed.zip(Tep::of(*tep));
                (
                    answer,
                    typed.map(|(reader, tep)| reader.start_init2(tep, own)),
                )
            }
            Start::Frames { from: 0 } => {
                let answer = untyped::start_frames(numbers);
                (answer, typed.map(|reader| reader.start_frames()))
            }
            Start::Frames { from } => {
                let answer = untyped::start_frames(numbers);
                numbers[0] = *from;
                self.typed = None;
                (answer, None)
            }
        };
        assert!(typed.map_or(true, |typed| typed == answer), "{start:?}");
        if answer.is_ok() {
            self.first = matches!(start, Start::Init1 { .. });
        }
        answer.map_err(number)
    }

    fn feed(&mut self, piece: &[u8]) -> Fed {
        let Memory { numbers, gathered } = &mut self.memory;
        let told = untyped::feed(numbers, gathered, piece);
        if let Some(reader) = &mut self.typed {
            assert_eq!(reader.feed(piece), told);
            if let Ok(Some(link::Item::Init(init))) = told.as_ref().map(|fed| fed.item.as_ref()) {
                assert_eq!(reader.message(), &gathered[..init.length()]);
            }
        }
        match told {
            Ok(fed) => Fed {
                used: fed.used,
                says: match fed.item {
                    None => Says::Waiting,
                    Some(told) => Says::Item(item(told, self.first)),
                },
            },
            Err(Stopped { error, position }) => Fed {
                used: 0,
                says: Says::Refused(number(error), position),
            },
        }
    }

    fn memory(&self) -> Memory {
        self.memory.clone()
    }
}
