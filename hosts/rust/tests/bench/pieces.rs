//! The plain reader of pieces behind the driver's trait. Its memory is its own, so that what it tells is compared alone.

use super::plain::pieces::{Event, Reader as Plain};
use crate::driver::calls::{Answer, Header, Init1, Init2};
use crate::driver::pieces::{self, Fed, Item, Memory, Reader, Says, Start};
use crate::driver::random::{calls, seed};
use crate::good;
use crate::model::Wire;

#[derive(Clone)]
struct Pieces {
    reader: Plain,
    start: Start,
}

impl Pieces {
    fn new() -> Pieces {
        Pieces {
            reader: Plain::new(),
            start: Start::Frames { from: 0 },
        }
    }

    fn item(&self, event: Event) -> Item {
        let key = |tep: u8, key: [u8; 56]| key[..if tep == 0x24 { 56 } else { 32 }].to_vec();
        match (event, &self.start) {
            (Event::Init(init), Start::Init1 { tep, .. }) => Item::Init1(Init1 {
                cipher: init.cipher,
                count: init.count,
                length: init.length,
                nonce: init.nonce,
                key: key(*tep, init.key),
            }),
            (Event::Init(init), Start::Init2 { tep, .. }) => Item::Init2(Init2 {
                cipher: init.cipher,
                length: init.length,
                nonce: init.nonce,
                key: key(*tep, init.key),
            }),
            (Event::Header(header), _) => Item::Header(Header {
                rekey: header.rekey,
                length: usize::from(header.length),
                next: header.next,
                associated: header.associated,
            }),
            (Event::Body { begins, ends }, _) => Item::Body(begins..ends),
            _ => unreachable!("no item of this start"),
        }
    }
}

impl Reader for Pieces {
    fn start(&mut self, start: &Start) -> Answer<()> {
        match start {
            Start::Init1 { tep, enabled } => self.reader.start_init1(*tep, *enabled)?,
            Start::Init2 { tep, own } => self.reader.start_init2(*tep, own)?,
            Start::Frames { from } => self.reader.start_frames(*from),
        }
        self.start = start.clone();
        Ok(())
    }

    fn feed(&mut self, piece: &[u8]) -> Fed {
        let (used, event) = self.reader.feed(piece);
        let says = match event {
            Event::Waiting => Says::Waiting,
            Event::Refused { number, position } => Says::Refused(number, position),
            _ => Says::Item(self.item(event)),
        };
        Fed { used, says }
    }

    fn memory(&self) -> Memory {
        Memory {
            numbers: vec![],
            gathered: vec![0; 4608],
        }
    }

    fn shows(&self) -> bool {
        false
    }
}

#[test]
fn plain_streams_in_pieces() {
    good(pieces::compare(seed(), calls(), &Wire, Pieces::new));
    good(pieces::every_two_cuts(&Wire, Pieces::new));
}
