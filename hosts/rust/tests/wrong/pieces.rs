//! Readers of pieces, each wrong in one thing.

use crate::driver::calls::Answer;
use crate::driver::pieces::{self, Fed, Item, Memory, Reader, Says, Start};
use crate::model::pieces::{parse, Anew};
use crate::model::Wire;

/// The one thing; the model does the rest.
#[derive(Clone, Copy, PartialEq, Eq, Debug)]
enum Fault {
    /// Bytes of a header that came in an earlier piece are lost.
    HeaderForgotten,
    /// An empty piece after a refusal: the reader waits.
    RefusalForgotten,
    /// A refusal's position counts from the piece's start.
    PositionOfPiece,
    /// 10 at the key's last byte, before the ignored bytes.
    TenAtTheKey,
    /// The first frame begins behind the Init's fields, not behind its length.
    FrameBehindFields,
    /// 11 once the header is all there.
    ElevenAtTheThird,
    /// An item is told with the byte behind it.
    ItemOneLate,
    /// What is behind an item counts as used.
    UsesAll,
}

#[derive(Clone)]
struct Wrong {
    reader: Anew,
    fault: Fault,
    /// Bytes that the Init message has behind its key.
    ignored: u64,
}

/// The length of an Init message's fields, and the message's own, where both are there.
fn fields(start: &Start, seen: &[u8]) -> Option<(usize, usize)> {
    let length: [u8; 4] = seen.get(4..8)?.try_into().ok()?;
    let (tep, ciphers) = match start {
        Start::Init1 { tep, .. } => (tep, 1 + 2 * usize::from(*seen.get(8)?)),
        Start::Init2 { tep, .. } => (tep, 2),
        Start::Frames { .. } => return None,
    };
    let key = if *tep == 0x24 { 56 } else { 32 };
    Some((8 + ciphers + 32 + key, u32::from_be_bytes(length) as usize))
}

impl Wrong {
    fn new(fault: Fault) -> Wrong {
        Wrong {
            reader: Anew::new(),
            fault,
            ignored: 0,
        }
    }

    /// The place of a position in the header that is under way.
    fn place(&self, position: u64) -> u64 {
        let parsed = parse(&self.reader.start, &self.reader.seen);
        let last = parsed.items.last().map(|(_, after)| *after);
        position - last.unwrap_or(self.reader.start.from())
    }
}

impl Reader for Wrong {
    fn start(&mut self, start: &Start) -> Answer<()> {
        self.reader.start(start)?;
        self.ignored = 0;
        Ok(())
    }

    fn feed(&mut self, piece: &[u8]) -> Fed {
        let reader = &mut self.reader;
        let before = reader.seen.len();
        let waiting = |used| Fed {
            used,
            says: Says::Waiting,
        };
        match self.fault {
            Fault::HeaderForgotten if reader.refused.is_none() => {
                let stage = reader.memory().numbers[3];
                if stage == 1 || stage == 2 {
                    reader.seen.truncate(before - stage as usize);
                }
            }
            Fault::RefusalForgotten if piece.is_empty() && reader.refused.is_some() => {
                return waiting(0)
            }
            Fault::TenAtTheKey if reader.told == 0 => {
                let seen = [&reader.seen[..], piece].concat();
                if let Some((end, length)) = fields(&reader.start, &seen) {
                    let mut whole = seen.clone();
                    whole.resize(seen.len().max(length.min(4096)), 0);
                    let ten = parse(&reader.start, &whole).refused.map(|(n, _)| n) == Some(10);
                    if ten && end <= seen.len() {
                        return Fed {
                            used: 0,
                            says: Says::Refused(10, end as u64 - 1),
                        };
                    }
                }
            }
            _ => {}
        }
        let mut fed = reader.feed(piece);
        match (&mut fed.says, self.fault) {
            (Says::Item(Item::Init1(_) | Item::Init2(_)), Fault::FrameBehindFields) => {
                let (end, length) = fields(&reader.start, &reader.seen).expect("a message");
                self.ignored = (length - end) as u64;
            }
            (Says::Item(Item::Header(header)), _) => header.next -= self.ignored,
            (Says::Item(Item::Body(range)), _) => {
                *range = range.start - self.ignored..range.end - self.ignored;
            }
            (Says::Refused(_, position), Fault::PositionOfPiece) => {
                *position = position.wrapping_sub(reader.start.from() + before as u64);
            }
            (Says::Refused(11, position), Fault::ElevenAtTheThird) => {
                let (at, position) = (*position, position);
                let place = self.place(at);
                let third = at.wrapping_add(2 - place);
                let came = self.reader.start.from() + self.reader.seen.len() as u64;
                if third < came {
                    *position = third;
                } else {
                    return waiting(piece.len());
                }
            }
            _ => {}
        }
        match self.fault {
            Fault::ItemOneLate if fed.used == piece.len() && matches!(fed.says, Says::Item(_)) => {
                self.reader.told -= 1;
                waiting(piece.len())
            }
            Fault::UsesAll if matches!(fed.says, Says::Item(_)) => Fed {
                used: piece.len(),
                ..fed
            },
            _ => fed,
        }
    }

    fn memory(&self) -> Memory {
        self.reader.memory()
    }
}

/// The model itself passes, and each wrong one is seen.
#[test]
fn wrong_readers_of_pieces_are_seen() {
    assert!(pieces::compare(1, 6_000, &Wire, Anew::new).is_ok());
    for fault in [
        Fault::HeaderForgotten,
        Fault::RefusalForgotten,
        Fault::PositionOfPiece,
        Fault::TenAtTheKey,
        Fault::FrameBehindFields,
        Fault::ElevenAtTheThird,
        Fault::ItemOneLate,
        Fault::UsesAll,
    ] {
        let seen = pieces::compare(1, 60_000, &Wire, || Wrong::new(fault));
        assert!(seen.is_err(), "{fault:?}");
    }
}
