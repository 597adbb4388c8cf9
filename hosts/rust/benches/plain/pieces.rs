//! A reader of messages in pieces: a push parser that keeps what it needs of the bytes and no more.

use super::frame::Header;
use super::init::Init;

const INIT1: [u8; 4] = [0x15, 0x10, 0x1a, 0x0e];
const INIT2: [u8; 4] = [0x09, 0x71, 0x05, 0xe0];
const LONGEST: u32 = 4096;

/// What a call says.
#[derive(Clone, Copy)]
pub enum Event {
    Waiting,
    Init(Init),
    Header(Header),
    Body { begins: u64, ends: u64 },
    Refused { number: u8, position: u64 },
}

#[derive(Clone, Copy)]
enum State {
    Init,
    Header,
    Body,
    Refused(u8),
}

#[derive(Clone)]
pub struct Reader {
    state: State,
    position: u64,
    /// A header's bytes so far.
    header: [u8; 3],
    have: u8,
    begins: u64,
    ends: u64,
    /// Of an Init message.
    first: bool,
    key: usize,
    enabled: [bool; 3],
    own: [u16; 255],
    own_count: usize,
    length: u32,
    count: usize,
    half: u8,
    cipher: Option<u16>,
    fields: [u8; 88],
}

fn key_length(tep: u8) -> Result<usize, u8> {
    match tep {
        0x23 => Ok(32),
        0x24 => Ok(56),
        _ => Err(3),
    }
}

impl Reader {
    /// A reader of frames from 0.
    pub const fn new() -> Reader {
        Reader {
            state: State::Header,
            position: 0,
            header: [0; 3],
            have: 0,
            begins: 0,
            ends: 0,
            first: false,
            key: 0,
            enabled: [false; 3],
            own: [0; 255],
            own_count: 0,
            length: 0,
            count: 0,
            half: 0,
            cipher: None,
            fields: [0; 88],
        }
    }

    /// Frames from an offset on.
    pub fn start_frames(&mut self, offset: u64) {
        self.state = State::Header;
        self.position = offset;
        self.have = 0;
    }

    pub fn start_init1(&mut self, tep: u8, enabled: [bool; 3]) -> Result<(), u8> {
        self.start_init(key_length(tep)?, true);
        self.enabled = enabled;
        Ok(())
    }

    pub fn start_init2(&mut self, tep: u8, own: &[u16]) -> Result<(), u8> {
        let key = key_length(tep)?;
        self.own.get_mut(..own.len()).ok_or(3)?.copy_from_slice(own);
        self.own_count = own.len();
        self.start_init(key, false);
        self.count = 1;
        Ok(())
    }

    fn start_init(&mut self, key: usize, first: bool) {
        self.start_frames(0);
        self.state = State::Init;
        (self.key, self.first) = (key, first);
        (self.length, self.count, self.cipher) = (0, 0, None);
    }

    /// Takes bytes up to the last of the first item that they finish; gives how many, and what it says.
    #[inline(never)]
    pub fn feed(&mut self, piece: &[u8]) -> (usize, Event) {
        match self.state {
            State::Body => self.body(piece),
            State::Header => self.headed(piece),
            State::Init => self.gather(piece),
            State::Refused(number) => (0, self.refused(number)),
        }
    }

    fn refused(&self, number: u8) -> Event {
        let position = self.position;
        Event::Refused { number, position }
    }

    fn stop(&mut self, number: u8) -> (usize, Event) {
        self.state = State::Refused(number);
        (0, self.refused(number))
    }

    fn body(&mut self, piece: &[u8]) -> (usize, Event) {
        let left = self.ends - self.position;
        if (piece.len() as u64) < left {
            self.position += piece.len() as u64;
            return (piece.len(), Event::Waiting);
        }
        let (begins, ends) = (self.begins, self.ends);
        self.position = ends;
        self.state = State::Header;
        self.have = 0;
        (left as usize, Event::Body { begins, ends })
    }

    fn headed(&mut self, piece: &[u8]) -> (usize, Event) {
        for (i, &byte) in piece.iter().enumerate() {
            let have = usize::from(self.have);
            let offset = self.position - have as u64;
            let length = match have {
                0 => 17,
                1 => (u16::from(byte) << 8).max(17),
                _ => u16::from_be_bytes([self.header[1], byte]),
            };
            let next = match offset.checked_add(3 + u64::from(length)) {
                Some(next) if length >= 17 => next,
                _ => return self.stop(11),
            };
            self.header[have] = byte;
            self.position += 1;
            self.have += 1;
            if have == 2 {
                self.state = State::Body;
                self.begins = self.position;
                self.ends = next;
                let header = Header {
                    rekey: self.header[0] & 1 == 1,
                    length,
                    next,
                    associated: self.header,
                };
                return (i + 1, Event::Header(header));
            }
        }
        (piece.len(), Event::Waiting)
    }

    /// Whether a byte before the nonce leaves a readable continuation.
    fn stands(&mut self, n: usize, byte: u8) -> bool {
        let ciphers = if self.first { 9 } else { 8 };
        match n {
            0..=3 => byte == if self.first { INIT1[n] } else { INIT2[n] },
            4..=7 => {
                self.length |= u32::from(byte) << (8 * (7 - n));
                let least = (ciphers + 2 + 32 + self.key) as u32;
                self.length <= LONGEST && (n < 7 || self.length >= least)
            }
            8 if self.first => {
                self.count = usize::from(byte);
                byte != 0 && self.length as usize >= 9 + 2 * self.count + 32 + self.key
            }
            _ if (n - ciphers) % 2 == 0 => {
                self.half = byte;
                true
            }
            _ => {
                let cipher = u16::from_be_bytes([self.half, byte]);
                let [aes128, aes256, chacha20] = self.enabled;
                let takes = match cipher {
                    _ if !self.first => self.own[..self.own_count].contains(&cipher),
                    0x0001 => aes128,
                    0x0002 => aes256,
                    0x0010 => chacha20,
                    _ => false,
                };
                if takes && self.cipher.is_none() {
                    self.cipher = Some(cipher);
                }
                cipher != 0
            }
        }
    }

    fn gather(&mut self, piece: &[u8]) -> (usize, Event) {
        let ciphers = if self.first { 9 } else { 8 };
        let mut i = 0;
        while i < piece.len() {
            let n = self.position as usize;
            if n >= ciphers + 2 * self.count && n >= ciphers {
                return self.behind(piece, i, n - ciphers - 2 * self.count);
            }
            if !self.stands(n, piece[i]) {
                return self.stop(8);
            }
            self.position += 1;
            i += 1;
        }
        (i, Event::Waiting)
    }

    /// Nonce, key and ignored bytes: a copy of what there is of them.
    fn behind(&mut self, piece: &[u8], i: usize, at: usize) -> (usize, Event) {
        let left = self.length as usize - self.position as usize;
        let take = left.min(piece.len() - i);
        let wanted = (32 + self.key).saturating_sub(at).min(take);
        let from = at.min(88);
        self.fields[from..from + wanted].copy_from_slice(&piece[i..i + wanted]);
        self.position += take as u64;
        if take < left {
            return (i + take, Event::Waiting);
        }
        let Some(cipher) = self.cipher else {
            self.position -= 1;
            return self.stop(10);
        };
        let mut init = Init {
            cipher,
            count: self.count,
            length: self.length as usize,
            nonce: [0; 32],
            key: [0; 56],
        };
        init.nonce.copy_from_slice(&self.fields[..32]);
        init.key[..self.key].copy_from_slice(&self.fields[32..32 + self.key]);
        self.state = State::Header;
        (i + take, Event::Init(init))
    }
}
