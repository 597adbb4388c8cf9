//! The same calls as plain Rust that changes its state in place: what the library's speed is held against. No heap, no copy of the unit; what is
//! measured is not inlined, as the library's calls are not. That it does what the model does is tested (tests/bench).

pub mod area;
pub mod fastest;
pub mod frame;
pub mod generation;
pub mod init;
pub mod judge;
pub mod pieces;
pub mod suboptions;
pub mod unit;

/// A session record.
#[derive(Clone, Copy, PartialEq, Eq)]
pub struct Session {
    pub tep: u8,
    pub role: u8,
    pub identifier: [u8; 18],
    pub secret: [u8; 32],
}

impl Session {
    pub const NONE: Session = Session {
        tep: 0,
        role: 0,
        identifier: [0; 18],
        secret: [0; 32],
    };

    /// The half that this end sends, and the half that it expects.
    pub fn halves(&self) -> (&[u8], &[u8]) {
        let (first, second) = self.identifier.split_at(9);
        if self.role == 0 {
            (first, second)
        } else {
            (second, first)
        }
    }
}

/// Whether a TEP is one of the four.
pub fn known(tep: u8) -> bool {
    (0x21..=0x24).contains(&tep)
}
