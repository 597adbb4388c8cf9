//! Session records: the TEPs, the two halves of an identifier.

use crate::driver::calls::Record;

pub const KNOWN: [u8; 4] = [0x21, 0x22, 0x23, 0x24];

pub fn known(tep: u8) -> bool {
    KNOWN.contains(&tep)
}

/// The half that this end sends.
pub fn sent(record: &Record) -> &[u8] {
    if record.role == 0 {
        &record.identifier[..9]
    } else {
        &record.identifier[9..]
    }
}

/// The half that this end expects.
pub fn expected(record: &Record) -> &[u8] {
    if record.role == 0 {
        &record.identifier[9..]
    } else {
        &record.identifier[..9]
    }
}
