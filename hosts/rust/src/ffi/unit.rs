//! The unit's calls, over the arrays of a unit.

use core::mem::{align_of, offset_of, size_of};

use super::{abi, Reply};
use crate::{DOORS, ROWS};

const WORDS: usize = ROWS / 32;
const ROW: usize = 52;
const DOOR: usize = 148;
const SECRET: usize = 32;
const SIZE: usize = 4 * WORDS + ROWS * ROW + DOORS * DOOR;

type Marks = [u32; WORDS];
type Rows = [[u8; ROW]; ROWS];
type Doors = [[u8; DOOR]; DOORS];

/// All doors and the pool; the bytes are the library's, and any bytes are a unit.
#[cfg_attr(test, derive(Clone))]
#[repr(C)]
pub(crate) struct Unit {
    marks: Marks,
    rows: Rows,
    doors: Doors,
}

impl Unit {
    /// Takes over every byte of another unit, in place.
    pub(crate) fn copy_from(&mut self, other: &Unit) {
        self.marks.copy_from_slice(&other.marks);
        self.rows.copy_from_slice(&other.rows);
        self.doors.copy_from_slice(&other.doors);
    }
}

/// What *result* gives back.
#[repr(C)]
pub(crate) struct ResultReply {
    pub reply: Reply,
    pub secret: [u8; SECRET],
}

// The layout that hosts/c/layout.c finds in the library.
const _: () = {
    assert!(WORDS * 32 == ROWS && align_of::<Unit>() == 4);
    assert!(size_of::<Unit>() == SIZE);
    assert!(offset_of!(Unit, marks) == 0 && offset_of!(Unit, rows) == 4 * WORDS);
    assert!(offset_of!(Unit, doors) == 4 * WORDS + ROWS * ROW);
    assert!(size_of::<ResultReply>() == 48 && align_of::<ResultReply>() == 8);
    assert!(offset_of!(ResultReply, reply) == 0 && offset_of!(ResultReply, secret) == 16);
};

// A reference to an array is a pointer that is not null, to bytes that are all there; no two of one call overlap where one of them is `&mut`.
extern "C" {
    fn door_link_erase(marks: &mut Marks, rows: &mut Rows, doors: &mut Doors) -> Reply;
    fn door_link_offer(
        marks: &mut Marks,
        rows: &mut Rows,
        doors: &mut Doors,
        door: usize,
        b: u8,
        aware: bool,
        mandatory: bool,
        teps: *const u8,
        teps_length: usize,
        resume: bool,
        nonce: *const u8,
        nonce_length: usize,
        out: *mut u8,
        out_length: usize,
    ) -> Reply;
    fn door_link_answer(
        marks: &mut Marks,
        rows: &mut Rows,
        doors: &mut Doors,
        door: usize,
        area: *const u8,
        area_length: usize,
        aware: bool,
        mandatory: bool,
        teps: *const u8,
        teps_length: usize,
        nonce: *const u8,
        nonce_length: usize,
        out: *mut u8,
        out_length: usize,
    ) -> Reply;
    fn door_link_receive(
        marks: &Marks,
        rows: &Rows,
        doors: &mut Doors,
        door: usize,
        syn: bool,
        ack: bool,
        area: *const u8,
        area_length: usize,
    ) -> Reply;
    fn door_link_resend(
        marks: &Marks,
        rows: &Rows,
        doors: &Doors,
        door: usize,
        out: *mut u8,
        out_length: usize,
    ) -> Reply;
    fn door_link_result(
        marks: &Marks,
        rows: &Rows,
        doors: &Doors,
        door: usize,
        out: *mut u8,
        out_length: usize,
    ) -> ResultReply;
    fn door_link_close(marks: &Marks, rows: &Rows, doors: &mut Doors, door: usize) -> Reply;
    fn door_link_store(
        marks: &mut Marks,
        rows: &mut Rows,
        doors: &mut Doors,
        door: usize,
        tep: u8,
        role: u8,
        identifier: *const u8,
        identifier_length: usize,
        secret: *const u8,
        secret_length: usize,
    ) -> Reply;
    fn door_link_forget(
        marks: &mut Marks,
        rows: &mut Rows,
        doors: &mut Doors,
        door: usize,
        tep: u8,
        identifier: *const u8,
        identifier_length: usize,
    ) -> Reply;
    fn door_link_count(marks: &Marks, rows: &Rows, doors: &Doors, door: usize) -> Reply;
}

/// The empty unit. There is no other maker of a unit, so a program that has one was linked with a library of this interface.
pub(crate) fn new() -> Unit {
    abi();
    let mut unit = Unit {
        marks: [0; WORDS],
        rows: [[0; ROW]; ROWS],
        doors: [[0; DOOR]; DOORS],
    };
    erase(&mut unit);
    unit
}

pub(crate) fn offer(
    unit: &mut Unit,
    door: usize,
    ask: &crate::untyped::Offer<'_>,
    out: &mut [u8],
) -> Reply {
    let (teps, nonce) = (ask.teps, ask.nonce);
    // SAFETY: pointers and lengths are those of slices, and `out` is lent alone.
    unsafe {
        door_link_offer(
            &mut unit.marks,
            &mut unit.rows,
            &mut unit.doors,
            door,
            ask.b,
            ask.aware,
            ask.mandatory,
            teps.as_ptr(),
            teps.len(),
            ask.resume,
            nonce.as_ptr(),
            nonce.len(),
            out.as_mut_ptr(),
            out.len(),
        )
    }
}

pub(crate) fn answer(
    unit: &mut Unit,
    door: usize,
    ask: &crate::untyped::Answer<'_>,
    out: &mut [u8],
) -> Reply {
    let (area, teps, nonce) = (ask.area, ask.teps, ask.nonce);
    // SAFETY: pointers and lengths are those of slices, and `out` is lent alone.
    unsafe {
        door_link_answer(
            &mut unit.marks,
            &mut unit.rows,
            &mut unit.doors,
            door,
            area.as_ptr(),
            area.len(),
            ask.aware,
            ask.mandatory,
            teps.as_ptr(),
            teps.len(),
            nonce.as_ptr(),
            nonce.len(),
            out.as_mut_ptr(),
            out.len(),
        )
    }
}

pub(crate) fn receive(unit: &mut Unit, door: usize, syn: bool, ack: bool, area: &[u8]) -> Reply {
    // SAFETY: pointer and length are those of a slice.
    unsafe {
        door_link_receive(
            &unit.marks,
            &unit.rows,
            &mut unit.doors,
            door,
            syn,
            ack,
            area.as_ptr(),
            area.len(),
        )
    }
}

pub(crate) fn resend(unit: &Unit, door: usize, out: &mut [u8]) -> Reply {
    // SAFETY: pointer and length are those of a slice that is lent alone.
    unsafe {
        door_link_resend(
            &unit.marks,
            &unit.rows,
            &unit.doors,
            door,
            out.as_mut_ptr(),
            out.len(),
        )
    }
}

pub(crate) fn result(unit: &Unit, door: usize, out: &mut [u8]) -> ResultReply {
    // SAFETY: pointer and length are those of a slice that is lent alone.
    unsafe {
        door_link_result(
            &unit.marks,
            &unit.rows,
            &unit.doors,
            door,
            out.as_mut_ptr(),
            out.len(),
        )
    }
}

pub(crate) fn close(unit: &mut Unit, door: usize) -> Reply {
    // SAFETY: the call takes references and a number.
    unsafe { door_link_close(&unit.marks, &unit.rows, &mut unit.doors, door) }
}

pub(crate) fn store(
    unit: &mut Unit,
    door: usize,
    tep: u8,
    role: u8,
    identifier: &[u8],
    secret: &[u8],
) -> Reply {
    // SAFETY: pointers and lengths are those of slices.
    unsafe {
        door_link_store(
            &mut unit.marks,
            &mut unit.rows,
            &mut unit.doors,
            door,
            tep,
            role,
            identifier.as_ptr(),
            identifier.len(),
            secret.as_ptr(),
            secret.len(),
        )
    }
}

pub(crate) fn forget(unit: &mut Unit, door: usize, tep: u8, identifier: &[u8]) -> Reply {
    // SAFETY: pointer and length are those of a slice.
    unsafe {
        door_link_forget(
            &mut unit.marks,
            &mut unit.rows,
            &mut unit.doors,
            door,
            tep,
            identifier.as_ptr(),
            identifier.len(),
        )
    }
}

pub(crate) fn count(unit: &Unit, door: usize) -> Reply {
    // SAFETY: the call takes references and a number.
    unsafe { door_link_count(&unit.marks, &unit.rows, &unit.doors, door) }
}

/// Makes the empty unit of whatever bytes it has, all of them 0. The compiler does not look into the library, so it does not leave the call out.
pub(crate) fn erase(unit: &mut Unit) -> Reply {
    // SAFETY: the call takes references.
    unsafe { door_link_erase(&mut unit.marks, &mut unit.rows, &mut unit.doors) }
}

#[cfg(test)]
mod tests {
    use super::*;

    impl Unit {
        fn bytes(&self) -> std::vec::Vec<u8> {
            [
                self.marks.map(u32::to_ne_bytes).as_flattened(),
                self.rows.as_flattened(),
                self.doors.as_flattened(),
            ]
            .concat()
        }
    }

    /// *resend*, *result*, *count* and refused calls leave every byte of the unit.
    #[test]
    fn calls_that_change_nothing() {
        extern "C" {
            fn door_link_unit_size() -> usize;
        }
        // SAFETY: the call takes nothing.
        assert_eq!(unsafe { door_link_unit_size() }, SIZE);
        let mut unit = new();
        assert_eq!(unit.bytes(), [0; SIZE]);
        assert_eq!(store(&mut unit, 5, 0x23, 0, &[7; 18], &[9; 32]).kind, 5);
        let ask = crate::untyped::Offer {
            b: 0,
            aware: false,
            mandatory: false,
            teps: &[0x23],
            resume: true,
            nonce: &[],
        };
        let out = &mut [0; 40][..];
        assert_eq!(offer(&mut unit, 5, &ask, out).kind, 1);
        let area = [&[0x45, 13, 1, 0xa3][..], &[7; 9]].concat();
        for open in [false, true] {
            if open {
                assert_eq!(receive(&mut unit, 5, true, true, &area).number, 0x100_0004);
            }
            let before = unit.bytes();
            resend(&unit, 5, out);
            let told = result(&unit, 5, out);
            assert_eq!(told.secret, if open { [9; 32] } else { [0; 32] });
            assert_eq!(count(&unit, 5).kind, 6);
            assert_eq!(close(&mut unit, DOORS).kind, 0);
            assert_eq!(offer(&mut unit, 5, &ask, out).kind, 0);
            assert_eq!(unit.bytes(), before);
        }
    }

    /// Any bytes are a unit: no byte of another door moves, and *erase* leaves none.
    #[test]
    fn any_bytes() {
        for byte in [1, 4, 0x45, 0xff] {
            let mut unit = Unit {
                marks: [u32::from_ne_bytes([byte; 4]); WORDS],
                rows: [[byte; ROW]; ROWS],
                doors: [[byte; DOOR]; DOORS],
            };
            let before = unit.clone();
            receive(&mut unit, 5, true, true, &[0x45, 4, 1, 0x23]);
            close(&mut unit, 7);
            result(&unit, 8, &mut [0; 80]);
            for door in (0..DOORS).filter(|door| ![5, 7].contains(door)) {
                assert_eq!(unit.doors[door], before.doors[door]);
            }
            assert!(unit.rows == before.rows && unit.marks == before.marks);
            assert_eq!(erase(&mut unit).kind, 5);
            assert_eq!(unit.bytes(), [0; SIZE]);
        }
    }
}
