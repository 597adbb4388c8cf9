//! Generations.

use core::mem::{align_of, offset_of, size_of};

use crate::Generations;

/// A generation record. `fin` is C's `bool`: it is given as 0 or 1, and tested where it is given back.
#[derive(Clone, Copy, PartialEq, Eq, Debug)]
#[repr(C)]
pub(crate) struct Record {
    pub local: u16,
    pub remote: u16,
    pub last: u16,
    pub fin: u8,
}

/// What a step gives back.
#[derive(Clone, Copy)]
#[repr(C)]
pub(crate) struct GenerationNumbers {
    pub next: Record,
    pub number: u16,
    pub kind: u8,
    pub rekey: u8,
}

// The layout that hosts/c/layout.c finds in the library.
const _: () = {
    assert!(size_of::<Record>() == 8 && align_of::<Record>() == 2);
    assert!(offset_of!(Record, local) == 0 && offset_of!(Record, remote) == 2);
    assert!(offset_of!(Record, last) == 4 && offset_of!(Record, fin) == 6);
    assert!(size_of::<GenerationNumbers>() == 12 && align_of::<GenerationNumbers>() == 2);
    assert!(offset_of!(GenerationNumbers, next) == 0 && offset_of!(GenerationNumbers, number) == 8);
    assert!(offset_of!(GenerationNumbers, kind) == 10);
    assert!(offset_of!(GenerationNumbers, rekey) == 11);
};

extern "C" {
    fn door_link_first_record() -> Record;
    fn door_link_is_owed(g: Record) -> u8;
    fn door_link_send(g: Record, fin: bool) -> GenerationNumbers;
    fn door_link_initiate(g: Record, has_data: bool, fin: bool) -> GenerationNumbers;
    fn door_link_receive_frame(g: Record, rekey: bool) -> GenerationNumbers;
}

impl From<Generations> for Record {
    #[inline]
    fn from(g: Generations) -> Record {
        Record {
            local: g.local,
            remote: g.remote,
            last: g.last,
            fin: u8::from(g.fin),
        }
    }
}

#[inline]
pub(crate) fn first_record() -> Record {
    // SAFETY: the call takes nothing.
    unsafe { door_link_first_record() }
}

#[inline]
pub(crate) fn is_owed(g: Generations) -> u8 {
    // SAFETY: the record's flag is 0 or 1.
    unsafe { door_link_is_owed(g.into()) }
}

#[inline]
pub(crate) fn send(g: Generations, fin: bool) -> GenerationNumbers {
    // SAFETY: the record's flag is 0 or 1.
    unsafe { door_link_send(g.into(), fin) }
}

#[inline]
pub(crate) fn initiate(g: Generations, has_data: bool, fin: bool) -> GenerationNumbers {
    // SAFETY: the record's flag is 0 or 1.
    unsafe { door_link_initiate(g.into(), has_data, fin) }
}

#[inline]
pub(crate) fn receive_frame(g: Generations, rekey: bool) -> GenerationNumbers {
    // SAFETY: the record's flag is 0 or 1.
    unsafe { door_link_receive_frame(g.into(), rekey) }
}
