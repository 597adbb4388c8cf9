//! A reader of messages in pieces, over the two arrays that are lent to each call.

use core::mem::{align_of, offset_of, size_of};

use super::Reply;
use crate::Enabled;

/// What a reader gives back.
#[derive(Clone, Copy)]
#[repr(C)]
pub(crate) struct FedNumbers {
    pub number: u64,
    pub place: u64,
    pub used: usize,
    pub count: usize,
    pub cipher: u16,
    pub clen: u16,
    pub kind: u8,
    pub rekey: u8,
    pub associated: [u8; 3],
}

// The layout that hosts/c/layout.c finds in the library.
const _: () = {
    assert!(size_of::<FedNumbers>() == 48 && align_of::<FedNumbers>() == 8);
    assert!(offset_of!(FedNumbers, number) == 0 && offset_of!(FedNumbers, place) == 8);
    assert!(offset_of!(FedNumbers, used) == 16 && offset_of!(FedNumbers, count) == 24);
    assert!(offset_of!(FedNumbers, cipher) == 32 && offset_of!(FedNumbers, clen) == 34);
    assert!(offset_of!(FedNumbers, kind) == 36 && offset_of!(FedNumbers, rekey) == 37);
    assert!(offset_of!(FedNumbers, associated) == 38);
};

extern "C" {
    fn door_link_start_init1(
        tep: u8,
        aes128: bool,
        aes256: bool,
        chacha20: bool,
        numbers: *mut u64,
        numbers_count: usize,
    ) -> Reply;
    fn door_link_start_init2(
        tep: u8,
        own: *const u16,
        own_count: usize,
        numbers: *mut u64,
        numbers_count: usize,
        gathered: *mut u8,
        gathered_length: usize,
    ) -> Reply;
    fn door_link_start_frames(numbers: *mut u64, numbers_count: usize) -> Reply;
    fn door_link_feed(
        numbers: *mut u64,
        numbers_count: usize,
        gathered: *mut u8,
        gathered_length: usize,
        piece: *const u8,
        piece_length: usize,
    ) -> FedNumbers;
}

#[inline]
pub(crate) fn start_init1(tep: u8, enabled: Enabled, numbers: &mut [u64]) -> Reply {
    let Enabled {
        aes128,
        aes256,
        chacha20,
    } = enabled;
    let (lent, count) = (numbers.as_mut_ptr(), numbers.len());
    // SAFETY: pointer and length are those of a slice that is lent alone.
    unsafe { door_link_start_init1(tep, aes128, aes256, chacha20, lent, count) }
}

#[inline]
pub(crate) fn start_init2(tep: u8, own: &[u16], numbers: &mut [u64], gathered: &mut [u8]) -> Reply {
    // SAFETY: pointers and lengths are those of slices, and two of them are lent alone.
    unsafe {
        door_link_start_init2(
            tep,
            own.as_ptr(),
            own.len(),
            numbers.as_mut_ptr(),
            numbers.len(),
            gathered.as_mut_ptr(),
            gathered.len(),
        )
    }
}

#[inline]
pub(crate) fn start_frames(numbers: &mut [u64]) -> Reply {
    // SAFETY: pointer and length are those of a slice that is lent alone.
    unsafe { door_link_start_frames(numbers.as_mut_ptr(), numbers.len()) }
}

#[inline]
pub(crate) fn feed(numbers: &mut [u64], gathered: &mut [u8], piece: &[u8]) -> FedNumbers {
    // SAFETY: pointers and lengths are those of slices, and two of them are lent alone.
    unsafe {
        door_link_feed(
            numbers.as_mut_ptr(),
            numbers.len(),
            gathered.as_mut_ptr(),
            gathered.len(),
            piece.as_ptr(),
            piece.len(),
        )
    }
}
