//! Init1 and Init2.

use core::mem::{align_of, offset_of, size_of};

use super::Reply;
use crate::Enabled;

/// What a reader gives back.
#[derive(Clone, Copy)]
#[repr(C)]
pub(crate) struct InitNumbers {
    pub number: usize,
    pub count: usize,
    pub cipher: u16,
    pub kind: u8,
    pub nonce: [u8; 32],
    pub key: [u8; 56],
}

// The layout that hosts/c/layout.c finds in the library.
const _: () = {
    assert!(size_of::<InitNumbers>() == 112 && align_of::<InitNumbers>() == 8);
    assert!(offset_of!(InitNumbers, number) == 0 && offset_of!(InitNumbers, count) == 8);
    assert!(offset_of!(InitNumbers, cipher) == 16 && offset_of!(InitNumbers, kind) == 18);
    assert!(offset_of!(InitNumbers, nonce) == 19 && offset_of!(InitNumbers, key) == 51);
};

extern "C" {
    fn door_link_init1_write(
        tep: u8,
        ciphers: *const u16,
        ciphers_count: usize,
        nonce: *const u8,
        nonce_length: usize,
        key: *const u8,
        key_length: usize,
        out: *mut u8,
        out_length: usize,
    ) -> Reply;
    fn door_link_init2_write(
        tep: u8,
        cipher: u16,
        nonce: *const u8,
        nonce_length: usize,
        key: *const u8,
        key_length: usize,
        out: *mut u8,
        out_length: usize,
    ) -> Reply;
    fn door_link_init1_read(
        tep: u8,
        aes128: bool,
        aes256: bool,
        chacha20: bool,
        bytes: *const u8,
        bytes_length: usize,
    ) -> InitNumbers;
    fn door_link_init2_read(
        tep: u8,
        own: *const u16,
        own_count: usize,
        bytes: *const u8,
        bytes_length: usize,
    ) -> InitNumbers;
}

#[inline]
pub(crate) fn init1_write(
    tep: u8,
    ciphers: &[u16],
    nonce: &[u8],
    key: &[u8],
    out: &mut [u8],
) -> Reply {
    // SAFETY: pointers and lengths are those of slices, and `out` is lent alone.
    unsafe {
        door_link_init1_write(
            tep,
            ciphers.as_ptr(),
            ciphers.len(),
            nonce.as_ptr(),
            nonce.len(),
            key.as_ptr(),
            key.len(),
            out.as_mut_ptr(),
            out.len(),
        )
    }
}

#[inline]
pub(crate) fn init2_write(tep: u8, cipher: u16, nonce: &[u8], key: &[u8], out: &mut [u8]) -> Reply {
    // SAFETY: pointers and lengths are those of slices, and `out` is lent alone.
    unsafe {
        door_link_init2_write(
            tep,
            cipher,
            nonce.as_ptr(),
            nonce.len(),
            key.as_ptr(),
            key.len(),
            out.as_mut_ptr(),
            out.len(),
        )
    }
}

#[inline]
pub(crate) fn init1_read(tep: u8, enabled: Enabled, bytes: &[u8]) -> InitNumbers {
    let Enabled {
        aes128,
        aes256,
        chacha20,
    } = enabled;
    // SAFETY: pointer and length are those of a slice.
    unsafe { door_link_init1_read(tep, aes128, aes256, chacha20, bytes.as_ptr(), bytes.len()) }
}

#[inline]
pub(crate) fn init2_read(tep: u8, own: &[u16], bytes: &[u8]) -> InitNumbers {
    // SAFETY: pointers and lengths are those of slices.
    unsafe { door_link_init2_read(tep, own.as_ptr(), own.len(), bytes.as_ptr(), bytes.len()) }
}
