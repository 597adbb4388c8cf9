//! Frame headers, frame IDs, nonces and plaintexts.

use core::mem::{align_of, offset_of, size_of};

use super::Reply;

/// What the reading of a header gives back.
#[derive(Clone, Copy)]
#[repr(C)]
pub(crate) struct HeaderNumbers {
    pub number: usize,
    pub clen: u16,
    pub kind: u8,
    pub rekey: u8,
    pub associated: [u8; 3],
}

/// A frame ID.
#[derive(Clone, Copy)]
#[repr(C)]
pub(crate) struct FrameId {
    pub bytes: [u8; 12],
}

/// What the making of a nonce gives back.
#[derive(Clone, Copy)]
#[repr(C)]
pub(crate) struct NonceNumbers {
    pub number: usize,
    pub kind: u8,
    pub nonce: [u8; 12],
}

/// What the reading of a plaintext gives back.
#[derive(Clone, Copy)]
#[repr(C)]
pub(crate) struct PlaintextNumbers {
    pub number: usize,
    pub urgent: u16,
    pub kind: u8,
    pub fin: u8,
    pub urg: u8,
}

// The layout that hosts/c/layout.c finds in the library.
const _: () = {
    assert!(size_of::<HeaderNumbers>() == 16 && align_of::<HeaderNumbers>() == 8);
    assert!(offset_of!(HeaderNumbers, number) == 0 && offset_of!(HeaderNumbers, clen) == 8);
    assert!(offset_of!(HeaderNumbers, kind) == 10 && offset_of!(HeaderNumbers, rekey) == 11);
    assert!(offset_of!(HeaderNumbers, associated) == 12);
    assert!(size_of::<FrameId>() == 12 && align_of::<FrameId>() == 1);
    assert!(size_of::<NonceNumbers>() == 24 && align_of::<NonceNumbers>() == 8);
    assert!(offset_of!(NonceNumbers, number) == 0 && offset_of!(NonceNumbers, kind) == 8);
    assert!(offset_of!(NonceNumbers, nonce) == 9);
    assert!(size_of::<PlaintextNumbers>() == 16 && align_of::<PlaintextNumbers>() == 8);
    assert!(offset_of!(PlaintextNumbers, number) == 0 && offset_of!(PlaintextNumbers, urgent) == 8);
    assert!(offset_of!(PlaintextNumbers, kind) == 10 && offset_of!(PlaintextNumbers, fin) == 11);
    assert!(offset_of!(PlaintextNumbers, urg) == 12);
};

extern "C" {
    fn door_link_next_offset(offset: u64, clen: usize) -> Reply;
    fn door_link_header_write(
        rekey: bool,
        clen: usize,
        offset: u64,
        out: *mut u8,
        out_length: usize,
    ) -> Reply;
    fn door_link_header_read(bytes: *const u8, bytes_length: usize, offset: u64) -> HeaderNumbers;
    fn door_link_frame_id(offset: u64) -> FrameId;
    fn door_link_nonce(fixed: *const u8, fixed_length: usize, offset: u64) -> NonceNumbers;
    fn door_link_plaintext_write(
        fin: bool,
        urg: bool,
        urgent: u16,
        payload: *const u8,
        payload_length: usize,
        out: *mut u8,
        out_length: usize,
    ) -> Reply;
    fn door_link_plaintext_read(bytes: *const u8, bytes_length: usize) -> PlaintextNumbers;
}

#[inline]
pub(crate) fn next_offset(offset: u64, clen: usize) -> Reply {
    // SAFETY: the call takes numbers alone.
    unsafe { door_link_next_offset(offset, clen) }
}

#[inline]
pub(crate) fn header_write(rekey: bool, clen: usize, offset: u64, out: &mut [u8]) -> Reply {
    // SAFETY: pointer and length are those of a slice that is lent alone.
    unsafe { door_link_header_write(rekey, clen, offset, out.as_mut_ptr(), out.len()) }
}

#[inline]
pub(crate) fn header_read(bytes: &[u8], offset: u64) -> HeaderNumbers {
    // SAFETY: pointer and length are those of a slice.
    unsafe { door_link_header_read(bytes.as_ptr(), bytes.len(), offset) }
}

#[inline]
pub(crate) fn frame_id(offset: u64) -> FrameId {
    // SAFETY: the call takes a number alone.
    unsafe { door_link_frame_id(offset) }
}

#[inline]
pub(crate) fn nonce(fixed: &[u8], offset: u64) -> NonceNumbers {
    // SAFETY: pointer and length are those of a slice.
    unsafe { door_link_nonce(fixed.as_ptr(), fixed.len(), offset) }
}

#[inline]
pub(crate) fn plaintext_write(
    fin: bool,
    urg: bool,
    urgent: u16,
    payload: &[u8],
    out: &mut [u8],
) -> Reply {
    // SAFETY: pointers and lengths are those of slices, and `out` is lent alone.
    unsafe {
        door_link_plaintext_write(
            fin,
            urg,
            urgent,
            payload.as_ptr(),
            payload.len(),
            out.as_mut_ptr(),
            out.len(),
        )
    }
}

#[inline]
pub(crate) fn plaintext_read(bytes: &[u8]) -> PlaintextNumbers {
    // SAFETY: pointer and length are those of a slice.
    unsafe { door_link_plaintext_read(bytes.as_ptr(), bytes.len()) }
}
