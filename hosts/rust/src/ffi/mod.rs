//! The library's exports as hosts/c/door_link.h and door_link_messages.h have them, each behind a safe function. All `unsafe` of the crate is here.
//!
//! What the headers ask of a caller: no null pointer (a slice has none, an empty one included), all bytes of a length readable and those of a
//! lent buffer writable (a slice's are), no lent buffer that overlaps an input or the unit (a `&mut` slice overlaps nothing else that is borrowed), and a
//! `bool` that is 0 or 1 (Rust's is). Any bytes are a unit.
//!
//! What the library gives back is declared as numbers throughout, its flags too, so that no value of theirs is undefined; the crate tests them.

pub(crate) mod frame;
pub(crate) mod generation;
pub(crate) mod init;
pub(crate) mod judge;
pub(crate) mod pieces;
mod unit;

use core::arch::asm;
use core::mem::{align_of, offset_of, size_of};

pub(crate) use unit::*;

#[cfg(not(all(target_arch = "x86_64", unix)))]
compile_error!("the library is built for x86-64 with the System V calling convention");

/// A reply in plain numbers.
#[derive(Clone, Copy)]
#[repr(C)]
pub(crate) struct Reply {
    pub number: usize,
    pub kind: u8,
    pub role: u8,
    pub tep: u8,
    pub resumed: u8,
    pub place: u8,
    pub option: u8,
}

// The layout that hosts/c/layout.c finds in the library.
const _: () = {
    assert!(size_of::<usize>() == 8 && size_of::<bool>() == 1);
    assert!(size_of::<Reply>() == 16 && align_of::<Reply>() == 8);
    assert!(offset_of!(Reply, number) == 0 && offset_of!(Reply, kind) == 8);
    assert!(offset_of!(Reply, role) == 9 && offset_of!(Reply, tep) == 10);
    assert!(offset_of!(Reply, resumed) == 11 && offset_of!(Reply, place) == 12);
    assert!(offset_of!(Reply, option) == 13);
};

/// Refers to the name that carries the number of the library's interface, as hosts/c/door_link.h does, in an instruction that does nothing: a crate for
/// another interface does not link.
#[inline(always)]
fn abi() {
    // SAFETY: the instruction changes nothing and reads nothing.
    unsafe {
        asm!(
            "nopl door_link_abi_6@PLT(%rip)",
            options(att_syntax, nomem, nostack, preserves_flags)
        )
    };
}

extern "C" {
    fn door_link_find_status(area: *const u8, area_length: usize, syn: bool) -> Reply;
}

pub(crate) fn find_status(area: &[u8], syn: bool) -> Reply {
    // SAFETY: pointer and length are those of a slice.
    unsafe { door_link_find_status(area.as_ptr(), area.len(), syn) }
}

/// Writes zeros that the compiler does not leave out, since what follows may read them.
pub(crate) fn overwrite(bytes: &mut [u8]) {
    bytes.fill(0);
    // SAFETY: there is no instruction in it.
    unsafe {
        asm!("/* {} */", in(reg) bytes.as_ptr(), options(nostack, preserves_flags, readonly))
    };
}
