//! The two judges.

use core::mem::{align_of, offset_of, size_of};

use super::Reply;

/// A session record in hand, or `held` 0 and zeros.
#[repr(C)]
struct Hand {
    held: bool,
    tep: u8,
    role: u8,
    identifier: [u8; 18],
    secret: [u8; 32],
}

/// What the judge gives back.
#[derive(Clone, Copy)]
#[repr(C)]
pub(crate) struct JudgementNumbers {
    pub reply: Reply,
    pub transcript: [u8; 80],
}

// The layout that hosts/c/layout.c finds in the library.
const _: () = {
    assert!(size_of::<Hand>() == 53 && align_of::<Hand>() == 1);
    assert!(offset_of!(Hand, held) == 0 && offset_of!(Hand, tep) == 1);
    assert!(offset_of!(Hand, role) == 2 && offset_of!(Hand, identifier) == 3);
    assert!(offset_of!(Hand, secret) == 21);
    assert!(size_of::<JudgementNumbers>() == 96 && align_of::<JudgementNumbers>() == 8);
    assert!(offset_of!(JudgementNumbers, reply) == 0);
    assert!(offset_of!(JudgementNumbers, transcript) == 16);
};

extern "C" {
    fn door_link_judge(
        own_area: *const u8,
        own_length: usize,
        peer_area: *const u8,
        peer_length: usize,
        mandatory: bool,
        hand: Hand,
    ) -> JudgementNumbers;

    fn door_link_judge_plainly(
        own_area: *const u8,
        own_length: usize,
        peer_area: *const u8,
        peer_length: usize,
        mandatory: bool,
        hand: Hand,
    ) -> JudgementNumbers;
}

/// The judges look at no secret, so that zeros are given for one.
#[inline]
fn hand_of(hand: Option<&crate::untyped::InHand>) -> Hand {
    Hand {
        held: hand.is_some(),
        tep: hand.map_or(0, |record| record.tep),
        role: hand.map_or(0, |record| record.role),
        identifier: hand.map_or([0; 18], |record| record.identifier),
        secret: [0; 32],
    }
}

/// The quick judge.
#[inline]
pub(crate) fn judge(
    own: &[u8],
    peer: &[u8],
    mandatory: bool,
    hand: Option<&crate::untyped::InHand>,
) -> JudgementNumbers {
    let hand = hand_of(hand);
    // SAFETY: pointers and lengths are those of slices.
    unsafe {
        door_link_judge(
            own.as_ptr(),
            own.len(),
            peer.as_ptr(),
            peer.len(),
            mandatory,
            hand,
        )
    }
}

/// The plain judge.
#[inline]
pub(crate) fn judge_plainly(
    own: &[u8],
    peer: &[u8],
    mandatory: bool,
    hand: Option<&crate::untyped::InHand>,
) -> JudgementNumbers {
    let hand = hand_of(hand);
    // SAFETY: pointers and lengths are those of slices.
    unsafe {
        door_link_judge_plainly(
            own.as_ptr(),
            own.len(),
            peer.as_ptr(),
            peer.len(),
            mandatory,
            hand,
        )
    }
}
