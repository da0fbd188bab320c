//! The archive's entries, and the rule for buffers that come as pointers.

use crate::{Answer, Reply};
use std::slice;

extern "C" {
    fn judge_open(opening: *const u8, opening_len: usize, image: *mut u8, image_len: usize) -> u64;
    fn judge_step(image: *mut u8, image_len: usize, round: *const u8, round_len: usize) -> u64;
}

pub(crate) fn open_apart(opening: &[u8], image: &mut [u8]) -> Answer {
    // SAFETY: a slice is never null, and one that may be written overlaps no other.
    Answer::from(unsafe {
        judge_open(opening.as_ptr(), opening.len(), image.as_mut_ptr(), image.len())
    })
}

pub(crate) fn step_apart(image: &mut [u8], round: &[u8]) -> Answer {
    // SAFETY: as in `open_apart`.
    Answer::from(unsafe {
        judge_step(image.as_mut_ptr(), image.len(), round.as_ptr(), round.len())
    })
}

/// Whether two buffers have a byte in common. No sum is taken, so none can overflow.
fn overlap(first: usize, first_len: usize, second: usize, second_len: usize) -> bool {
    if first_len == 0 || second_len == 0 {
        false
    } else if first <= second {
        second - first < first_len
    } else {
        first - second < second_len
    }
}

/// What is wrong with two buffers, if anything: null, the first buffer first, then overlap (rules
/// 15.10 and 15.11).
pub(crate) fn fault(
    first: *const u8,
    first_len: usize,
    second: *const u8,
    second_len: usize,
) -> Option<Reply> {
    if first.is_null() && first_len != 0 {
        Some(Reply::Null { buffer: 0 })
    } else if second.is_null() && second_len != 0 {
        Some(Reply::Null { buffer: 1 })
    } else if overlap(first as usize, first_len, second as usize, second_len) {
        Some(Reply::Overlap)
    } else {
        None
    }
}

/// The slice of a buffer without fault; null with length 0 is the empty one.
///
/// # Safety
///
/// A buffer with a length other than 0 can be read for as long as the slice is in use.
unsafe fn lent<'a>(buffer: *const u8, length: usize) -> &'a [u8] {
    if length == 0 {
        return &[];
    }
    // SAFETY: the caller's promise.
    unsafe { slice::from_raw_parts(buffer, length) }
}

/// As `lent`, for a buffer to be written.
///
/// # Safety
///
/// A buffer with a length other than 0 can be read and written for as long as the slice is in use,
/// and nobody else reads or writes it.
unsafe fn lent_mut<'a>(buffer: *mut u8, length: usize) -> &'a mut [u8] {
    if length == 0 {
        return &mut [];
    }
    // SAFETY: the caller's promise.
    unsafe { slice::from_raw_parts_mut(buffer, length) }
}

/// As [`open`](crate::open), for pointers, by the header's rule for buffers: null with length 0 is
/// an empty buffer, null with another length is answered [`Reply::Null`], and two buffers with a
/// byte in common are answered [`Reply::Overlap`].
///
/// # Safety
///
/// If `opening` isn't null and `opening_len` isn't 0, it points to that many initialised bytes, and
/// nobody writes them during the call. If `image` isn't null and `image_len` isn't 0, it points to
/// that many initialised bytes, and nobody else reads or writes them during the call.
pub unsafe fn open_raw(
    opening: *const u8,
    opening_len: usize,
    image: *mut u8,
    image_len: usize,
) -> Answer {
    if let Some(fault) = fault(opening, opening_len, image, image_len) {
        return Answer::from(fault);
    }
    // SAFETY: the caller's promise, and the two have no byte in common.
    unsafe { open_apart(lent(opening, opening_len), lent_mut(image, image_len)) }
}

/// As [`step`](crate::step), for pointers, by the same rule as [`open_raw`].
///
/// # Safety
///
/// That of [`open_raw`], with the round in the place of the opening.
pub unsafe fn step_raw(
    image: *mut u8,
    image_len: usize,
    round: *const u8,
    round_len: usize,
) -> Answer {
    if let Some(fault) = fault(image, image_len, round, round_len) {
        return Answer::from(fault);
    }
    // SAFETY: the caller's promise, and the two have no byte in common.
    unsafe { step_apart(lent_mut(image, image_len), lent(round, round_len)) }
}
