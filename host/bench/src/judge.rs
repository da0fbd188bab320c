//! The judge's entries, from its archive. Each part is handed over as a pointer and a length.

mod archive {
    extern "C" {
        pub fn judge_open(
            opening: *const u8,
            opening_length: usize,
            image: *mut u8,
            image_length: usize,
        ) -> u64;
        pub fn judge_step(
            image: *mut u8,
            image_length: usize,
            round: *const u8,
            round_length: usize,
        ) -> u64;
    }
}

pub fn open(opening: &[u8], image: &mut [u8]) -> u64 {
    // SAFETY: both parts live through the call, and they do not overlap, since one is lent for writing.
    unsafe { archive::judge_open(opening.as_ptr(), opening.len(), image.as_mut_ptr(), image.len()) }
}

pub fn step(image: &mut [u8], round: &[u8]) -> u64 {
    // SAFETY: as above.
    unsafe { archive::judge_step(image.as_mut_ptr(), image.len(), round.as_ptr(), round.len()) }
}
