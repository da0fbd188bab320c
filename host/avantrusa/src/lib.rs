//! The judge for a host in Rust: it opens a run into an image and steps an image by one round.
//!
//! What the bytes of openings, images and rounds are, and what each number of an answer means, is
//! said in `include/avantrusa.h`, the header for a host in C; the numbers are the same. "Rule 11.2"
//! and the like are numbers of `docs/RULES.md`, the whole of what the judge does.
//!
//! ```
//! use avantrusa::{image_length, kind, open, step, Reply, A, RECORD};
//!
//! let opening = [
//!     [kind::SETUP, A, 3, 2, 2, 0, 0, 0],
//!     [kind::DEFAULT, 0, 0, 0, 0, 0, 0, 0],
//!     [kind::START, 0, 0, 0, 5, 0, 0, 0],
//!     [kind::START, 1, 0, 0, 5, 0, 0, 0],
//!     [kind::START, 2, 0, 0, 9, 0, 0, 0],
//! ];
//! let mut image = vec![0; image_length(3)];
//! assert!(open(opening.as_flattened(), &mut image).accepted());
//!
//! let too_short = [0; RECORD];
//! let answer = step(&mut image, &too_short);
//! assert_eq!(answer.reply(), Reply::Length);
//! ```

mod raw;
mod reply;
#[cfg(test)]
mod tests;

pub use raw::{open_raw, step_raw};
pub use reply::{Answer, Reply};

/// The bytes of a record (rule 1.7).
pub const RECORD: usize = 8;
/// The most stations that a run may have (rule 1.1).
pub const STATIONS: usize = 32;
/// The most rounds that a run may have (rule 1.2).
pub const ROUNDS: u32 = 4096;

/// The number of algorithm A in a setup record (rule 1.5).
pub const A: u8 = 1;
/// The number of algorithm U in a setup record (rule 1.5).
pub const U: u8 = 2;

/// The kinds of record (rule 2.4).
pub mod kind {
    pub const SETUP: u8 = 1;
    pub const DEFAULT: u8 = 2;
    pub const START: u8 = 3;
    pub const HEARD: u8 = 4;
    pub const HEARD_QUERY: u8 = 5;
    pub const LOST: u8 = 6;
    pub const CLOCK: u8 = 8;
    pub const ESTIMATE: u8 = 9;
    pub const NO_VOTE: u8 = 10;
    pub const VOTE: u8 = 11;
    pub const UNDECIDED: u8 = 12;
    pub const DECIDED: u8 = 13;
    pub const DECISION_ROUND: u8 = 14;
}

/// The bytes of an opening of n stations (rule 3.1).
pub const fn opening_length(n: usize) -> usize {
    RECORD * (2 + n)
}

/// The bytes of an image of n stations (rule 6.1).
pub const fn image_length(n: usize) -> usize {
    RECORD * (3 + 4 * n)
}

/// The bytes of a round of n stations (rule 4.3).
pub const fn round_length(n: usize) -> usize {
    RECORD * n * n
}

/// Opens a run: reads the opening and writes the image of the run at its starts (rule 12.10). A
/// refusal writes no byte.
pub fn open(opening: &[u8], image: &mut [u8]) -> Answer {
    raw::open_apart(opening, image)
}

/// Offers one round to the run of an image, and rewrites the image if the round is accepted (rule
/// 12.11). A refusal writes no byte.
pub fn step(image: &mut [u8], round: &[u8]) -> Answer {
    raw::step_apart(image, round)
}
