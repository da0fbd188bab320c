//! Answers, and the replies that they stand for.

use std::error::Error;
use std::fmt;

/// The numbers of an answer, as the header names them (section 11; rules 15.10 and 15.11).
pub(crate) mod number {
    pub const ACCEPTED: u32 = 0;
    pub const LENGTH: u32 = 1;
    pub const MALFORMED: u32 = 2;
    pub const RANGE: u32 = 3;
    pub const INEQUALITY: u32 = 4;
    pub const QUERY: u32 = 5;
    pub const ALTERED: u32 = 6;
    pub const UNSAFE: u32 = 7;
    pub const FULL: u32 = 8;
    pub const BUFFER: u32 = 9;
    pub const RULES: u32 = 10;
    pub const NULL: u32 = 0xFFFF_FFFE;
    pub const OVERLAP: u32 = 0xFFFF_FFFF;
}

/// What an entry answers: a number in the low 32 bits, a place in the high 32 (rule 15.2).
#[derive(Clone, Copy, Debug, PartialEq, Eq, Hash)]
#[must_use]
pub struct Answer(u64);

impl Answer {
    pub fn number(self) -> u32 {
        self.0 as u32
    }

    pub fn place(self) -> u32 {
        (self.0 >> 32) as u32
    }

    pub fn accepted(self) -> bool {
        self.reply() == Reply::Accepted
    }

    pub fn reply(self) -> Reply {
        Reply::from(self)
    }

    /// A refusal is an error.
    pub fn result(self) -> Result<(), Reply> {
        match self.reply() {
            Reply::Accepted => Ok(()),
            refusal => Err(refusal),
        }
    }
}

impl From<u64> for Answer {
    fn from(bits: u64) -> Answer {
        Answer(bits)
    }
}

impl From<Answer> for u64 {
    fn from(answer: Answer) -> u64 {
        answer.0
    }
}

impl From<Reply> for Answer {
    fn from(reply: Reply) -> Answer {
        let (number, place) = reply.number_and_place();
        Answer(u64::from(place) << 32 | u64::from(number))
    }
}

impl fmt::Display for Answer {
    fn fmt(&self, f: &mut fmt::Formatter<'_>) -> fmt::Result {
        self.reply().fmt(f)
    }
}

/// What an answer says; reply k is rule 11.k. Records, receivers and buffers are counted from 0.
///
/// A step reads its image first and then its round; `Length` and `Malformed` don't tell which of
/// the two was at fault (rule 15.4).
#[derive(Clone, Copy, Debug, PartialEq, Eq, Hash)]
#[non_exhaustive]
pub enum Reply {
    /// 0: the image is written.
    Accepted,
    /// 1: a buffer to be read has the wrong length.
    Length,
    /// 2: a record that isn't well formed (rule 2.6), or a default other than 0 under A.
    Malformed { record: u32 },
    /// 3: the algorithm isn't A or U, or n isn't 1 to 32 (rule 10.1).
    Range,
    /// 4: the setup breaks an inequality (rules 10.2 to 10.6).
    Inequality,
    /// 5: "?" outside a vote round (rule 4.6).
    Query { record: u32 },
    /// 6: the lowest receiver with more than alpha altered frames (rule 10.8).
    Altered { receiver: u32 },
    /// 7: the lowest receiver that, under U, heard too few frames as they were sent (rule 10.9).
    Unsafe { receiver: u32 },
    /// 8: the run has had all its rounds.
    Full,
    /// 9: the buffer for the image hasn't the exact length.
    Buffer,
    /// 10: the first well formed record of the image that breaks a rule of a run (rule 6.5).
    Rules { record: u32 },
    /// The judge wasn't asked: the first (0) or second (1) buffer is null and its length isn't 0
    /// (rule 15.10).
    Null { buffer: u32 },
    /// The judge wasn't asked: the two buffers have a byte in common (rule 15.11).
    Overlap,
    /// A number that this crate doesn't know, or a place that doesn't go with the number.
    Unknown { number: u32, place: u32 },
}

impl Reply {
    fn number_and_place(self) -> (u32, u32) {
        match self {
            Reply::Accepted => (number::ACCEPTED, 0),
            Reply::Length => (number::LENGTH, 0),
            Reply::Malformed { record } => (number::MALFORMED, record),
            Reply::Range => (number::RANGE, 0),
            Reply::Inequality => (number::INEQUALITY, 0),
            Reply::Query { record } => (number::QUERY, record),
            Reply::Altered { receiver } => (number::ALTERED, receiver),
            Reply::Unsafe { receiver } => (number::UNSAFE, receiver),
            Reply::Full => (number::FULL, 0),
            Reply::Buffer => (number::BUFFER, 0),
            Reply::Rules { record } => (number::RULES, record),
            Reply::Null { buffer } => (number::NULL, buffer),
            Reply::Overlap => (number::OVERLAP, 0),
            Reply::Unknown { number, place } => (number, place),
        }
    }
}

impl From<Answer> for Reply {
    fn from(answer: Answer) -> Reply {
        match (answer.number(), answer.place()) {
            (number::ACCEPTED, 0) => Reply::Accepted,
            (number::LENGTH, 0) => Reply::Length,
            (number::MALFORMED, record) => Reply::Malformed { record },
            (number::RANGE, 0) => Reply::Range,
            (number::INEQUALITY, 0) => Reply::Inequality,
            (number::QUERY, record) => Reply::Query { record },
            (number::ALTERED, receiver) => Reply::Altered { receiver },
            (number::UNSAFE, receiver) => Reply::Unsafe { receiver },
            (number::FULL, 0) => Reply::Full,
            (number::BUFFER, 0) => Reply::Buffer,
            (number::RULES, record) => Reply::Rules { record },
            (number::NULL, buffer) => Reply::Null { buffer },
            (number::OVERLAP, 0) => Reply::Overlap,
            (number, place) => Reply::Unknown { number, place },
        }
    }
}

impl From<u64> for Reply {
    fn from(bits: u64) -> Reply {
        Reply::from(Answer(bits))
    }
}

impl Error for Reply {}

impl fmt::Display for Reply {
    fn fmt(&self, f: &mut fmt::Formatter<'_>) -> fmt::Result {
        match *self {
            Reply::Accepted => return write!(f, "accepted"),
            Reply::Null { .. } | Reply::Overlap => write!(f, "not judged: ")?,
            Reply::Unknown { .. } => {}
            _ => write!(f, "refused with {}: ", self.number_and_place().0)?,
        }
        self.explain(f)
    }
}

/// What is needed in the place of what was refused.
mod need {
    pub const LENGTH: &str =
        "an opening must have 8(2 + n) bytes, an image 8(3 + 4n) and a round 8n\u{b2}";
    pub const RECORD: &str = "has a wrong kind or station, or a byte that must be zero and isn't; \
                              under A the default must be 0";
    pub const RANGE: &str = "the algorithm must be 1 (A) or 2 (U), and n must be 1 to 32";
    pub const INEQUALITY: &str = "the setup must have n > E and n > T; under A, \
                                  T >= 2(n + 2 alpha - E); under U, 2E >= n + 2 alpha and \
                                  2T >= n + 2 alpha";
    pub const VOTE_ROUND: &str =
        "is a \"?\", and this isn't a vote round; only U's even rounds are";
    pub const SAFE: &str = "has too few frames as they were sent; U needs more than the largest \
                            of T, alpha and n + 2 alpha - E - 1";
    pub const BUFFER: &str = "the buffer for the image must have exactly 8(3 + 4n) bytes";
    pub const RULES: &str = "breaks a rule of a run: a clock above 4096, a vote that isn't \"?\" \
                             under A or at an even clock, or a decision and a round that don't go \
                             together";
}

impl Reply {
    /// What was wrong, where, and what is needed instead.
    fn explain(self, f: &mut fmt::Formatter<'_>) -> fmt::Result {
        match self {
            Reply::Accepted => Ok(()),
            Reply::Length => write!(f, "{}", need::LENGTH),
            Reply::Malformed { record } => {
                write!(f, "record {record}, counted from 0, {}", need::RECORD)
            }
            Reply::Range => write!(f, "{}", need::RANGE),
            Reply::Inequality => write!(f, "{}", need::INEQUALITY),
            Reply::Query { record } => {
                write!(f, "record {record}, counted from 0, {}", need::VOTE_ROUND)
            }
            Reply::Altered { receiver } => {
                write!(f, "receiver {receiver} has more altered frames than alpha allows")
            }
            Reply::Unsafe { receiver } => write!(f, "receiver {receiver} {}", need::SAFE),
            Reply::Full => write!(f, "the run has had its {} rounds; open another", crate::ROUNDS),
            Reply::Buffer => write!(f, "{}", need::BUFFER),
            Reply::Rules { record } => {
                write!(f, "record {record} of the image, counted from 0, {}", need::RULES)
            }
            Reply::Null { buffer } => {
                write!(f, "buffer {buffer}, counted from 0, is null and its length isn't 0")
            }
            Reply::Overlap => write!(f, "the two buffers overlap"),
            Reply::Unknown { number, place } => {
                write!(f, "unknown answer {number} at {place}: is the judge newer than its host?")
            }
        }
    }
}
