//! Damage to bytes that were good.

use crate::random::Random;
use independent::{kind, Run};

const RECORD: usize = Run::RECORD;
const KINDS: u8 = 17;

/// Any part: a byte changed, records exchanged, cut short, too long.
pub fn any(random: &mut Random, bytes: &mut Vec<u8>) {
    match random.below(8) {
        0 | 1 => change_byte(random, bytes),
        2 => change_kind(random, bytes),
        3 => exchange_records(random, bytes),
        4 => bytes.truncate(bytes.len().saturating_sub(random.pick(&[1, 7, 8, 16]))),
        5 => bytes.truncate(random.below(bytes.len() + 1)),
        6 => bytes.extend(vec![0; random.pick(&[1, 7, 8, 16])]),
        _ => {
            let length = random.between(1, 100);
            bytes.extend(random.bytes(length));
        }
    }
}

fn change_byte(random: &mut Random, bytes: &mut [u8]) {
    if bytes.is_empty() {
        return;
    }
    let place = random.below(bytes.len());
    let new = [bytes[place] ^ 1 << random.below(8), bytes[place].wrapping_add(1), 0, random.byte()];
    bytes[place] = random.pick(&new);
}

fn change_kind(random: &mut Random, bytes: &mut [u8]) {
    let records = bytes.len() / RECORD;
    if records > 0 {
        bytes[RECORD * random.below(records)] = random.byte() % KINDS;
    }
}

fn exchange_records(random: &mut Random, bytes: &mut [u8]) {
    let records = bytes.len() / RECORD;
    if records == 0 {
        return;
    }
    let (j, k) = (random.below(records), random.below(records));
    for byte in 0..RECORD {
        bytes.swap(RECORD * j + byte, RECORD * k + byte);
    }
}

/// The setup that begins an opening or an image: near the inequalities, or out of range.
pub fn setup(random: &mut Random, bytes: &mut [u8]) {
    let place = random.between(1, 5);
    let near = [bytes[place].wrapping_sub(1), bytes[place].wrapping_add(1)];
    bytes[place] = match random.below(8) {
        0 => random.pick(&[0, 1, 2, 3, 32, 33, 255]),
        1 => random.byte(),
        _ => random.pick(&near),
    };
}

/// A record of a round says "?" where it stands.
pub fn query(random: &mut Random, round: &mut [u8]) {
    let k = random.below(round.len() / RECORD);
    let record = &mut round[RECORD * k..RECORD * (k + 1)];
    record[0] = kind::HEARD_QUERY;
    record[4..].fill(0);
}

/// A well formed image of n stations, of which a record breaks the rules of a run or nearly does
/// (rule 6.5).
pub fn rule(random: &mut Random, image: &mut [u8], n: usize, clock: u32) {
    let p = random.below(n);
    let near_clock = [clock.wrapping_sub(1), clock, clock + 1, clock + 2];
    let low = random.below(4) as u32;
    let (k, kind, number) = match random.below(6) {
        0 => (2, kind::CLOCK, random.pick(&[Run::ROUNDS, Run::ROUNDS + 1, 1 << 16, u32::MAX])),
        1 => (2, kind::CLOCK, random.pick(&near_clock)),
        2 => (3 + n + p, kind::VOTE, low),
        3 => (3 + 2 * n + p, random.pick(&[kind::DECIDED, kind::UNDECIDED]), 0),
        4 => (3 + 3 * n + p, kind::DECISION_ROUND, random.pick(&near_clock)),
        _ => (3 + 3 * n + p, kind::DECISION_ROUND, low),
    };
    let record = &mut image[RECORD * k..RECORD * (k + 1)];
    record[0] = kind;
    record[4..].copy_from_slice(&number.to_le_bytes());
}
