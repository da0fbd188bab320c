//! A second judge, for tests alone. It is written from the rules on paper and shares no code
//! with the judge under test, so that the answers of the two can be compared. It is kept plain:
//! counts are kept in a sorted map, records are checked one by one, nothing is clever.
//!
//! "Rule 8.2" and the like are numbers of `docs/RULES.md`.

#![forbid(unsafe_code)]
// Stations are named by number, and loops go over these numbers.
#![allow(clippy::needless_range_loop)]

use std::collections::BTreeMap;
use std::fmt;

#[cfg(test)]
mod tests;

/// The number of algorithm A in a setup record (rule 1.5).
pub const A: u8 = 1;
/// The number of algorithm U in a setup record (rule 1.5).
pub const U: u8 = 2;

/// The kinds of record (rule 2.4).
pub mod kind {
    pub const SETUP: u8 = 1;
    pub const DEFAULT: u8 = 2;
    pub const START: u8 = 3;
    pub const HEARD: u8 = 4;
    pub const HEARD_QUERY: u8 = 5;
    pub const LOST: u8 = 6;
    pub const CLOCK: u8 = 8;
    pub const ESTIMATE: u8 = 9;
    pub const NO_VOTE: u8 = 10;
    pub const VOTE: u8 = 11;
    pub const UNDECIDED: u8 = 12;
    pub const DECIDED: u8 = 13;
    pub const DECISION_ROUND: u8 = 14;
}

/// The answer to a call: 0 is "accepted", 1 to 10 are the refusals, each with its place (section
/// 11).
#[derive(Clone, Copy, Debug, PartialEq, Eq)]
pub struct Reply {
    pub number: u32,
    pub place: u32,
}

impl Reply {
    pub const ACCEPTED: Reply = Reply { number: 0, place: 0 };

    pub fn accepted(self) -> bool {
        self == Reply::ACCEPTED
    }

    /// The number in the low 32 bits, the place in the high 32 (rule 15.2).
    pub fn packed(self) -> u64 {
        u64::from(self.place) << 32 | u64::from(self.number)
    }
}

impl fmt::Display for Reply {
    fn fmt(&self, f: &mut fmt::Formatter<'_>) -> fmt::Result {
        write!(f, "{} at {}", self.number, self.place)
    }
}

fn refuse<T>(number: u32, place: usize) -> Result<T, Reply> {
    Err(Reply { number, place: place as u32 })
}

/// What a receiver got from one sender in one round (rule 4.1).
#[derive(Clone, Copy, Debug, PartialEq, Eq)]
pub enum Cell {
    Lost,
    Value(u32),
    Query,
}

/// The cells of a round: a row for each receiver, in it a cell for each sender (rule 4.7).
pub type Matrix = [[Cell; Run::STATIONS]; Run::STATIONS];
pub const ALL_LOST: Matrix = [[Cell::Lost; Run::STATIONS]; Run::STATIONS];

/// The sets of all receivers, with bit q for sender q (rule 7.8).
pub type Sets = [u32; Run::STATIONS];
pub const EMPTY: Sets = [0; Run::STATIONS];

/// For each station, the value for which the decide rule fired in a round (rules 8.4 and 9.8).
pub type Fired = [Option<u32>; Run::STATIONS];
pub const NONE_FIRED: Fired = [None; Run::STATIONS];

#[derive(Clone, Copy, Debug, PartialEq, Eq)]
pub struct Setup {
    pub algorithm: u8,
    pub n: u8,
    pub t: u8,
    pub e: u8,
    pub alpha: u8,
}

impl Setup {
    /// Refusal 3, then refusal 4 (rules 10.1 to 10.7).
    pub fn check(self) -> Result<(), Reply> {
        if self.algorithm != A && self.algorithm != U {
            return refuse(3, 0);
        }
        if self.n == 0 || self.stations() > Run::STATIONS {
            return refuse(3, 0);
        }
        let [n, t, e, alpha] = [self.n, self.t, self.e, self.alpha].map(i32::from);
        let bounds = if self.algorithm == A {
            t >= 2 * (n + 2 * alpha - e)
        } else {
            2 * e >= n + 2 * alpha && 2 * t >= n + 2 * alpha
        };
        if n > e && n > t && bounds {
            Ok(())
        } else {
            refuse(4, 0)
        }
    }

    /// The number of stations, as it stands in the setup.
    pub fn stations(self) -> usize {
        usize::from(self.n)
    }

    pub fn opening_length(self) -> usize {
        Run::RECORD * (2 + self.stations())
    }

    pub fn image_length(self) -> usize {
        Run::RECORD * (3 + 4 * self.stations())
    }

    pub fn round_length(self) -> usize {
        Run::RECORD * self.stations() * self.stations()
    }

    /// Under U: |SHO(p)| must be larger than this (rule 10.9).
    fn safe_bound(self) -> i32 {
        let [n, t, e, alpha] = [self.n, self.t, self.e, self.alpha].map(i32::from);
        (n + 2 * alpha - e - 1).max(t).max(alpha)
    }
}

/// A run as it is handed in (rule 5.1): nothing says that it keeps the rules of a run. Flags and
/// numbers are kept apart, so that a number beside "?" or beside "undecided" can be told.
#[derive(Clone, Copy, Debug, PartialEq, Eq)]
pub struct Run {
    pub setup: Setup,
    pub default: u32,
    pub clock: u32,
    pub estimates: [u32; Run::STATIONS],
    pub voted: [bool; Run::STATIONS],
    pub votes: [u32; Run::STATIONS],
    pub decided: [bool; Run::STATIONS],
    pub decisions: [u32; Run::STATIONS],
    pub rounds: [u32; Run::STATIONS],
}

impl Run {
    pub const STATIONS: usize = 32;
    pub const ROUNDS: u32 = 4096;
    pub const RECORD: usize = 8;

    /// The idle run (rule 5.10).
    pub const IDLE: Run = Run {
        setup: Setup { algorithm: 0, n: 0, t: 0, e: 0, alpha: 0 },
        default: 0,
        clock: 0,
        estimates: [0; Run::STATIONS],
        voted: [false; Run::STATIONS],
        votes: [0; Run::STATIONS],
        decided: [false; Run::STATIONS],
        decisions: [0; Run::STATIONS],
        rounds: [0; Run::STATIONS],
    };

    /// Whether the next round is a vote round: under U, a round with an even number (rule 4.2).
    pub fn votes_next(&self) -> bool {
        self.setup.algorithm == U && self.clock % 2 == 1
    }

    /// What station q is to send in the next round (rule 7.2).
    pub fn sends(&self, q: usize) -> Cell {
        if !self.votes_next() {
            Cell::Value(self.estimates[q])
        } else if self.voted[q] {
            Cell::Value(self.votes[q])
        } else {
            Cell::Query
        }
    }
}

// Records: section 2

fn record(bytes: &[u8], k: usize) -> &[u8] {
    &bytes[Run::RECORD * k..Run::RECORD * (k + 1)]
}

fn number(record: &[u8]) -> u32 {
    u32::from_le_bytes([record[4], record[5], record[6], record[7]])
}

/// A record of this kind, with these bytes 1 and 2 and this number; byte 3 is zero in all
/// records but the setup.
fn made(kind: u8, first: usize, second: usize, value: u32) -> [u8; Run::RECORD] {
    let v = value.to_le_bytes();
    [kind, first as u8, second as u8, 0, v[0], v[1], v[2], v[3]]
}

/// Whether the record is of this kind, with these bytes 1 and 2, byte 3 zero, any number (rule
/// 2.6).
fn fits(record: &[u8], kind: u8, first: usize, second: usize) -> bool {
    record == made(kind, first, second, number(record))
}

/// As `fits`, and the number is zero too (rule 2.8).
fn fits_bare(record: &[u8], kind: u8, first: usize, second: usize) -> bool {
    record == made(kind, first, second, 0)
}

/// The setup record that begins an opening and an image: 1, 2, 3, 4 in that order (rules 12.1 and
/// 12.3).
fn read_setup(bytes: &[u8]) -> Result<Setup, Reply> {
    if bytes.len() < Run::RECORD {
        return refuse(1, 0);
    }
    let r = record(bytes, 0);
    if r[0] != kind::SETUP || r[6] != 0 || r[7] != 0 {
        return refuse(2, 0);
    }
    let setup = Setup { algorithm: r[1], n: r[2], t: r[3], e: r[4], alpha: r[5] };
    setup.check()?;
    Ok(setup)
}

/// The default record, number 1 in an opening and in an image (rule 3.2).
fn read_default(setup: Setup, bytes: &[u8]) -> Result<u32, Reply> {
    let r = record(bytes, 1);
    if !fits(r, kind::DEFAULT, 0, 0) || setup.algorithm == A && number(r) != 0 {
        return refuse(2, 1);
    }
    Ok(number(r))
}

fn setup_and_default(setup: Setup, default: u32) -> Vec<u8> {
    let Setup { algorithm, n, t, e, alpha } = setup;
    let mut bytes = vec![kind::SETUP, algorithm, n, t, e, alpha, 0, 0];
    bytes.extend(made(kind::DEFAULT, 0, 0, default));
    bytes
}

/// Refusal 9, or the bytes go into the buffer (rule 11.9).
fn deliver(bytes: &[u8], buffer: &mut [u8]) -> Result<(), Reply> {
    if bytes.len() != buffer.len() {
        return refuse(9, 0);
    }
    buffer.copy_from_slice(bytes);
    Ok(())
}

fn reply(result: Result<(), Reply>) -> Reply {
    result.err().unwrap_or(Reply::ACCEPTED)
}

fn reply_and<T>(result: Result<T, Reply>, refused: T) -> (Reply, T) {
    match result {
        Ok(answer) => (Reply::ACCEPTED, answer),
        Err(reply) => (reply, refused),
    }
}

// Openings: section 3

/// Rules 3.3, 3.4 and 12.1.
pub fn open(bytes: &[u8]) -> (Reply, Run) {
    reply_and(try_open(bytes), Run::IDLE)
}

fn try_open(bytes: &[u8]) -> Result<Run, Reply> {
    let setup = read_setup(bytes)?;
    if bytes.len() != setup.opening_length() {
        return refuse(1, 0);
    }
    let mut run = Run { setup, ..Run::IDLE };
    run.default = read_default(setup, bytes)?;
    for p in 0..setup.stations() {
        let r = record(bytes, 2 + p);
        if !fits(r, kind::START, p, 0) {
            return refuse(2, 2 + p);
        }
        run.estimates[p] = number(r);
    }
    Ok(run)
}

/// Rules 3.5 and 12.2.
pub fn write_opening(
    setup: Setup,
    default: u32,
    starts: [u32; Run::STATIONS],
    buffer: &mut [u8],
) -> Reply {
    reply(try_write_opening(setup, default, starts, buffer))
}

fn try_write_opening(
    setup: Setup,
    default: u32,
    starts: [u32; Run::STATIONS],
    buffer: &mut [u8],
) -> Result<(), Reply> {
    setup.check()?;
    let n = setup.stations();
    if setup.algorithm == A && default != 0 {
        return refuse(2, 1);
    }
    if starts[n..].iter().any(|&start| start != 0) {
        return refuse(2, 2 + n);
    }
    let mut bytes = setup_and_default(setup, default);
    for (p, &start) in starts[..n].iter().enumerate() {
        bytes.extend(made(kind::START, p, 0, start));
    }
    deliver(&bytes, buffer)
}

// Runs and images: sections 5 and 6

/// Whether the run keeps the rules of a run (rules 5.2 to 5.9).
pub fn sound(run: &Run) -> bool {
    if run.setup.check().is_err() {
        return false;
    }
    let n = run.setup.stations();
    let empty_above = (n..Run::STATIONS).all(|p| {
        run.estimates[p] == 0
            && !run.voted[p]
            && run.votes[p] == 0
            && !run.decided[p]
            && run.decisions[p] == 0
            && run.rounds[p] == 0
    });
    let no_stray_number = (0..n)
        .all(|p| (run.voted[p] || run.votes[p] == 0) && (run.decided[p] || run.decisions[p] == 0));
    let default_kept = run.setup.algorithm == U || run.default == 0;
    empty_above && no_stray_number && default_kept && first_fault(run).is_none()
}

/// The first record of the run's image that breaks a rule of a run although it is well formed:
/// the clock's, then a vote's, then a decision round's (rule 6.5). The setup is acceptable.
fn first_fault(run: &Run) -> Option<usize> {
    let n = run.setup.stations();
    let vote_may_stand = run.setup.algorithm == U && run.clock % 2 == 1;
    if run.clock > Run::ROUNDS {
        return Some(2);
    }
    if let Some(p) = (0..n).find(|&p| run.voted[p] && !vote_may_stand) {
        return Some(3 + n + p);
    }
    for p in 0..n {
        let round = run.rounds[p];
        let kept = if run.decided[p] {
            1 <= round
                && round <= run.clock
                && (run.setup.algorithm == A || round.is_multiple_of(2))
        } else {
            round == 0
        };
        if !kept {
            return Some(3 + 3 * n + p);
        }
    }
    None
}

/// Refusal 10 at 0 (rule 5.12).
fn must_be_sound(run: &Run) -> Result<(), Reply> {
    if sound(run) {
        Ok(())
    } else {
        refuse(10, 0)
    }
}

/// Rules 6.3, 6.6 and 12.3.
pub fn load(image: &[u8]) -> (Reply, Run) {
    reply_and(try_load(image), Run::IDLE)
}

fn try_load(image: &[u8]) -> Result<Run, Reply> {
    let setup = read_setup(image)?;
    if image.len() != setup.image_length() {
        return refuse(1, 0);
    }
    let n = setup.stations();
    let mut run = Run { setup, ..Run::IDLE };
    run.default = read_default(setup, image)?;
    let clock = record(image, 2);
    if !fits(clock, kind::CLOCK, 0, 0) {
        return refuse(2, 2);
    }
    run.clock = number(clock);
    for p in 0..n {
        let k = 3 + p;
        let r = record(image, k);
        if !fits(r, kind::ESTIMATE, p, 0) {
            return refuse(2, k);
        }
        run.estimates[p] = number(r);
    }
    for p in 0..n {
        let k = 3 + n + p;
        let r = record(image, k);
        if fits(r, kind::VOTE, p, 0) {
            run.voted[p] = true;
            run.votes[p] = number(r);
        } else if !fits_bare(r, kind::NO_VOTE, p, 0) {
            return refuse(2, k);
        }
    }
    for p in 0..n {
        let k = 3 + 2 * n + p;
        let r = record(image, k);
        if fits(r, kind::DECIDED, p, 0) {
            run.decided[p] = true;
            run.decisions[p] = number(r);
        } else if !fits_bare(r, kind::UNDECIDED, p, 0) {
            return refuse(2, k);
        }
    }
    for p in 0..n {
        let k = 3 + 3 * n + p;
        let r = record(image, k);
        if !fits(r, kind::DECISION_ROUND, p, 0) {
            return refuse(2, k);
        }
        run.rounds[p] = number(r);
    }
    match first_fault(&run) {
        Some(k) => refuse(10, k),
        None => Ok(run),
    }
}

/// Rules 6.7 and 12.4.
pub fn save(run: &Run, buffer: &mut [u8]) -> Reply {
    reply(try_save(run, buffer))
}

fn try_save(run: &Run, buffer: &mut [u8]) -> Result<(), Reply> {
    must_be_sound(run)?;
    let n = run.setup.stations();
    let mut bytes = setup_and_default(run.setup, run.default);
    bytes.extend(made(kind::CLOCK, 0, 0, run.clock));
    for p in 0..n {
        bytes.extend(made(kind::ESTIMATE, p, 0, run.estimates[p]));
    }
    for p in 0..n {
        let kind = if run.voted[p] { kind::VOTE } else { kind::NO_VOTE };
        bytes.extend(made(kind, p, 0, run.votes[p]));
    }
    for p in 0..n {
        let kind = if run.decided[p] { kind::DECIDED } else { kind::UNDECIDED };
        bytes.extend(made(kind, p, 0, run.decisions[p]));
    }
    for p in 0..n {
        bytes.extend(made(kind::DECISION_ROUND, p, 0, run.rounds[p]));
    }
    deliver(&bytes, buffer)
}

// Rounds: section 4

/// Rule 12.5.
pub fn read_round(run: &Run, bytes: &[u8]) -> (Reply, Matrix) {
    reply_and(try_read_round(run, bytes), ALL_LOST)
}

fn try_read_round(run: &Run, bytes: &[u8]) -> Result<Matrix, Reply> {
    must_be_sound(run)?;
    if bytes.len() != run.setup.round_length() {
        return refuse(1, 0);
    }
    let n = run.setup.stations();
    let mut matrix = ALL_LOST;
    for p in 0..n {
        for q in 0..n {
            let k = n * p + q;
            let r = record(bytes, k);
            matrix[p][q] = if fits(r, kind::HEARD, p, q) {
                Cell::Value(number(r))
            } else if fits_bare(r, kind::HEARD_QUERY, p, q) {
                if !run.votes_next() {
                    return refuse(5, k);
                }
                Cell::Query
            } else if fits_bare(r, kind::LOST, p, q) {
                Cell::Lost
            } else {
                return refuse(2, k);
            };
        }
    }
    Ok(matrix)
}

/// Rules 4.9 and 12.7.
pub fn write_round(run: &Run, matrix: &Matrix, buffer: &mut [u8]) -> Reply {
    reply(try_write_round(run, matrix, buffer))
}

fn try_write_round(run: &Run, matrix: &Matrix, buffer: &mut [u8]) -> Result<(), Reply> {
    must_be_sound(run)?;
    let n = run.setup.stations();
    let mut bytes = Vec::new();
    for (p, row) in matrix[..n].iter().enumerate() {
        for (q, cell) in row[..n].iter().enumerate() {
            bytes.extend(match *cell {
                Cell::Value(value) => made(kind::HEARD, p, q, value),
                Cell::Query if !run.votes_next() => return refuse(5, n * p + q),
                Cell::Query => made(kind::HEARD_QUERY, p, q, 0),
                Cell::Lost => made(kind::LOST, p, q, 0),
            });
        }
    }
    for (p, row) in matrix.iter().enumerate() {
        for (q, cell) in row.iter().enumerate() {
            if (p >= n || q >= n) && *cell != Cell::Lost {
                return refuse(2, n * n);
            }
        }
    }
    deliver(&bytes, buffer)
}

/// HO and SHO, receiver by receiver (rules 7.1 and 7.3).
fn sets(run: &Run, matrix: &Matrix) -> (Sets, Sets) {
    let n = run.setup.stations();
    let (mut ho, mut sho) = (EMPTY, EMPTY);
    for p in 0..n {
        for q in 0..n {
            let cell = matrix[p][q];
            if cell != Cell::Lost {
                ho[p] |= 1 << q;
                if cell == run.sends(q) {
                    sho[p] |= 1 << q;
                }
            }
        }
    }
    (ho, sho)
}

/// Rules 7.9 and 12.6.
pub fn survey(run: &Run, bytes: &[u8]) -> (Reply, Sets, Sets) {
    match try_read_round(run, bytes) {
        Ok(matrix) => {
            let (ho, sho) = sets(run, &matrix);
            (Reply::ACCEPTED, ho, sho)
        }
        Err(reply) => (reply, EMPTY, EMPTY),
    }
}

// Playing: sections 8, 9 and 13

/// What one round leaves at one station.
struct Outcome {
    estimate: u32,
    vote: Option<u32>,
    fired: Option<u32>,
}

/// How often each value was received; neither a lost cell nor "?" is a value (rule 7.10).
fn tally(row: &[Cell]) -> BTreeMap<u32, u32> {
    let mut counts = BTreeMap::new();
    for cell in row {
        if let Cell::Value(value) = cell {
            *counts.entry(*value).or_insert(0) += 1;
        }
    }
    counts
}

/// The smallest value received more than `limit` times.
fn more_than(counts: &BTreeMap<u32, u32>, limit: u8) -> Option<u32> {
    counts.iter().find(|(_, &count)| count > u32::from(limit)).map(|(&value, _)| value)
}

/// The smallest of the values received most often.
fn most_often(counts: &BTreeMap<u32, u32>) -> Option<u32> {
    let most = counts.values().max()?;
    counts.iter().find(|(_, count)| *count == most).map(|(&value, _)| value)
}

/// Algorithm 1, lines 7 to 10 (rules 8.2 to 8.6).
fn round_of_a(run: &Run, p: usize, row: &[Cell]) -> Outcome {
    let counts = tally(row);
    let heard = row.iter().filter(|cell| **cell != Cell::Lost).count();
    let estimate = if heard > usize::from(run.setup.t) { most_often(&counts) } else { None };
    Outcome {
        estimate: estimate.unwrap_or(run.estimates[p]),
        vote: None,
        fired: more_than(&counts, run.setup.e),
    }
}

/// Algorithm 2, lines 8 and 9 (rules 9.3 and 9.4).
fn value_round_of_u(run: &Run, p: usize, row: &[Cell]) -> Outcome {
    let vote = more_than(&tally(row), run.setup.t);
    Outcome { estimate: run.estimates[p], vote, fired: None }
}

/// Algorithm 2, lines 14 to 20 (rules 9.6 to 9.9); at least alpha + 1 is more than alpha.
fn vote_round_of_u(run: &Run, row: &[Cell]) -> Outcome {
    let counts = tally(row);
    Outcome {
        estimate: more_than(&counts, run.setup.alpha).unwrap_or(run.default),
        vote: None,
        fired: more_than(&counts, run.setup.e),
    }
}

/// One round (rules 12.8, 9.10 and 9.11). Where it is refused the run comes back as it was, nothing
/// fired and the sets are empty.
pub fn step(run: &Run, bytes: &[u8]) -> (Reply, Run, Fired, Sets, Sets) {
    match try_step(run, bytes) {
        Ok((after, fired, ho, sho)) => (Reply::ACCEPTED, after, fired, ho, sho),
        Err(reply) => (reply, *run, NONE_FIRED, EMPTY, EMPTY),
    }
}

fn try_step(run: &Run, bytes: &[u8]) -> Result<(Run, Fired, Sets, Sets), Reply> {
    must_be_sound(run)?;
    if run.clock >= Run::ROUNDS {
        return refuse(8, 0);
    }
    let matrix = try_read_round(run, bytes)?;
    let n = run.setup.stations();
    let (ho, sho) = sets(run, &matrix);
    for p in 0..n {
        let altered = ho[p] & !sho[p];
        if altered.count_ones() > u32::from(run.setup.alpha) {
            return refuse(6, p);
        }
    }
    for p in 0..n {
        let safe = sho[p].count_ones() as i32;
        if run.setup.algorithm == U && safe <= run.setup.safe_bound() {
            return refuse(7, p);
        }
    }
    let mut after = *run;
    let mut fired = NONE_FIRED;
    after.clock = run.clock + 1;
    for p in 0..n {
        let row = &matrix[p][..n];
        let outcome = if run.setup.algorithm == A {
            round_of_a(run, p, row)
        } else if run.votes_next() {
            vote_round_of_u(run, row)
        } else {
            value_round_of_u(run, p, row)
        };
        after.estimates[p] = outcome.estimate;
        after.voted[p] = outcome.vote.is_some();
        after.votes[p] = outcome.vote.unwrap_or(0);
        fired[p] = outcome.fired;
        if let (Some(value), false) = (outcome.fired, run.decided[p]) {
            after.decided[p] = true;
            after.decisions[p] = value;
            after.rounds[p] = after.clock;
        }
    }
    Ok((after, fired, ho, sho))
}

/// The part to be offered next: the bytes of a round, or all there is if that is less (rule 13.3).
fn next_part<'a>(run: &Run, tape: &'a [u8]) -> (&'a [u8], &'a [u8]) {
    tape.split_at(run.setup.round_length().min(tape.len()))
}

/// Many rounds: the reply to the last one, the run after it, the number of rounds accepted (rules
/// 12.9 and 13.4 to 13.8).
pub fn play(run: &Run, tape: &[u8]) -> (Reply, Run, u32) {
    if let Err(reply) = must_be_sound(run) {
        return (reply, *run, 0);
    }
    let (mut run, mut tape, mut accepted) = (*run, tape, 0);
    while !tape.is_empty() {
        let (part, rest) = next_part(&run, tape);
        let (reply, after, ..) = step(&run, part);
        if !reply.accepted() {
            return (reply, run, accepted);
        }
        (run, tape, accepted) = (after, rest, accepted + 1);
    }
    (Reply::ACCEPTED, run, accepted)
}

// The switch: section 15

/// Opens a run into a lent image (rule 12.10).
pub fn judge_open(opening: &[u8], image: &mut [u8]) -> u64 {
    reply(try_open(opening).and_then(|run| try_save(&run, image))).packed()
}

/// Steps a lent image by one round (rule 12.11).
pub fn judge_step(image: &mut [u8], round: &[u8]) -> u64 {
    let stepped = try_load(image).and_then(|run| try_step(&run, round));
    reply(stepped.and_then(|(after, ..)| try_save(&after, image))).packed()
}

// The listing: section 14

/// Entries separated by spaces, each with a space in front.
pub fn spaced<T: fmt::Display>(entries: impl IntoIterator<Item = T>) -> String {
    entries.into_iter().map(|entry| format!(" {entry}")).collect()
}

fn or_sign(entry: Option<u32>, sign: &str) -> String {
    entry.map_or(sign.to_string(), |value| value.to_string())
}

/// `A n=3 T=2 E=2 alpha=0`
pub fn setup_text(setup: Setup) -> String {
    let Setup { algorithm, n, t, e, alpha } = setup;
    let name = if algorithm == A { "A" } else { "U" };
    format!("{name} n={n} T={t} E={e} alpha={alpha}")
}

/// `hold 5 5 9 vote ? ? ?`
pub fn state_text(run: &Run) -> String {
    let n = run.setup.stations();
    let votes = (0..n).map(|p| or_sign(run.voted[p].then_some(run.votes[p]), "?"));
    format!("hold{} vote{}", spaced(&run.estimates[..n]), spaced(votes))
}

/// A `-` or a value for each entry, each with a space in front.
pub fn fired_text(fired: &[Option<u32>]) -> String {
    spaced(fired.iter().map(|&value| or_sign(value, "-")))
}

/// What the listing program prints for a tape (rules 13.2 and 14.2 to 14.6).
pub fn listing(tape: &[u8]) -> String {
    let opening_length = match tape.get(2) {
        Some(&n) => tape.len().min(Run::RECORD * (2 + usize::from(n))),
        None => tape.len(),
    };
    let (opening, mut tape) = tape.split_at(opening_length);
    let (mut reply, mut run) = open(opening);
    if !reply.accepted() {
        return format!("open refused {reply}\n");
    }
    let n = run.setup.stations();
    let mut text = setup_text(run.setup) + "\n";
    let mut accepted = 0;
    while reply.accepted() && !tape.is_empty() {
        let (part, rest) = next_part(&run, tape);
        let fired;
        (reply, run, fired, ..) = step(&run, part);
        if reply.accepted() {
            accepted += 1;
            let decide = fired_text(&fired[..n]);
            text += &format!("{} {} decide{decide}\n", run.clock, state_text(&run));
        }
        tape = rest;
    }
    text + &format!("end rounds {accepted} answer {reply}\n")
}
