//! Rounds to be judged, all of them accepted, drawn from a fixed seed.

use crate::judge;
use independent::{kind, Cell, Run, Setup, A, U};

/// How many rounds a load has.
const ROUNDS: usize = 256;
const SEED: u64 = 88_172_645_463_325_252;

#[derive(Clone, Copy, PartialEq, Eq)]
pub enum Faults {
    None,
    /// In every row as many altered and lost as the predicates allow (rules 10.8 and 10.9 of docs/RULES.md).
    Most,
}

#[derive(Clone, Copy, PartialEq, Eq)]
pub enum Starts {
    Alike,
    Apart,
    /// Alike in one half of the openings, apart in the other.
    Mixed,
}

/// A round with the image that it is offered to.
pub struct Offer {
    pub image: Vec<u8>,
    pub round: Vec<u8>,
}

pub struct Draw(u64);

impl Draw {
    pub fn new() -> Draw {
        Draw(SEED)
    }

    /// A number below the limit.
    fn below(&mut self, limit: usize) -> usize {
        self.0 ^= self.0 << 13;
        self.0 ^= self.0 >> 7;
        self.0 ^= self.0 << 17;
        (self.0 % limit as u64) as usize
    }

    fn value(&mut self) -> u32 {
        self.below(1 << 32) as u32
    }

    /// So many of the stations below n.
    fn stations(&mut self, count: usize, n: usize) -> Vec<usize> {
        let mut all: Vec<usize> = (0..n).collect();
        for k in 0..count {
            let other = k + self.below(n - k);
            all.swap(k, other);
        }
        all.truncate(count);
        all
    }
}

fn record(kind: u8, first: usize, second: usize, value: u32) -> [u8; Run::RECORD] {
    let v = value.to_le_bytes();
    [kind, first as u8, second as u8, 0, v[0], v[1], v[2], v[3]]
}

pub fn opening(setup: Setup, alike: bool, draw: &mut Draw) -> Vec<u8> {
    let Setup { algorithm, n, t, e, alpha } = setup;
    let mut bytes = vec![kind::SETUP, algorithm, n, t, e, alpha, 0, 0];
    bytes.extend(record(kind::DEFAULT, 0, 0, 0));
    let same = draw.value();
    for p in 0..setup.stations() {
        let start = if alike { same } else { draw.value() };
        bytes.extend(record(kind::START, p, 0, start));
    }
    bytes
}

/// How many cells are lost in the row of p, besides alpha altered ones. Under U no more may be: what is left safe is
/// one more than the bound. A bounds no losses, and loses as many as leave T + 1 heard in even rows, T in odd ones.
fn lost(setup: Setup, p: usize) -> usize {
    let [n, t, e, alpha] = [setup.n, setup.t, setup.e, setup.alpha].map(usize::from);
    if setup.algorithm == A {
        n - t - 1 + p % 2
    } else {
        let bound = (n + 2 * alpha - e - 1).max(t).max(alpha);
        n - (bound + 1) - alpha
    }
}

/// Something else than what was sent; "?" at times in a vote round.
fn altered(run: &Run, sent: Cell, draw: &mut Draw) -> Cell {
    let query = run.votes_next() && sent != Cell::Query && draw.below(4) == 0;
    match (query, Cell::Value(draw.value())) {
        (true, _) => Cell::Query,
        (false, cell) if cell == sent => altered(run, sent, draw),
        (false, cell) => cell,
    }
}

fn row(run: &Run, p: usize, faults: Faults, draw: &mut Draw) -> Vec<Cell> {
    let n = run.setup.stations();
    let alpha = usize::from(run.setup.alpha);
    let mut row: Vec<Cell> = (0..n).map(|q| run.sends(q)).collect();
    if faults == Faults::Most {
        let hit = draw.stations(alpha + lost(run.setup, p), n);
        for (k, &q) in hit.iter().enumerate() {
            row[q] = if k < alpha { altered(run, row[q], draw) } else { Cell::Lost };
        }
    }
    row
}

pub fn round(run: &Run, faults: Faults, draw: &mut Draw) -> Vec<u8> {
    let row_bytes = |p| {
        let cells = row(run, p, faults, draw).into_iter().enumerate();
        cells.flat_map(move |(q, cell)| match cell {
            Cell::Value(value) => record(kind::HEARD, p, q, value),
            Cell::Query => record(kind::HEARD_QUERY, p, q, 0),
            Cell::Lost => record(kind::LOST, p, q, 0),
        })
    };
    (0..run.setup.stations()).flat_map(row_bytes).collect()
}

/// The rounds of a load: under A the first after each opening, under U the first two. Both judges must accept each, and
/// leave the same image.
pub fn offers(setup: Setup, starts: Starts, faults: Faults) -> Vec<Offer> {
    let rounds_each = if setup.algorithm == U { 2 } else { 1 };
    let mut draw = Draw::new();
    let mut offers = Vec::new();
    for k in 0..ROUNDS / rounds_each {
        let alike = starts == Starts::Alike || starts == Starts::Mixed && k % 2 == 0;
        let mut image = opened(&opening(setup, alike, &mut draw), setup);
        for _ in 0..rounds_each {
            let (reply, run) = independent::load(&image);
            assert!(reply.accepted(), "an image is refused with {reply}");
            let round = round(&run, faults, &mut draw);
            let after = stepped(&image, &round);
            offers.push(Offer { image, round });
            image = after;
        }
    }
    offers
}

fn opened(opening: &[u8], setup: Setup) -> Vec<u8> {
    let mut image = vec![0; setup.image_length()];
    let mut other = image.clone();
    let answers = [judge::open(opening, &mut image), independent::judge_open(opening, &mut other)];
    assert_eq!(answers, [0, 0], "an opening is refused");
    assert!(image == other, "the judges' images of an opening differ");
    image
}

fn stepped(image: &[u8], round: &[u8]) -> Vec<u8> {
    let (mut image, mut other) = (image.to_vec(), image.to_vec());
    let answers = [judge::step(&mut image, round), independent::judge_step(&mut other, round)];
    assert_eq!(answers, [0, 0], "a round is refused");
    assert!(image == other, "the judges' images after a round differ");
    image
}

/// A tape of as many rounds as a run takes, with the most faults in each.
pub fn longest_tape(setup: Setup) -> Vec<u8> {
    let mut draw = Draw::new();
    let mut tape = opening(setup, false, &mut draw);
    let (_, mut run) = independent::open(&tape);
    for _ in 0..Run::ROUNDS {
        let round = round(&run, Faults::Most, &mut draw);
        let (reply, after, ..) = independent::step(&run, &round);
        assert!(reply.accepted(), "a round is refused with {reply}");
        run = after;
        tape.extend(round);
    }
    tape
}
