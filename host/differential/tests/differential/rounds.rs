//! Rounds offered to a sound run: rows on the thresholds, one past them, and anything else.

use crate::random::Random;
use independent::{Cell, Matrix, Run, Setup, ALL_LOST, U};
use std::collections::BTreeMap;

/// Under U, |SHO(p)| must be larger than this (rule 10.9).
pub fn safe_bound(setup: Setup) -> usize {
    let [n, t, e, alpha] = [setup.n, setup.t, setup.e, setup.alpha].map(usize::from);
    (n + 2 * alpha - e - 1).max(t).max(alpha)
}

/// How often each value stands in a row.
pub fn counts(row: &[Cell]) -> BTreeMap<u32, usize> {
    let mut counts = BTreeMap::new();
    for cell in row {
        if let Cell::Value(value) = cell {
            *counts.entry(*value).or_insert(0) += 1;
        }
    }
    counts
}

/// The row of one receiver, with what was sent to it.
pub struct Row<'a> {
    pub setup: Setup,
    pub sent: &'a [Cell],
    pub cells: Vec<Cell>,
    palette: &'a [u32],
    vote_round: bool,
}

impl Row<'_> {
    fn places(&self, wanted: impl Fn(usize) -> bool) -> Vec<usize> {
        (0..self.cells.len()).filter(|&q| wanted(q)).collect()
    }

    fn heard(&self) -> Vec<usize> {
        self.places(|q| self.cells[q] != Cell::Lost)
    }

    fn safe(&self) -> Vec<usize> {
        self.places(|q| self.cells[q] == self.sent[q])
    }

    fn altered(&self) -> usize {
        self.heard().len() - self.safe().len()
    }

    /// Whether the row keeps the predicates (rules 10.8 and 10.9).
    fn lawful(&self) -> bool {
        let safe_enough = self.setup.algorithm != U || self.safe().len() > safe_bound(self.setup);
        self.altered() <= usize::from(self.setup.alpha) && safe_enough
    }

    /// Some other cell than the one sent.
    fn alter(&mut self, random: &mut Random, q: usize) {
        let value = Cell::Value(random.pick(self.palette));
        let query = self.vote_round && random.percent(30);
        let cell = if query { Cell::Query } else { value };
        let flipped = match self.sent[q] {
            Cell::Value(value) => Cell::Value(value ^ 1 << random.below(32)),
            _ => value,
        };
        self.cells[q] = if cell == self.sent[q] { flipped } else { cell };
    }

    fn lose_or_alter(&mut self, random: &mut Random, q: usize, lose: bool) {
        if lose {
            self.cells[q] = Cell::Lost;
        } else {
            self.alter(random, q);
        }
    }

    /// So many frames altered.
    fn with_altered(&mut self, random: &mut Random, count: usize) {
        let safe = self.safe();
        for q in random.some_of(safe, count) {
            self.alter(random, q);
        }
    }

    /// At most so many frames heard.
    fn with_heard(&mut self, random: &mut Random, count: usize) {
        let heard = self.heard();
        let surplus = heard.len().saturating_sub(count);
        for q in random.some_of(heard, surplus) {
            self.cells[q] = Cell::Lost;
        }
    }

    /// At most so many frames as they were sent: up to alpha of the others altered, the rest lost.
    fn with_safe(&mut self, random: &mut Random, count: usize) {
        let safe = self.safe();
        let surplus = safe.len().saturating_sub(count);
        let altered = random.below(usize::from(self.setup.alpha) + 1);
        for (k, q) in random.some_of(safe, surplus).into_iter().enumerate() {
            self.lose_or_alter(random, q, k >= altered);
        }
    }

    /// A value heard exactly so often, where there are frames enough.
    fn with_equal(&mut self, random: &mut Random, value: u32, count: usize) {
        self.with_at_most(random, value, count);
        let others = self.places(|q| self.cells[q] != Cell::Value(value));
        let lack = count.saturating_sub(self.cells.len() - others.len());
        for q in random.some_of(others, lack) {
            self.cells[q] = Cell::Value(value);
        }
    }

    fn with_at_most(&mut self, random: &mut Random, value: u32, count: usize) {
        let equal = self.places(|q| self.cells[q] == Cell::Value(value));
        let surplus = equal.len().saturating_sub(count);
        let lose = random.percent(70);
        for q in random.some_of(equal, surplus) {
            self.lose_or_alter(random, q, lose);
        }
    }

    /// Two values equally often, where there are two.
    fn with_tie(&mut self, random: &mut Random) {
        let counts: Vec<(u32, usize)> = counts(&self.cells).into_iter().collect();
        if counts.len() < 2 {
            return;
        }
        let first = random.below(counts.len() - 1);
        let (low, high) = (counts[first], counts[first + 1]);
        let count = random.pick(&[low.1.min(high.1), (low.1 + high.1) / 2]);
        self.with_equal(random, low.0, count);
        self.with_equal(random, high.0, count);
    }

    fn with_noise(&mut self, random: &mut Random) {
        let chance = random.pick(&[5, 20, 60, 100]);
        for q in 0..self.cells.len() {
            if random.percent(chance) {
                let lose = random.percent(70);
                self.lose_or_alter(random, q, lose);
            }
        }
    }

    /// One way of leaving what was sent.
    fn disturb(&mut self, random: &mut Random) {
        let more = random.below(2);
        let [t, e, alpha] = [self.setup.t, self.setup.e, self.setup.alpha].map(usize::from);
        let value = random.pick(self.palette);
        match random.below(10) {
            0 => {}
            1 => self.with_altered(random, alpha),
            2 => self.with_altered(random, alpha + more),
            3 => self.with_heard(random, t + more),
            4 => self.with_equal(random, value, t + more),
            5 => self.with_equal(random, value, e + more),
            6 => self.with_equal(random, value, alpha + more),
            7 => self.with_safe(random, safe_bound(self.setup) + more),
            8 => self.with_tie(random),
            _ => self.with_noise(random),
        }
    }

    /// The row of a round in this mood, from what was sent.
    fn fill(&mut self, random: &mut Random, mood: Mood, offender: bool) {
        for _ in 0..random.between(0, 2) {
            self.disturb(random);
        }
        if mood != Mood::Wild && !self.lawful() {
            self.cells.copy_from_slice(self.sent);
        }
        if mood == Mood::OneOffends && offender {
            self.offend(random);
        }
    }

    /// Breaks a predicate by as little as can be.
    fn offend(&mut self, random: &mut Random) {
        if self.setup.algorithm == U && random.percent(50) {
            self.with_safe(random, safe_bound(self.setup));
        } else {
            self.with_altered(random, usize::from(self.setup.alpha) + 1);
        }
    }
}

/// What a round is to be.
#[derive(Clone, Copy, PartialEq)]
enum Mood {
    /// It keeps the predicates.
    Lawful,
    /// One row breaks them, the others keep them.
    OneOffends,
    /// Any rows.
    Wild,
}

/// A round for this run.
pub fn matrix(random: &mut Random, run: &Run, palette: &[u32]) -> Matrix {
    let n = run.setup.stations();
    let sent: Vec<Cell> = (0..n).map(|q| run.sends(q)).collect();
    let moods = [Mood::Lawful, Mood::Lawful, Mood::Lawful, Mood::OneOffends, Mood::Wild];
    let mood = random.pick(&moods);
    let offender = random.below(n);
    let mut matrix = ALL_LOST;
    for (p, place) in matrix[..n].iter_mut().enumerate() {
        let cells = sent.clone();
        let vote_round = run.votes_next();
        let mut row = Row { setup: run.setup, sent: &sent, cells, palette, vote_round };
        row.fill(random, mood, p == offender);
        place[..n].copy_from_slice(&row.cells);
    }
    matrix
}

pub fn bytes(run: &Run, matrix: &Matrix) -> Vec<u8> {
    let mut bytes = vec![0; run.setup.round_length()];
    assert!(independent::write_round(run, matrix, &mut bytes).accepted(), "no round for {run:?}");
    bytes
}
