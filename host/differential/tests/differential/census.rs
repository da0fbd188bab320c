//! What the cases reached: each number of each entry, and the rows on each threshold.

use crate::rounds::{counts, safe_bound};
use independent::{Cell, Matrix, Run, A, U};

/// The numbers that an entry can answer (rule 15.4).
const OPEN_NUMBERS: [u32; 6] = [0, 1, 2, 3, 4, 9];
const STEP_NUMBERS: [u32; 10] = [0, 1, 2, 3, 4, 5, 6, 7, 8, 10];

const ACCEPTED: u32 = 0;
const ALTERED: u32 = 6;
const UNSAFE: u32 = 7;

/// How often each of some things was seen.
struct Tally<T> {
    title: &'static str,
    counts: Vec<(T, u64)>,
}

impl<T: Copy + PartialEq + std::fmt::Display> Tally<T> {
    fn new(title: &'static str, things: &[T]) -> Tally<T> {
        Tally { title, counts: things.iter().map(|&thing| (thing, 0)).collect() }
    }

    /// A thing that isn't in the list is a fault of the judge or of this test.
    fn add(&mut self, thing: T) {
        match self.counts.iter_mut().find(|(known, _)| *known == thing) {
            Some((_, count)) => *count += 1,
            None => panic!("{}: {thing} is not to be seen", self.title),
        }
    }

    /// Prints the counts, and answers what was never seen.
    fn report(&self) -> Vec<String> {
        let texts: Vec<String> =
            self.counts.iter().map(|(t, c)| format!("{c} times {t}")).collect();
        println!("{}: {}", self.title, texts.join(", "));
        let unseen = self.counts.iter().filter(|(_, count)| *count == 0);
        unseen.map(|(thing, _)| format!("{} never saw {thing}", self.title)).collect()
    }
}

/// The edges of a row that the predicates look at, under A and U.
const ROWS: [&str; 4] =
    ["alpha altered", "alpha + 1 altered", "U's bound safe", "U's bound + 1 safe"];
/// The edges of a row of an accepted round.
const ROWS_OF_A: [&str; 6] =
    ["T heard", "T + 1 heard", "E equal", "E + 1 equal", "tie for most", "decided otherwise"];
const VALUE_ROWS_OF_U: [&str; 3] = ["T equal", "T + 1 equal", "tie for most"];
const VOTE_ROWS_OF_U: [&str; 6] =
    ["alpha votes", "alpha + 1 votes", "E votes", "E + 1 votes", "several above alpha", "no vote"];
/// Openings by n, whatever they are answered with.
const OPENINGS: [&str; 4] = ["n 0", "n 1", "n 32", "n 33"];
/// Accepted rounds.
const ROUNDS: [&str; 4] = ["A with n 32", "U with n 32", "round 4095", "round 4096"];

pub struct Census {
    opens: Tally<u32>,
    steps: Tally<u32>,
    openings: Tally<&'static str>,
    sizes: Tally<usize>,
    rounds: Tally<&'static str>,
    rows: Tally<&'static str>,
    rows_of_a: Tally<&'static str>,
    value_rows_of_u: Tally<&'static str>,
    vote_rows_of_u: Tally<&'static str>,
}

impl Census {
    pub fn new() -> Census {
        Census {
            opens: Tally::new("judge_open", &OPEN_NUMBERS),
            steps: Tally::new("judge_step", &STEP_NUMBERS),
            openings: Tally::new("openings", &OPENINGS),
            sizes: Tally::new("accepted rounds by n", &(2..=Run::STATIONS).collect::<Vec<_>>()),
            rounds: Tally::new("accepted rounds", &ROUNDS),
            rows: Tally::new("rows judged", &ROWS),
            rows_of_a: Tally::new("rows accepted under A", &ROWS_OF_A),
            value_rows_of_u: Tally::new("value rows accepted under U", &VALUE_ROWS_OF_U),
            vote_rows_of_u: Tally::new("vote rows accepted under U", &VOTE_ROWS_OF_U),
        }
    }

    pub fn opened(&mut self, number: u32, opening: &[u8]) {
        self.opens.add(number);
        let n = opening.get(2).copied().map(usize::from);
        let seen = [0, 1, Run::STATIONS, Run::STATIONS + 1].map(|edge| n == Some(edge));
        add_seen(&mut self.openings, &OPENINGS, &seen);
    }

    pub fn stepped(&mut self, number: u32) {
        self.steps.add(number);
    }

    /// The rows of a round whose bytes were not damaged, offered to a sound run.
    pub fn judged(&mut self, number: u32, run: &Run, matrix: &Matrix) {
        let n = run.setup.stations();
        if ![ACCEPTED, ALTERED, UNSAFE].contains(&number) {
            return;
        }
        if number == ACCEPTED {
            self.accepted_round(run);
        }
        for (p, row) in matrix[..n].iter().enumerate() {
            self.row(run, &row[..n]);
            match (number, run.setup.algorithm) {
                (ACCEPTED, A) => self.row_of_a(run, p, &row[..n]),
                (ACCEPTED, _) if run.votes_next() => self.vote_row_of_u(run, &row[..n]),
                (ACCEPTED, _) => self.value_row_of_u(run, &row[..n]),
                _ => {}
            }
        }
    }

    fn accepted_round(&mut self, run: &Run) {
        let n = run.setup.stations();
        let most = n == Run::STATIONS;
        self.sizes.add(n);
        let seen = [
            most && run.setup.algorithm == A,
            most && run.setup.algorithm == U,
            run.clock + 1 == Run::ROUNDS - 1,
            run.clock + 1 == Run::ROUNDS,
        ];
        add_seen(&mut self.rounds, &ROUNDS, &seen);
    }

    fn row(&mut self, run: &Run, row: &[Cell]) {
        let heard = row.iter().filter(|cell| **cell != Cell::Lost).count();
        let safe = row.iter().enumerate().filter(|(q, cell)| **cell == run.sends(*q)).count();
        let alpha = usize::from(run.setup.alpha);
        let bound = if run.setup.algorithm == U { Some(safe_bound(run.setup)) } else { None };
        let seen = [
            heard - safe == alpha,
            heard - safe == alpha + 1,
            bound == Some(safe),
            bound.is_some_and(|bound| safe == bound + 1),
        ];
        add_seen(&mut self.rows, &ROWS, &seen);
    }

    fn row_of_a(&mut self, run: &Run, p: usize, row: &[Cell]) {
        let [t, e] = [run.setup.t, run.setup.e].map(usize::from);
        let heard = row.iter().filter(|cell| **cell != Cell::Lost).count();
        let (most, tied) = most_often(row);
        let fires = counts(row).into_iter().find(|(_, count)| *count > e);
        let otherwise = fires.is_some_and(|(v, _)| run.decided[p] && run.decisions[p] != v);
        let seen = [
            heard == t,
            heard == t + 1,
            most == e,
            most == e + 1,
            heard > t && tied > 1,
            otherwise,
        ];
        add_seen(&mut self.rows_of_a, &ROWS_OF_A, &seen);
    }

    fn value_row_of_u(&mut self, run: &Run, row: &[Cell]) {
        let t = usize::from(run.setup.t);
        let (most, tied) = most_often(row);
        add_seen(
            &mut self.value_rows_of_u,
            &VALUE_ROWS_OF_U,
            &[most == t, most == t + 1, tied > 1],
        );
    }

    fn vote_row_of_u(&mut self, run: &Run, row: &[Cell]) {
        let [e, alpha] = [run.setup.e, run.setup.alpha].map(usize::from);
        let counts = counts(row);
        let (most, _) = most_often(row);
        let above = counts.values().filter(|count| **count > alpha).count();
        let seen = [
            counts.values().any(|count| *count == alpha),
            counts.values().any(|count| *count == alpha + 1),
            most == e,
            most == e + 1,
            above > 1,
            counts.is_empty(),
        ];
        add_seen(&mut self.vote_rows_of_u, &VOTE_ROWS_OF_U, &seen);
    }

    /// Prints all counts, and answers what was never seen.
    pub fn report(&self) -> Vec<String> {
        [
            self.opens.report(),
            self.steps.report(),
            self.openings.report(),
            self.sizes.report(),
            self.rounds.report(),
            self.rows.report(),
            self.rows_of_a.report(),
            self.value_rows_of_u.report(),
            self.vote_rows_of_u.report(),
        ]
        .concat()
    }
}

fn add_seen(tally: &mut Tally<&'static str>, names: &[&'static str], seen: &[bool]) {
    for (name, seen) in names.iter().zip(seen) {
        if *seen {
            tally.add(name);
        }
    }
}

/// How often the most frequent values stand in a row, and how many of them there are.
fn most_often(row: &[Cell]) -> (usize, usize) {
    let counts = counts(row);
    let most = counts.values().copied().max().unwrap_or(0);
    (most, counts.values().filter(|count| **count == most).count())
}
