//! Compares the archive with the independent judge, call by call: the answer and every byte of
//! every buffer. The cases are drawn from a seed. A number that an entry can answer, or a
//! threshold, that no case reached is a failure too.
//!
//! AVANTRUSA_SEED and AVANTRUSA_CASES name another seed and another number of cases. "Rule 15.4"
//! and the like are numbers of `docs/RULES.md`.

mod census;
mod compare;
mod damage;
mod random;
mod rounds;
mod runs;

use census::Census;
use compare::Call;
use independent::{Matrix, Run};
use random::Random;
use runs::Setups;
use std::{env, process};

const SEED: u64 = 2007;
const CASES: u64 = 240_000;

/// The test's own state, from the first case to the last.
struct Bench {
    setups: Setups,
    census: Census,
    calls: u64,
}

fn main() {
    let seed = number("AVANTRUSA_SEED", SEED);
    let cases = number("AVANTRUSA_CASES", CASES);
    let mut bench = Bench { setups: Setups::all(), census: Census::new(), calls: 0 };
    for case in 0..cases {
        let random = &mut Random::of_case(seed, case);
        let call = Call { seed, case, turn: 0 };
        match case % 8 {
            0 | 1 => bench.try_opening(random, call),
            2..=6 => bench.try_step(random, call),
            _ => bench.try_run(random, call),
        }
    }
    bench.try_longest(Call { seed, case: cases, turn: 0 });
    println!("seed {seed}, {cases} cases, {} calls compared: no difference", bench.calls);
    let unseen = bench.census.report();
    if !unseen.is_empty() {
        eprintln!("{}", unseen.join("\n"));
        process::exit(1);
    }
}

fn number(variable: &str, otherwise: u64) -> u64 {
    match env::var(variable) {
        Ok(text) => text.parse().unwrap_or_else(|_| panic!("{variable} is not a number: {text}")),
        Err(_) => otherwise,
    }
}

impl Bench {
    fn open(&mut self, call: Call, opening: &[u8], image: &[u8]) -> compare::Outcome {
        let outcome = compare::open(call, opening, image);
        self.calls += 1;
        self.census.opened(outcome.number, opening);
        outcome
    }

    fn step(&mut self, call: Call, image: &[u8], round: &[u8]) -> compare::Outcome {
        let outcome = compare::step(call, image, round);
        self.calls += 1;
        self.census.stepped(outcome.number);
        outcome
    }

    /// An opening, good or damaged, and a buffer for the image that fits or doesn't.
    fn try_opening(&mut self, random: &mut Random, call: Call) {
        let (mut opening, setup, _) = runs::opening(random, &self.setups);
        match random.below(10) {
            0..=3 => {}
            4 | 5 => damage::setup(random, &mut opening),
            6 => {
                damage::setup(random, &mut opening);
                opening.resize(Run::RECORD * (2 + usize::from(opening[2])), 0);
            }
            _ => damage::any(random, &mut opening),
        }
        let fitting = setup.image_length();
        let length = match random.below(10) {
            0 => random.pick(&[0, fitting - 1, fitting + 1, fitting - 8, fitting + 8]),
            1 => random.below(2 * fitting),
            _ => fitting,
        };
        let image = random.bytes(length);
        self.open(call, &opening, &image);
    }

    /// One round offered to an image, either of them good or damaged.
    fn try_step(&mut self, random: &mut Random, call: Call) {
        let (run, palette) = runs::sound_run(random, &self.setups);
        let matrix = rounds::matrix(random, &run, &palette);
        let (mut image, mut round) = (runs::image(&run), rounds::bytes(&run, &matrix));
        let sound = !random.percent(20) || !damage_image(random, &mut image, &run);
        let whole = !random.percent(20) || !damage_round(random, &mut round);
        let outcome = self.step(call, &image, &round);
        if sound && whole {
            self.census.judged(outcome.number, &run, &matrix);
        }
    }

    /// Rounds in a row, each on what the last one left; refused ones among them.
    fn try_run(&mut self, random: &mut Random, call: Call) {
        let (mut image, palette) = self.first_image(random, call);
        for turn in 1..=random.between(2, 8) {
            let call = Call { turn, ..call };
            let run = loaded(&image);
            let matrix = rounds::matrix(random, &run, &palette);
            let mut round = rounds::bytes(&run, &matrix);
            let whole = !random.percent(5) || !damage_round(random, &mut round);
            let outcome = self.step(call, &image, &round);
            if whole {
                self.census.judged(outcome.number, &run, &matrix);
            }
            image = outcome.image;
        }
    }

    /// The image that a run begins with: mostly that of an opening.
    fn first_image(&mut self, random: &mut Random, call: Call) -> (Vec<u8>, Vec<u32>) {
        if random.percent(30) {
            let (run, palette) = runs::sound_run(random, &self.setups);
            return (runs::image(&run), palette);
        }
        let (opening, setup, palette) = runs::opening(random, &self.setups);
        let buffer = random.bytes(setup.image_length());
        (self.open(call, &opening, &buffer).image, palette)
    }

    /// All the rounds that a run may have, and one more.
    fn try_longest(&mut self, call: Call) {
        let random = &mut Random::of_case(call.seed, call.case);
        let (opening, setup, palette) = runs::opening(random, &self.setups);
        let mut image = self.open(call, &opening, &vec![0; setup.image_length()]).image;
        for turn in 1..=Run::ROUNDS as usize + 1 {
            let run = loaded(&image);
            let round = lawful_round(random, &run, &palette);
            image = self.step(Call { turn, ..call }, &image, &round).image;
        }
        assert_eq!(loaded(&image).clock, Run::ROUNDS);
    }
}

/// The run of an image that both judges left behind.
fn loaded(image: &[u8]) -> Run {
    let (reply, run) = independent::load(image);
    assert!(reply.accepted(), "an image that was written is refused with {reply}");
    run
}

/// A round that is accepted, if any is.
fn lawful_round(random: &mut Random, run: &Run, palette: &[u32]) -> Vec<u8> {
    loop {
        let matrix: Matrix = rounds::matrix(random, run, palette);
        let round = rounds::bytes(run, &matrix);
        let refused = !independent::step(run, &round).0.accepted();
        if !refused || run.clock == Run::ROUNDS {
            return round;
        }
    }
}

/// Damages an image; whether it is another image now.
fn damage_image(random: &mut Random, image: &mut Vec<u8>, run: &Run) -> bool {
    let before = image.clone();
    match random.below(10) {
        0..=4 => damage::rule(random, image, run.setup.stations(), run.clock),
        5 => {
            damage::rule(random, image, run.setup.stations(), run.clock);
            damage::rule(random, image, run.setup.stations(), run.clock);
        }
        6 | 7 => damage::setup(random, image),
        _ => damage::any(random, image),
    }
    *image != before
}

/// Damages a round; whether it is another round now.
fn damage_round(random: &mut Random, round: &mut Vec<u8>) -> bool {
    let before = round.clone();
    match random.below(10) {
        0..=3 => damage::query(random, round),
        4 => {
            damage::query(random, round);
            damage::any(random, round);
        }
        _ => damage::any(random, round),
    }
    *round != before
}
