//! Setups, runs and their bytes, before any damage.

use crate::random::Random;
use independent::{Run, Setup, A, U};

/// The setups that are acceptable (rules 10.2 to 10.6), by algorithm, n and alpha.
pub struct Setups {
    lists: Vec<Vec<Setup>>,
}

impl Setups {
    const ALPHAS: usize = Run::STATIONS / 2;

    pub fn all() -> Setups {
        let mut lists = Vec::new();
        for algorithm in [A, U] {
            for n in 0..=Run::STATIONS as u8 {
                lists.extend((0..Self::ALPHAS as u8).map(|alpha| acceptable(algorithm, n, alpha)));
            }
        }
        Setups { lists }
    }

    fn list(&self, algorithm: u8, n: usize, alpha: usize) -> &[Setup] {
        let row = usize::from(algorithm - A) * (Run::STATIONS + 1) + n;
        &self.lists[row * Self::ALPHAS + alpha]
    }

    pub fn draw(&self, random: &mut Random) -> Setup {
        let algorithm = random.pick(&[A, U]);
        let n = size(random).max(if algorithm == A { 3 } else { 2 });
        let alphas = (0..Self::ALPHAS).filter(|&alpha| !self.list(algorithm, n, alpha).is_empty());
        let alpha = random.pick(&alphas.collect::<Vec<_>>());
        random.pick(self.list(algorithm, n, alpha))
    }
}

fn acceptable(algorithm: u8, n: u8, alpha: u8) -> Vec<Setup> {
    let pairs = (0..n).flat_map(|t| (0..n).map(move |e| (t, e)));
    let setups = pairs.map(|(t, e)| Setup { algorithm, n, t, e, alpha });
    setups.filter(|setup| setup.check().is_ok()).collect()
}

/// Small numbers of stations most often: their rounds are short.
fn size(random: &mut Random) -> usize {
    match random.below(100) {
        0..=69 => random.between(2, 8),
        70..=89 => random.between(9, 16),
        90..=96 => random.between(17, 31),
        _ => Run::STATIONS,
    }
}

/// The few values of a run, so that rows hold equal ones. Some differ in one byte alone.
pub fn palette(random: &mut Random) -> Vec<u32> {
    let any = random.next() as u32;
    let pool = [0, 1, 2, 255, 256, 1 << 16, 1 << 24, 1 << 31, u32::MAX - 1, u32::MAX, any];
    (0..random.between(1, 4)).map(|_| random.pick(&pool)).collect()
}

/// How many stations are to have the leading value: mostly a threshold or one more.
fn following(random: &mut Random, setup: Setup) -> usize {
    let n = setup.stations();
    let [t, e, alpha] = [setup.t, setup.e, setup.alpha].map(usize::from);
    let any = random.below(n);
    random.pick(&[n, n, n, t, t + 1, e, e + 1, alpha, alpha + 1, n / 2, any])
}

/// A value for each station: a leading one, and others where the leading one doesn't stand.
fn values(random: &mut Random, setup: Setup, palette: &[u32]) -> [u32; Run::STATIONS] {
    let n = setup.stations();
    let mut values = [0; Run::STATIONS];
    for value in &mut values[..n] {
        *value = random.pick(palette);
    }
    let most = following(random, setup);
    let leading = random.pick(palette);
    for p in random.some_of((0..n).collect(), most) {
        values[p] = leading;
    }
    values
}

/// A run that keeps the rules of a run (rule 5.11); most of them no opening reaches.
pub fn sound_run(random: &mut Random, setups: &Setups) -> (Run, Vec<u32>) {
    let setup = setups.draw(random);
    let palette = palette(random);
    let mut run = Run { setup, ..Run::IDLE };
    run.estimates = values(random, setup, &palette);
    run.clock = match random.below(10) {
        0..=2 => random.below(4) as u32,
        3 => Run::ROUNDS - 1,
        4 => Run::ROUNDS - 2,
        5 => Run::ROUNDS - random.pick(&[0, 0, 0, 3, 4]),
        _ => random.below(Run::ROUNDS as usize) as u32,
    };
    if setup.algorithm == U {
        run.default = random.pick(&palette);
    }
    if run.votes_next() {
        add_votes(random, &mut run, &palette);
    }
    add_decisions(random, &mut run, &palette);
    (run, palette)
}

/// Votes of some stations, mostly in the number of a threshold or one more.
fn add_votes(random: &mut Random, run: &mut Run, palette: &[u32]) {
    let n = run.setup.stations();
    let votes = values(random, run.setup, palette);
    let most = following(random, run.setup);
    for p in random.some_of((0..n).collect(), most) {
        run.voted[p] = true;
        run.votes[p] = votes[p];
    }
}

/// Decisions of some stations, for any value.
fn add_decisions(random: &mut Random, run: &mut Run, palette: &[u32]) {
    let gap = if run.setup.algorithm == U { 2 } else { 1 };
    let turns = run.clock / gap;
    let chance = random.pick(&[0, 30, 100]);
    for p in 0..run.setup.stations() {
        if turns > 0 && random.percent(chance) {
            run.decided[p] = true;
            run.decisions[p] = random.pick(palette);
            run.rounds[p] = gap * random.between(1, turns as usize) as u32;
        }
    }
}

pub fn image(run: &Run) -> Vec<u8> {
    let mut image = vec![0; run.setup.image_length()];
    assert!(independent::save(run, &mut image).accepted(), "no image of {run:?}");
    image
}

pub fn opening(random: &mut Random, setups: &Setups) -> (Vec<u8>, Setup, Vec<u32>) {
    let setup = setups.draw(random);
    let palette = palette(random);
    let starts = values(random, setup, &palette);
    let default = if setup.algorithm == U { random.pick(&palette) } else { 0 };
    let mut opening = vec![0; setup.opening_length()];
    assert!(independent::write_opening(setup, default, starts, &mut opening).accepted());
    (opening, setup, palette)
}
