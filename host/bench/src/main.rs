//! How fast the judge is, beside the independent one in Rust: both in one run on one machine, both built for release.
//! `bench [--strict]` prints tables in Markdown. With `--strict` the exit status is 1 if the judge takes longer than Rust
//! anywhere. LISTING names the listing program, else it is crates/listing/out/listing of the repository.
//!
//! A time is the shortest of many passes. All loads and both judges take turns, so that a slow spell of the machine falls on
//! all of them alike.

use independent::{setup_text, Setup, A, U};
use load::{Faults, Offer, Starts};
use std::process::ExitCode;
use std::time::Instant;

mod judge;
mod listing;
mod load;

const TURNS: usize = 80;
/// Passes in a turn; the first brings the rounds near, the others find them there.
const PASSES: usize = 2;

const fn setup(algorithm: u8, n: u8, t: u8, e: u8, alpha: u8) -> Setup {
    Setup { algorithm, n, t, e, alpha }
}

/// For each algorithm a setup of 8 stations and one of 32. Under A alpha is the largest there is; under U a row may lose
/// some besides alpha altered ones.
const SETUPS: [[Setup; 2]; 2] = [
    [setup(A, 8, 7, 7, 1), setup(A, 32, 30, 31, 7)],
    [setup(U, 8, 5, 5, 1), setup(U, 32, 20, 20, 4)],
];

const LOADS: [(&str, Starts, Faults); 3] = [
    ("all heard, starts alike", Starts::Alike, Faults::None),
    ("all heard, starts apart", Starts::Apart, Faults::None),
    ("as many altered and lost as allowed", Starts::Mixed, Faults::Most),
];

type Step = fn(&mut [u8], &[u8]) -> u64;

/// A load at one number of stations, and the shortest times for it so far, in microseconds a round.
struct Measured {
    setup: Setup,
    offers: Vec<Offer>,
    judge: f64,
    rust: f64,
}

impl Measured {
    fn new(setup: Setup, starts: Starts, faults: Faults) -> Measured {
        let offers = load::offers(setup, starts, faults);
        Measured { setup, offers, judge: f64::INFINITY, rust: f64::INFINITY }
    }

    fn turn(&mut self) {
        for _ in 0..PASSES {
            self.judge = self.judge.min(pass(judge::step, &self.offers));
            self.rust = self.rust.min(pass(independent::judge_step, &self.offers));
        }
    }

    fn ratio(&self) -> f64 {
        self.judge / self.rust
    }

    /// Bytes in a microsecond are megabytes in a second.
    fn print(&self, what: &str) {
        let Measured { setup, judge, rust, .. } = *self;
        let bytes = setup.round_length() as f64;
        println!(
            "| {} | {what} | {judge:.2} | {:.0} | {rust:.2} | {:.0} | {:.2} |",
            setup_text(setup),
            bytes / judge,
            bytes / rust,
            self.ratio()
        );
    }
}

/// One pass over the rounds, each offered to a fresh copy of its image: microseconds a round.
fn pass(step: Step, offers: &[Offer]) -> f64 {
    let mut image = offers[0].image.clone();
    let begin = Instant::now();
    for offer in offers {
        image.copy_from_slice(&offer.image);
        assert_eq!(step(&mut image, &offer.round), 0);
    }
    begin.elapsed().as_secs_f64() * 1e6 / offers.len() as f64
}

/// A load by name, at the small and at the large number of stations.
type Pair = (&'static str, [Measured; 2]);

fn measure() -> Vec<Pair> {
    let of = |setups: [Setup; 2]| {
        LOADS.map(|(what, starts, faults)| {
            (what, setups.map(|setup| Measured::new(setup, starts, faults)))
        })
    };
    let mut pairs: Vec<Pair> = SETUPS.into_iter().flat_map(of).collect();
    for _ in 0..TURNS {
        pairs.iter_mut().flat_map(|(_, sizes)| sizes).for_each(Measured::turn);
    }
    pairs
}

fn print_rounds(pairs: &[Pair]) {
    println!("| setup | load | judge, us a round | judge, MB/s | Rust, us a round | Rust, MB/s | judge to Rust |");
    println!("|---|---|--:|--:|--:|--:|--:|");
    for (what, sizes) in pairs {
        sizes.iter().for_each(|measured| measured.print(what));
    }
}

fn print_growth(pairs: &[Pair]) {
    println!("\nHow the time of a round grows from n = 8 to n = 32, with 16 times the cells:\n");
    println!("| algorithm | load | judge | Rust |");
    println!("|---|---|--:|--:|");
    for (what, [small, large]) in pairs {
        let name = if small.setup.algorithm == A { "A" } else { "U" };
        let (judge, rust) = (large.judge / small.judge, large.rust / small.rust);
        println!("| {name} | {what} | {judge:.1} | {rust:.1} |");
    }
}

fn figures(arguments: &[String]) -> Result<(), String> {
    let strict = arguments == ["--strict"];
    if !strict && !arguments.is_empty() {
        return Err("usage: bench [--strict]".to_string());
    }
    let pairs = measure();
    print_rounds(&pairs);
    print_growth(&pairs);
    listing::print(SETUPS[0][1])?;
    let ratios = pairs.iter().flat_map(|(_, sizes)| sizes).map(Measured::ratio);
    match ratios.fold(0.0, f64::max) {
        slowest if strict && slowest > 1.0 => {
            Err(format!("the judge takes up to {slowest:.2} times as long as Rust"))
        }
        _ => Ok(()),
    }
}

fn main() -> ExitCode {
    let arguments: Vec<String> = std::env::args().skip(1).collect();
    match figures(&arguments) {
        Ok(()) => ExitCode::SUCCESS,
        Err(complaint) => {
            eprintln!("{complaint}");
            ExitCode::FAILURE
        }
    }
}
