//! A small host: opens A(3,2,2,0) with starts 5 5 9, and offers two rounds in which all is heard.

use avantrusa::{image_length, kind, open, step, Reply, A, RECORD};
use std::process::ExitCode;

const N: usize = 3;
const T: u8 = 2;
const E: u8 = 2;
const ALPHA: u8 = 0;
/// An image's first estimate and its first decision, by record.
const ESTIMATES: usize = 3;
const DECISIONS: usize = 3 + 2 * N;
/// How many rounds are offered.
const ROUNDS: usize = 2;

fn record(kind: u8, first: usize, second: usize, value: u32) -> [u8; RECORD] {
    let v = value.to_le_bytes();
    [kind, first as u8, second as u8, 0, v[0], v[1], v[2], v[3]]
}

/// The kind and the value of record k.
fn read(records: &[u8], k: usize) -> (u8, u32) {
    let r = &records[RECORD * k..RECORD * (k + 1)];
    (r[0], u32::from_le_bytes([r[4], r[5], r[6], r[7]]))
}

fn make_opening(starts: [u32; N]) -> Vec<u8> {
    let mut opening = vec![kind::SETUP, A, N as u8, T, E, ALPHA, 0, 0];
    opening.extend(record(kind::DEFAULT, 0, 0, 0));
    opening.extend((0..N).flat_map(|p| record(kind::START, p, 0, starts[p])));
    opening
}

/// Each receiver hears what each sender now holds.
fn make_round(image: &[u8]) -> Vec<u8> {
    let cells = (0..N).flat_map(|p| (0..N).map(move |q| (p, q)));
    cells.flat_map(|(p, q)| record(kind::HEARD, p, q, read(image, ESTIMATES + q).1)).collect()
}

/// What the stations hold and have decided.
fn state(image: &[u8]) -> String {
    let estimates: String = (0..N).map(|p| format!(" {}", read(image, ESTIMATES + p).1)).collect();
    let decision = |p| match read(image, DECISIONS + p) {
        (kind::DECIDED, value) => format!(" {value}"),
        _ => " -".to_string(),
    };
    let decisions: String = (0..N).map(decision).collect();
    format!("hold{estimates} decided{decisions}")
}

fn run() -> Result<(), Reply> {
    let mut image = vec![0; image_length(N)];
    open(&make_opening([5, 5, 9]), &mut image).result()?;
    println!("opened A({N},{T},{E},{ALPHA}): {}", state(&image));
    for k in 1..=ROUNDS {
        let round = make_round(&image);
        step(&mut image, &round).result()?;
        println!("round {k}, all heard: {}", state(&image));
    }
    Ok(())
}

fn main() -> ExitCode {
    match run() {
        Ok(()) => ExitCode::SUCCESS,
        Err(refusal) => {
            eprintln!("{refusal}");
            ExitCode::FAILURE
        }
    }
}
