//! Openings, images and rounds put together without any check, so that bad ones can be made too.

use independent::{kind, Cell, Matrix, Run, Setup, A, ALL_LOST, U};

pub const fn setup(algorithm: u8, n: u8, t: u8, e: u8, alpha: u8) -> Setup {
    Setup { algorithm, n, t, e, alpha }
}

pub const A3: Setup = setup(A, 3, 2, 2, 0);
pub const A5: Setup = setup(A, 5, 4, 3, 0);
pub const A7: Setup = setup(A, 7, 6, 6, 1);
pub const A32: Setup = setup(A, 32, 30, 23, 3);
pub const U2: Setup = setup(U, 2, 1, 1, 0);
pub const U6: Setup = setup(U, 6, 4, 4, 1);
pub const U7: Setup = setup(U, 7, 5, 5, 1);
pub const U32: Setup = setup(U, 32, 20, 19, 3);

/// `A(3,2,2,0)`, or `7(3,2,2,0)` for an algorithm that is none.
pub fn full_name(setup: Setup) -> String {
    let Setup { algorithm, n, t, e, alpha } = setup;
    let letter = match algorithm {
        A => "A".to_string(),
        U => "U".to_string(),
        other => other.to_string(),
    };
    format!("{letter}({n},{t},{e},{alpha})")
}

/// The values given, then zeros.
pub fn padded(values: &[u32]) -> [u32; 32] {
    let mut all = [0; 32];
    all[..values.len()].copy_from_slice(values);
    all
}

/// A buffer to be written: no two neighbours alike, so that any byte written would show.
pub fn buffer(length: usize) -> Vec<u8> {
    (0..length).map(|k| 0xa0 + (k % 13) as u8).collect()
}

pub fn record(kind: u8, first: usize, second: usize, value: u32) -> [u8; 8] {
    let v = value.to_le_bytes();
    [kind, first as u8, second as u8, 0, v[0], v[1], v[2], v[3]]
}

fn head(setup: Setup, default: u32) -> Vec<u8> {
    let Setup { algorithm, n, t, e, alpha } = setup;
    let mut bytes = vec![kind::SETUP, algorithm, n, t, e, alpha, 0, 0];
    bytes.extend(record(kind::DEFAULT, 0, 0, default));
    bytes
}

pub fn opening(setup: Setup, default: u32, starts: &[u32]) -> Vec<u8> {
    let mut bytes = head(setup, default);
    for (p, &start) in starts.iter().enumerate() {
        bytes.extend(record(kind::START, p, 0, start));
    }
    bytes
}

/// The run that this opening would give.
pub fn opened(setup: Setup, default: u32, starts: &[u32]) -> Run {
    Run { setup, default, estimates: padded(starts), ..Run::IDLE }
}

/// The image of a run with n at most 32.
pub fn image(run: &Run) -> Vec<u8> {
    let n = run.setup.stations();
    let choose = |flag, yes, no| if flag { yes } else { no };
    let mut bytes = head(run.setup, run.default);
    bytes.extend(record(kind::CLOCK, 0, 0, run.clock));
    bytes.extend((0..n).flat_map(|p| record(kind::ESTIMATE, p, 0, run.estimates[p])));
    bytes.extend(
        (0..n).flat_map(|p| {
            record(choose(run.voted[p], kind::VOTE, kind::NO_VOTE), p, 0, run.votes[p])
        }),
    );
    bytes.extend((0..n).flat_map(|p| {
        record(choose(run.decided[p], kind::DECIDED, kind::UNDECIDED), p, 0, run.decisions[p])
    }));
    bytes.extend((0..n).flat_map(|p| record(kind::DECISION_ROUND, p, 0, run.rounds[p])));
    bytes
}

/// The n by n cells of a round.
pub fn round(run: &Run, matrix: &Matrix) -> Vec<u8> {
    let n = run.setup.stations();
    let mut bytes = Vec::new();
    for (p, row) in matrix[..n].iter().enumerate() {
        for (q, cell) in row[..n].iter().enumerate() {
            bytes.extend(match *cell {
                Cell::Lost => record(kind::LOST, p, q, 0),
                Cell::Value(value) => record(kind::HEARD, p, q, value),
                Cell::Query => record(kind::HEARD_QUERY, p, q, 0),
            });
        }
    }
    bytes
}

/// The round in which all hear what was sent.
pub fn heard(run: &Run) -> Matrix {
    let n = run.setup.stations();
    let mut matrix = ALL_LOST;
    for row in &mut matrix[..n] {
        for (q, cell) in row[..n].iter_mut().enumerate() {
            *cell = run.sends(q);
        }
    }
    matrix
}

/// Another cell in the place of that of a receiver and a sender.
pub type Change = (usize, usize, Cell);

/// The round in which all hear what was sent, but for these cells.
pub fn heard_but(run: &Run, changes: &[Change]) -> Matrix {
    let mut matrix = heard(run);
    for &(p, q, cell) in changes {
        matrix[p][q] = cell;
    }
    matrix
}

/// The bytes with some of them changed: record, byte of the record, new value.
pub fn with(bytes: &[u8], changes: &[(usize, usize, u8)]) -> Vec<u8> {
    let mut bytes = bytes.to_vec();
    for &(k, byte, value) in changes {
        bytes[8 * k + byte] = value;
    }
    bytes
}

/// The bytes with other records in the place of some.
pub fn with_records(bytes: &[u8], changes: &[(usize, [u8; 8])]) -> Vec<u8> {
    let mut bytes = bytes.to_vec();
    for (k, record) in changes {
        bytes[8 * k..8 * k + 8].copy_from_slice(record);
    }
    bytes
}

/// The bytes with two records in each other's place.
pub fn swapped(bytes: &[u8], j: usize, k: usize) -> Vec<u8> {
    let mut bytes = bytes.to_vec();
    for byte in 0..8 {
        bytes.swap(8 * j + byte, 8 * k + byte);
    }
    bytes
}

/// The first bytes, or all of them and zeros.
pub fn resized(bytes: &[u8], length: usize) -> Vec<u8> {
    let mut bytes = bytes.to_vec();
    bytes.resize(length, 0);
    bytes
}

/// The bytes with each byte in turn changed in these bits, with the name of the place.
pub fn each_byte_changed(bytes: &[u8], bits: u8) -> Vec<(String, Vec<u8>)> {
    let changed = |place: usize| {
        let mut changed = bytes.to_vec();
        changed[place] ^= bits;
        (format!("{}.{} ^{bits:02x}", place / 8, place % 8), changed)
    };
    (0..bytes.len()).map(changed).collect()
}
