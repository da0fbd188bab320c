//! The bench sheet, cases 1 to 16 (`tapes/README.md` has them), its listing, and the order of the
//! refusals (section 12 of `docs/RULES.md`).

use super::*;

fn setup(algorithm: u8, n: u8, t: u8, e: u8, alpha: u8) -> Setup {
    Setup { algorithm, n, t, e, alpha }
}

fn at(number: u32, place: u32) -> Reply {
    Reply { number, place }
}

fn padded(values: &[u32]) -> [u32; 32] {
    let mut all = [0; 32];
    all[..values.len()].copy_from_slice(values);
    all
}

/// An opening, byte by byte and without any check.
fn opening(setup: Setup, default: u32, starts: &[u32]) -> Vec<u8> {
    let Setup { algorithm, n, t, e, alpha } = setup;
    let mut bytes = vec![1, algorithm, n, t, e, alpha, 0, 0, 2, 0, 0, 0];
    bytes.extend(default.to_le_bytes());
    for (p, start) in starts.iter().enumerate() {
        bytes.extend([3, p as u8, 0, 0]);
        bytes.extend(start.to_le_bytes());
    }
    bytes
}

fn opened(setup: Setup, default: u32, starts: &[u32]) -> Run {
    let (reply, run) = open(&opening(setup, default, starts));
    assert_eq!(reply, Reply::ACCEPTED);
    run
}

fn all_heard(run: &Run) -> Matrix {
    let n = run.setup.stations();
    let mut matrix = ALL_LOST;
    for row in &mut matrix[..n] {
        for (q, cell) in row[..n].iter_mut().enumerate() {
            *cell = run.sends(q);
        }
    }
    matrix
}

fn round(run: &Run, matrix: &Matrix) -> Vec<u8> {
    let mut bytes = vec![0; run.setup.round_length()];
    assert_eq!(write_round(run, matrix, &mut bytes), Reply::ACCEPTED);
    bytes
}

fn image(run: &Run) -> Vec<u8> {
    let mut bytes = vec![0; run.setup.image_length()];
    assert_eq!(save(run, &mut bytes), Reply::ACCEPTED);
    bytes
}

/// One accepted round: the run after it and what fired.
fn stepped(run: &Run, matrix: &Matrix) -> (Run, Vec<Option<u32>>) {
    let (reply, after, fired, ..) = step(run, &round(run, matrix));
    assert_eq!(reply, Reply::ACCEPTED);
    (after, fired[..run.setup.stations()].to_vec())
}

fn opening_reply(algorithm: u8, n: u8, t: u8, e: u8, alpha: u8) -> Reply {
    let starts = vec![0; usize::from(n)];
    open(&opening(setup(algorithm, n, t, e, alpha), 0, &starts)).0
}

const A3: Setup = Setup { algorithm: A, n: 3, t: 2, e: 2, alpha: 0 };
const A7: Setup = Setup { algorithm: A, n: 7, t: 6, e: 6, alpha: 1 };
const U6: Setup = Setup { algorithm: U, n: 6, t: 4, e: 4, alpha: 1 };

#[test]
fn cases_1_to_8() {
    assert_eq!(opening_reply(A, 3, 2, 2, 0), at(0, 0));
    assert_eq!(opening_reply(A, 3, 1, 2, 0), at(4, 0));
    assert_eq!(opening_reply(A, 7, 6, 6, 1), at(0, 0));
    assert_eq!(opening_reply(A, 7, 6, 5, 1), at(4, 0));
    assert_eq!(opening_reply(A, 5, 4, 4, 1), at(4, 0));
    assert_eq!(opening_reply(U, 2, 1, 1, 0), at(0, 0));
    assert_eq!(opening_reply(U, 6, 4, 4, 1), at(0, 0));
    assert_eq!(opening_reply(U, 5, 4, 3, 1), at(4, 0));
    assert_eq!(opening_reply(A, 1, 0, 0, 0), at(4, 0));
}

#[test]
fn case_9() {
    let run = opened(A3, 0, &[5, 5, 9]);
    let (run, fired) = stepped(&run, &all_heard(&run));
    assert_eq!(run.estimates, padded(&[5, 5, 5]));
    assert_eq!(fired, [None; 3]);
    assert_eq!(run.decided, [false; 32]);
    let (run, fired) = stepped(&run, &all_heard(&run));
    assert_eq!(fired, [Some(5); 3]);
    assert_eq!(run.decisions, padded(&[5, 5, 5]));
    assert_eq!(run.rounds, padded(&[2, 2, 2]));
}

#[test]
fn case_9_listed() {
    let run = opened(A3, 0, &[5, 5, 9]);
    let first = round(&run, &all_heard(&run));
    let (run, _) = stepped(&run, &all_heard(&run));
    let second = round(&run, &all_heard(&run));
    let tape = [opening(A3, 0, &[5, 5, 9]), first, second].concat();
    assert_eq!(tape.len(), 184);
    assert_eq!(
        listing(&tape),
        "A n=3 T=2 E=2 alpha=0\n\
         1 hold 5 5 5 vote ? ? ? decide - - -\n\
         2 hold 5 5 5 vote ? ? ? decide 5 5 5\n\
         end rounds 2 answer 0 at 0\n"
    );
    assert_eq!(
        listing(&tape[..120]),
        "A n=3 T=2 E=2 alpha=0\n\
         1 hold 5 5 5 vote ? ? ? decide - - -\n\
         end rounds 1 answer 1 at 0\n"
    );
    assert_eq!(listing(&tape[..40]), "A n=3 T=2 E=2 alpha=0\nend rounds 0 answer 0 at 0\n");
    assert_eq!(listing(&tape[..39]), "open refused 1 at 0\n");
    assert_eq!(listing(&[]), "open refused 1 at 0\n");
    assert_eq!(listing(&[1, 1]), "open refused 1 at 0\n");
    let broken = opening(setup(A, 3, 1, 2, 0), 0, &[5, 5, 9]);
    assert_eq!(listing(&broken), "open refused 4 at 0\n");
    let wide = opening(setup(A, 255, 2, 2, 0), 0, &[5, 5, 9]);
    assert_eq!(listing(&wide), "open refused 3 at 0\n");
}

#[test]
fn case_10() {
    for starts in [[5, 9, 7], [9, 5, 7], [9, 7, 5]] {
        let run = opened(A3, 0, &starts);
        let (run, _) = stepped(&run, &all_heard(&run));
        assert_eq!(run.estimates, padded(&[5, 5, 5]));
    }
}

#[test]
fn case_11() {
    let run = opened(A3, 0, &[5, 5, 9]);
    let mut matrix = all_heard(&run);
    matrix[2][2] = Cell::Lost;
    let (run, fired) = stepped(&run, &matrix);
    assert_eq!(run.estimates, padded(&[5, 5, 9]));
    assert_eq!(fired, [None; 3]);
}

#[test]
fn case_12() {
    let run = opened(A7, 0, &[4; 7]);
    let mut matrix = all_heard(&run);
    matrix[0][6] = Cell::Value(8);
    let (after, fired) = stepped(&run, &matrix);
    assert_eq!(after.estimates, padded(&[4; 7]));
    assert_eq!(fired[0], None);
    assert_eq!(fired[1..], [Some(4); 6]);
    assert_eq!(after.rounds, padded(&[0, 1, 1, 1, 1, 1, 1]));
    matrix[0][2] = Cell::Value(8);
    let (reply, after, fired, ho, sho) = step(&run, &round(&run, &matrix));
    assert_eq!(reply, at(6, 0));
    assert_eq!((after, fired, ho, sho), (run, NONE_FIRED, EMPTY, EMPTY));
}

#[test]
fn case_13() {
    let run = opened(U6, 0, &[3; 6]);
    let mut matrix = all_heard(&run);
    matrix[2][5] = Cell::Value(7);
    let (run, fired) = stepped(&run, &matrix);
    assert_eq!(run.votes, padded(&[3; 6]));
    assert_eq!(run.voted[..6], [true; 6]);
    assert_eq!(fired, [None; 6]);
    let (run, fired) = stepped(&run, &all_heard(&run));
    assert_eq!(fired, [Some(3); 6]);
    assert_eq!(run.decisions, padded(&[3; 6]));
    assert_eq!(run.rounds, padded(&[2; 6]));
    assert_eq!(run.voted, [false; 32]);
}

#[test]
fn case_14() {
    let run = opened(U6, 0, &[1, 1, 1, 2, 2, 2]);
    let (run, _) = stepped(&run, &all_heard(&run));
    assert_eq!(run.voted, [false; 32]);
    assert_eq!(run.estimates, padded(&[1, 1, 1, 2, 2, 2]));
    let (run, fired) = stepped(&run, &all_heard(&run));
    assert_eq!(run.estimates, [0; 32]);
    assert_eq!(fired, [None; 6]);
    let (run, _) = stepped(&run, &all_heard(&run));
    assert_eq!(run.voted[..6], [true; 6]);
    let (run, fired) = stepped(&run, &all_heard(&run));
    assert_eq!(fired, [Some(0); 6]);
    assert_eq!(run.rounds, padded(&[4; 6]));
}

#[test]
fn case_15() {
    let run = opened(U6, 0, &[3; 6]);
    let mut matrix = all_heard(&run);
    matrix[0][1] = Cell::Lost;
    matrix[0][4] = Cell::Lost;
    let (reply, ..) = step(&run, &round(&run, &matrix));
    assert_eq!(reply, at(7, 0));
    matrix[3][0] = Cell::Value(7);
    matrix[3][1] = Cell::Value(7);
    let (reply, after, ..) = step(&run, &round(&run, &matrix));
    assert_eq!(reply, at(6, 3));
    assert_eq!(after, run);
    let (reply, ho, sho) = survey(&run, &round(&run, &matrix));
    assert_eq!(reply, at(0, 0));
    assert_eq!(ho, padded(&[0x2d, 0x3f, 0x3f, 0x3f, 0x3f, 0x3f]));
    assert_eq!(sho, padded(&[0x2d, 0x3f, 0x3f, 0x3c, 0x3f, 0x3f]));
}

#[test]
fn case_16() {
    assert_eq!(opening_reply(A, 32, 31, 31, 7), at(0, 0));
    assert_eq!(opening_reply(U, 32, 31, 31, 15), at(0, 0));
    assert_eq!(opening_reply(A, 33, 32, 32, 0), at(3, 0));
    assert_eq!(opening_reply(A, 0, 0, 0, 0), at(3, 0));

    let mut run = opened(A3, 0, &[5, 5, 9]);
    run.clock = 4095;
    let (run, _) = stepped(&run, &all_heard(&run));
    assert_eq!(run.clock, 4096);
    let bytes = round(&run, &all_heard(&run));
    assert_eq!(step(&run, &bytes).0, at(8, 0));
    assert_eq!(step(&run, &[]).0, at(8, 0));
    assert_eq!(survey(&run, &bytes), (at(0, 0), padded(&[7; 3]), padded(&[7; 3])));
    assert_eq!(play(&run, &bytes), (at(8, 0), run, 0));
    assert_eq!(play(&run, &[]), (at(0, 0), run, 0));

    let run = opened(A3, 0, &[5, 5, 9]);
    let bytes = round(&run, &all_heard(&run));
    assert_eq!(step(&run, &bytes[..64]).0, at(1, 0));
}

#[test]
fn full_run_of_4096_rounds() {
    let mut run = opened(setup(U, 2, 1, 1, 0), 6, &[6, 6]);
    let mut tape = Vec::new();
    let first = run;
    for _ in 0..4096 {
        let matrix = all_heard(&run);
        tape.extend(round(&run, &matrix));
        run = stepped(&run, &matrix).0;
    }
    assert_eq!(run.clock, 4096);
    assert_eq!(run.rounds, padded(&[2, 2]));
    assert_eq!(play(&first, &tape), (at(0, 0), run, 4096));
    tape.push(0);
    assert_eq!(play(&first, &tape), (at(8, 0), run, 4096));
}

#[test]
fn decides_on_what_was_received() {
    let run = opened(setup(A, 5, 4, 3, 0), 0, &[9, 4, 4, 4, 4]);
    let mut matrix = all_heard(&run);
    matrix[0][0] = Cell::Lost;
    let (after, fired) = stepped(&run, &matrix);
    assert_eq!(after.estimates, padded(&[9, 4, 4, 4, 4]));
    assert_eq!(fired, [Some(4); 5]);
    assert_eq!(after.decisions, padded(&[4; 5]));
}

#[test]
fn smallest_of_two_votes() {
    let mut run = opened(U6, 1, &[0; 6]);
    run.clock = 1;
    run.votes = padded(&[7, 7, 7, 3, 3, 3]);
    run.voted[..6].fill(true);
    let (after, fired) = stepped(&run, &all_heard(&run));
    assert_eq!(after.estimates, padded(&[3; 6]));
    assert_eq!(fired, [None; 6]);
}

#[test]
fn first_decision_is_kept() {
    let mut run = opened(A3, 0, &[5, 5, 5]);
    run.clock = 3;
    run.decided[1] = true;
    run.decisions[1] = 9;
    run.rounds[1] = 2;
    let (after, fired) = stepped(&run, &all_heard(&run));
    assert_eq!(fired, [Some(5); 3]);
    assert_eq!(after.decisions, padded(&[5, 9, 5]));
    assert_eq!(after.rounds, padded(&[4, 2, 4]));
}

/// A run of U with n 6 at an odd clock, with votes and decisions of both sorts.
fn busy_run() -> Run {
    let mut run = opened(U6, 8, &[1, 2, 3, 4, 5, u32::MAX]);
    run.clock = 5;
    for (p, value) in [(0, 0), (2, 7), (5, u32::MAX)] {
        run.voted[p] = true;
        run.votes[p] = value;
    }
    for (p, value, round) in [(1, 0, 2), (4, 9, 4)] {
        run.decided[p] = true;
        run.decisions[p] = value;
        run.rounds[p] = round;
    }
    assert!(sound(&run));
    run
}

#[test]
fn images_and_openings_read_back() {
    let run = busy_run();
    assert_eq!(load(&image(&run)), (at(0, 0), run));
    let bytes = opening(U6, 8, &[1, 2, 3, 4, 5, 6]);
    let mut written = vec![0xee; bytes.len()];
    assert_eq!(write_opening(U6, 8, padded(&[1, 2, 3, 4, 5, 6]), &mut written), at(0, 0));
    assert_eq!(written, bytes);
    let mut matrix = all_heard(&run);
    matrix[1][3] = Cell::Lost;
    matrix[5][0] = Cell::Query;
    assert_eq!(read_round(&run, &round(&run, &matrix)), (at(0, 0), matrix));
}

/// Each byte of a good image changed in turn: it is refused or means another run, and what is
/// accepted is written back as the same bytes.
#[test]
fn every_byte_of_an_image_counts() {
    let good = image(&busy_run());
    for place in 0..good.len() {
        for change in 1..=255 {
            let mut bytes = good.clone();
            bytes[place] ^= change;
            let (reply, run) = load(&bytes);
            if reply.accepted() {
                assert_eq!(image(&run), bytes);
            } else {
                assert_eq!(run, Run::IDLE);
                assert!([1, 2, 3, 4, 10].contains(&reply.number));
            }
        }
    }
}

#[test]
fn order_of_refusals_in_an_image() {
    let good = image(&busy_run());
    let spoil = |changes: &[(usize, usize, u8)]| {
        let mut bytes = good.clone();
        for &(k, byte, value) in changes {
            bytes[8 * k + byte] = value;
        }
        load(&bytes).0
    };
    // Clock 4,101 and a bad kind at record 20.
    assert_eq!(spoil(&[(2, 5, 16)]), at(10, 2));
    assert_eq!(spoil(&[(2, 5, 16), (20, 0, 0)]), at(2, 20));
    assert_eq!(spoil(&[(2, 4, 4)]), at(10, 9));
    assert_eq!(spoil(&[(2, 4, 4), (26, 4, 1)]), at(10, 9));
    assert_eq!(spoil(&[(22, 4, 0)]), at(10, 22));
    assert_eq!(spoil(&[(22, 4, 1)]), at(10, 22));
    assert_eq!(spoil(&[(22, 4, 6)]), at(10, 22));
    assert_eq!(spoil(&[(21, 4, 2)]), at(10, 21));
    assert_eq!(spoil(&[(21, 4, 2), (26, 3, 1)]), at(2, 26));
    assert_eq!(spoil(&[(0, 6, 1), (0, 1, 0)]), at(2, 0));
    assert_eq!(spoil(&[(0, 1, 0), (0, 3, 0)]), at(3, 0));
    assert_eq!(spoil(&[(0, 3, 0), (1, 0, 0)]), at(4, 0));
    assert_eq!(spoil(&[(0, 1, 1)]), at(4, 0));
    assert_eq!(load(&good[..7]).0, at(1, 0));
    assert_eq!(load(&good[..8]).0, at(1, 0));
}

#[test]
fn order_of_refusals_in_a_round() {
    let run = opened(A3, 0, &[5, 5, 9]);
    let good = round(&run, &all_heard(&run));
    let spoil = |changes: &[(usize, [u8; 8])]| {
        let mut bytes = good.clone();
        for &(k, record) in changes {
            bytes[8 * k..8 * k + 8].copy_from_slice(&record);
        }
        step(&run, &bytes).0
    };
    let query = [5, 1, 2, 0, 0, 0, 0, 0];
    let lost_with_number = [6, 2, 0, 0, 1, 0, 0, 0];
    assert_eq!(spoil(&[(5, query)]), at(5, 5));
    assert_eq!(spoil(&[(5, query), (6, lost_with_number)]), at(5, 5));
    assert_eq!(spoil(&[(6, lost_with_number)]), at(2, 6));
    assert_eq!(spoil(&[(4, query)]), at(2, 4));
    assert_eq!(spoil(&[(0, [4, 0, 0, 0, 6, 0, 0, 0]), (6, lost_with_number)]), at(2, 6));
    assert_eq!(spoil(&[(3, [4, 1, 0, 0, 6, 0, 0, 0])]), at(6, 1));

    let mut full = run;
    full.clock = 4096;
    assert_eq!(step(&full, &good[1..]).0, at(8, 0));
    full.clock = 4097;
    assert_eq!(step(&full, &good[1..]), (at(10, 0), full, NONE_FIRED, EMPTY, EMPTY));
    assert_eq!(play(&full, &[]), (at(10, 0), full, 0));
    assert_eq!(play(&Run::IDLE, &[]), (at(10, 0), Run::IDLE, 0));
}

#[test]
fn order_of_refusals_in_writing() {
    let starts = padded(&[5, 5, 9, 1]);
    let buffer = &mut [0xee; 41];
    assert_eq!(write_opening(setup(3, 3, 0, 0, 0), 1, starts, buffer), at(3, 0));
    assert_eq!(write_opening(setup(A, 3, 0, 0, 0), 1, starts, buffer), at(4, 0));
    assert_eq!(write_opening(A3, 1, starts, buffer), at(2, 1));
    assert_eq!(write_opening(A3, 0, starts, buffer), at(2, 5));
    assert_eq!(write_opening(A3, 0, padded(&[5, 5, 9]), buffer), at(9, 0));
    let run = opened(A3, 0, &[5, 5, 9]);
    let mut matrix = all_heard(&run);
    matrix[2][1] = Cell::Query;
    matrix[0][3] = Cell::Query;
    assert_eq!(write_round(&run, &matrix, buffer), at(5, 7));
    matrix[2][1] = Cell::Lost;
    assert_eq!(write_round(&run, &matrix, buffer), at(2, 9));
    matrix[0][3] = Cell::Lost;
    assert_eq!(write_round(&run, &matrix, buffer), at(9, 0));
    assert_eq!(write_round(&Run::IDLE, &matrix, buffer), at(10, 0));
    assert_eq!(save(&run, buffer), at(9, 0));
    assert_eq!(save(&Run::IDLE, buffer), at(10, 0));
    assert_eq!(buffer, &[0xee; 41]);
}

#[test]
fn rules_of_a_run() {
    let good = busy_run();
    let broken = |change: &dyn Fn(&mut Run)| {
        let mut run = good;
        change(&mut run);
        !sound(&run)
    };
    assert!(!sound(&Run::IDLE));
    assert!(broken(&|run| run.setup.n = 200));
    assert!(broken(&|run| run.setup.algorithm = A));
    assert!(broken(&|run| run.clock = 4097));
    assert!(broken(&|run| run.clock = 6));
    assert!(broken(&|run| run.estimates[6] = 1));
    assert!(broken(&|run| run.voted[31] = true));
    assert!(broken(&|run| run.votes[31] = 1));
    assert!(broken(&|run| run.decided[6] = true));
    assert!(broken(&|run| run.decisions[6] = 1));
    assert!(broken(&|run| run.rounds[6] = 2));
    assert!(broken(&|run| run.votes[1] = 1));
    assert!(broken(&|run| run.decisions[0] = 1));
    assert!(broken(&|run| run.rounds[0] = 2));
    assert!(broken(&|run| run.rounds[1] = 0));
    assert!(broken(&|run| run.rounds[1] = 1));
    assert!(broken(&|run| run.rounds[1] = 6));
    let mut of_a = opened(A3, 0, &[5, 5, 9]);
    of_a.default = 1;
    assert!(!sound(&of_a));
}

#[test]
fn the_switch() {
    let run = opened(A3, 0, &[5, 5, 9]);
    let bytes = opening(A3, 0, &[5, 5, 9]);
    let mut buffer = vec![0xee; 120];
    assert_eq!(judge_open(&bytes[..39], &mut buffer), 1);
    assert_eq!(judge_open(&bytes, &mut buffer[1..]), 9);
    assert_eq!(buffer, [0xee; 120]);
    assert_eq!(judge_step(&mut buffer, &[]), 2);
    assert_eq!(judge_open(&bytes, &mut buffer), 0);
    assert_eq!(buffer, image(&run));
    let mut matrix = all_heard(&run);
    matrix[1][0] = Cell::Value(6);
    assert_eq!(judge_step(&mut buffer, &round(&run, &matrix)), 1 << 32 | 6);
    assert_eq!(buffer, image(&run));
    assert_eq!(judge_step(&mut buffer, &round(&run, &all_heard(&run))), 0);
    assert_eq!(buffer, image(&stepped(&run, &all_heard(&run)).0));
    buffer[8 * 12 + 4] = 1;
    assert_eq!(judge_step(&mut buffer, &[]), 12 << 32 | 10);
}

#[test]
fn sets_go_by_column() {
    // Station 1 hears its own estimate from station 0, which is altered, and loses station 2;
    // station 2 hears all as they were sent.
    let run = opened(A3, 0, &[5, 7, 7]);
    let mut matrix = all_heard(&run);
    matrix[1] = ALL_LOST[1];
    matrix[1][0] = Cell::Value(7);
    matrix[1][1] = Cell::Value(7);
    let (reply, ho, sho) = survey(&run, &round(&run, &matrix));
    assert_eq!(reply, at(0, 0));
    assert_eq!(ho, padded(&[7, 3, 7]));
    assert_eq!(sho, padded(&[7, 2, 7]));
}
