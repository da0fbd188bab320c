//! Rounds played, one by one and many at a time: operations 9 and 10 (rules 12.8 and 12.9).

use crate::make::*;
use crate::sheet::Sheet;
use independent::{kind, Cell, Matrix, Run, Setup, A, ALL_LOST, U};

const MAX: u32 = u32::MAX;
const LOST: Cell = Cell::Lost;
const QUERY: Cell = Cell::Query;

pub fn fill(sheet: &mut Sheet) {
    bench_sheet_of_a(sheet);
    bench_sheet_of_u(sheet);
    last_round(sheet);
    rules_of_a(sheet);
    rules_of_u(sheet);
    many_stations(sheet);
    refused_steps(sheet);
    plays(sheet);
    long_plays(sheet);
}

fn value(value: u32) -> Cell {
    Cell::Value(value)
}

/// A run of U before the vote round 2, with these votes.
fn voting(setup: Setup, default: u32, starts: &[u32], votes: &[Option<u32>]) -> Run {
    let mut run = Run { clock: 1, ..opened(setup, default, starts) };
    for (p, vote) in votes.iter().enumerate() {
        run.voted[p] = vote.is_some();
        run.votes[p] = vote.unwrap_or(0);
    }
    run
}

/// A station of a run decides this value in this round.
fn decide(run: &mut Run, p: usize, value: u32, round: u32) {
    run.decided[p] = true;
    run.decisions[p] = value;
    run.rounds[p] = round;
}

/// A step by the round in which all is heard but for these cells.
fn step(sheet: &mut Sheet, label: &str, run: &Run, changes: &[Change]) -> Run {
    sheet.step(label, run, &round(run, &heard_but(run, changes)))
}

/// The tape of these rounds, each made from the run it is offered to; all are accepted.
fn tape(run: &Run, rounds: usize, make: impl Fn(usize, &Run) -> Matrix) -> Vec<u8> {
    let mut run = *run;
    let mut tape = Vec::new();
    for k in 0..rounds {
        let bytes = round(&run, &make(k, &run));
        let (reply, after, ..) = independent::step(&run, &bytes);
        assert!(reply.accepted(), "{reply} to round {k}");
        tape.extend(bytes);
        run = after;
    }
    tape
}

fn tape_heard(run: &Run, rounds: usize) -> Vec<u8> {
    tape(run, rounds, |_, run| heard(run))
}

fn bench_sheet_of_a(sheet: &mut Sheet) {
    let start = opened(A3, 0, &[5, 5, 9]);
    let run = step(sheet, "case 9 round 1", &start, &[]);
    let run = step(sheet, "case 9 round 2", &run, &[]);
    step(sheet, "case 9 round 3", &run, &[]);
    sheet.play("case 9 played", &start, &tape_heard(&start, 2));

    for starts in [[5, 9, 7], [9, 5, 7], [9, 7, 5], [7, 9, 5]] {
        let run = opened(A3, 0, &starts);
        let [a, b, c] = starts;
        let run = step(sheet, &format!("case 10 starts {a} {b} {c}"), &run, &[]);
        step(sheet, &format!("case 10 starts {a} {b} {c} again"), &run, &[]);
    }
    let start = opened(A3, 0, &[5, 9, 7]);
    sheet.play("case 10 played", &start, &tape_heard(&start, 1));

    let start = opened(A3, 0, &[5, 5, 9]);
    let run = step(sheet, "case 11", &start, &[(2, 2, LOST)]);
    step(sheet, "case 11 and all heard", &run, &[]);
    let hears_two = |k: usize, run: &Run| match k {
        0 => heard_but(run, &[(2, 2, LOST)]),
        _ => heard(run),
    };
    sheet.play("case 11 played", &start, &tape(&start, 3, hears_two));

    let start = opened(A7, 0, &[4; 7]);
    let run = step(sheet, "case 12", &start, &[(0, 6, value(8))]);
    step(sheet, "case 12 and all heard", &run, &[]);
    step(sheet, "case 12 two altered", &start, &[(0, 6, value(8)), (0, 2, value(8))]);
    step(sheet, "case 12 two altered, differently", &start, &[(0, 6, value(8)), (0, 2, value(9))]);
    let mut bytes = tape(&start, 2, |_, run| heard_but(run, &[(0, 6, value(8))]));
    bytes.extend(round(&start, &heard_but(&start, &[(0, 6, value(8)), (0, 2, value(8))])));
    sheet.play("case 12 played", &start, &bytes);
}

fn bench_sheet_of_u(sheet: &mut Sheet) {
    let start = opened(U6, 0, &[3; 6]);
    let run = step(sheet, "case 13 round 1", &start, &[(2, 5, value(7))]);
    let run = step(sheet, "case 13 round 2", &run, &[]);
    let run = step(sheet, "case 13 round 3", &run, &[]);
    step(sheet, "case 13 round 4", &run, &[]);
    let altered_once = |k: usize, run: &Run| match k {
        0 => heard_but(run, &[(2, 5, value(7))]),
        _ => heard(run),
    };
    sheet.play("case 13 played", &start, &tape(&start, 2, altered_once));

    let start = opened(U6, 0, &[1, 1, 1, 2, 2, 2]);
    let mut run = start;
    for round in 1..=4 {
        run = step(sheet, &format!("case 14 round {round}"), &run, &[]);
    }
    sheet.play("case 14 played", &start, &tape_heard(&start, 4));

    let start = opened(U6, 0, &[3; 6]);
    let two_lost = [(0, 1, LOST), (0, 4, LOST)];
    let two_altered = [(3, 0, value(7)), (3, 1, value(7))];
    let case_15 = [two_lost, two_altered].concat();
    step(sheet, "case 15", &start, &case_15);
    step(sheet, "case 15 but the alterations", &start, &two_lost);
    step(sheet, "case 15 but the losses", &start, &two_altered);
    sheet.play("case 15 played", &start, &round(&start, &heard_but(&start, &case_15)));
}

/// Case 16: round 4,096 is accepted and the next is refused (rule 11.8).
fn last_round(sheet: &mut Sheet) {
    let runs = [
        ("A3", Run { clock: 4094, ..opened(A3, 0, &[5, 5, 9]) }),
        ("U2", Run { clock: 4094, ..opened(U2, 9, &[1, 1]) }),
        ("U6", Run { clock: 4094, ..opened(U6, 9, &[3, 3, 3, 3, 3, 8]) }),
    ];
    for (name, start) in runs {
        let run = step(sheet, &format!("case 16 {name} round 4095"), &start, &[]);
        let run = step(sheet, &format!("case 16 {name} round 4096"), &run, &[]);
        step(sheet, &format!("case 16 {name} round 4097"), &run, &[]);
        sheet.step(&format!("case 16 {name} 4097 nothing"), &run, &[]);
        sheet.step(&format!("case 16 {name} 4097 bad bytes"), &run, &buffer(72));
        let mut bytes = tape_heard(&start, 2);
        sheet.play(&format!("case 16 {name} to 4096"), &start, &bytes);
        bytes.push(4);
        sheet.play(&format!("case 16 {name} and a byte more"), &start, &bytes);
        bytes.pop();
        bytes.extend(round(&run, &heard(&run)));
        sheet.play(&format!("case 16 {name} and a round more"), &start, &bytes);
        sheet.play(&format!("case 16 {name} full, nothing"), &run, &[]);
        sheet.play(&format!("case 16 {name} full, a byte"), &run, &[4]);
    }
    for (name, run) in [("A3", opened(A3, 0, &[5, 5, 9])), ("U2", opened(U2, 9, &[1, 1]))] {
        let bytes = round(&run, &heard(&run));
        sheet.step(&format!("case 16 {name} a record short"), &run, &bytes[..bytes.len() - 8]);
        sheet.play(&format!("case 16 {name} short played"), &run, &bytes[..bytes.len() - 8]);
    }
}

fn rules_of_a(sheet: &mut Sheet) {
    // The decision looks at what was received, not at the new estimate (rule 8.5).
    let run = opened(A5, 0, &[9, 4, 4, 4, 4]);
    let run = step(sheet, "A5 own frame lost", &run, &[(0, 0, LOST)]);
    step(sheet, "A5 own frame lost, all heard", &run, &[]);
    // The first decision is kept, also against another value.
    let mut run = Run { clock: 3, ..opened(A3, 0, &[5, 5, 5]) };
    decide(&mut run, 0, 9, 1);
    decide(&mut run, 2, 5, 3);
    let run = step(sheet, "A3 decided 9 before", &run, &[]);
    step(sheet, "A3 decided 9 before, again", &run, &[]);

    // On both sides of the thresholds: T 6, E 6, alpha 1.
    let run = opened(A7, 0, &[4, 4, 4, 4, 4, 4, 9]);
    for lost in 0..=2 {
        for altered in 0..=2 {
            let mut changes = Vec::new();
            changes.extend((0..lost).map(|q| (6, q, LOST)));
            changes.extend((0..altered).map(|k| (6, 6 - k, value(4 + k as u32))));
            let label = format!("A7 {lost} lost {altered} altered");
            step(sheet, &label, &run, &changes);
        }
    }
    let run = opened(setup(A, 7, 4, 5, 0), 0, &[1, 1, 1, 2, 2, 2, 0]);
    step(sheet, "A7 tie of 1 and 2", &run, &[]);
    step(sheet, "A7 tie of two and two", &run, &[(3, 0, LOST), (3, 3, LOST)]);
    step(sheet, "A7 more 2 than 1", &run, &[(3, 0, LOST), (4, 6, LOST), (4, 1, LOST)]);
    step(sheet, "A7 on T", &run, &[(0, 0, LOST), (0, 1, LOST), (0, 2, LOST)]);
    step(sheet, "A7 one above T", &run, &[(0, 0, LOST), (0, 1, LOST)]);
    let run = opened(setup(A, 7, 4, 5, 0), 0, &[8, 8, 8, 8, 8, 8, 1]);
    step(sheet, "A7 one above E", &run, &[(2, 6, LOST)]);
    step(sheet, "A7 on E", &run, &[(2, 0, LOST)]);
    let run = opened(A3, 0, &[MAX, MAX, 0]);
    step(sheet, "A3 max max 0", &run, &[]);
    step(sheet, "A3 max and 0", &opened(A3, 0, &[MAX, 0, MAX - 1]), &[]);
    step(sheet, "A3 2^31 and below", &opened(A3, 0, &[1 << 31, (1 << 31) - 1, 1 << 31]), &[]);
    // A lost cell is not value 0 (rule 7.10).
    let run = opened(A7, 0, &[0, 0, 0, 0, 0, 0, 9]);
    step(sheet, "A7 lost is not 0", &run, &[(0, 6, LOST), (6, 6, LOST)]);
    // Nothing heard, nothing changed.
    let run = opened(A3, 0, &[5, 5, 9]);
    sheet.step("A3 all lost", &run, &round(&run, &ALL_LOST));
    step(sheet, "A3 own estimate from another", &opened(A3, 0, &[5, 7, 7]), &[(1, 0, value(7))]);
    step(sheet, "A3 altered at 2", &run, &[(2, 1, value(6)), (1, 1, LOST)]);
    // One altered cell makes a tie.
    let run = opened(A7, 0, &[3, 3, 3, 8, 8, 8, 8]);
    step(sheet, "A7 altered to the smaller", &run, &[(1, 3, value(3))]);
    step(sheet, "A7 altered to a third", &run, &[(1, 3, value(1))]);
}

fn rules_of_u(sheet: &mut Sheet) {
    let (some, none) = (Some::<u32>, None::<u32>);
    let two_sorts = [7, 7, 7, 3, 3, 3].map(some);
    let run = voting(U6, 1, &[0; 6], &two_sorts);
    let run = step(sheet, "U6 votes 7 7 7 3 3 3", &run, &[]);
    step(sheet, "U6 votes 7 7 7 3 3 3 next", &run, &[]);
    // The first decision is kept, also against another value.
    let mut run = voting(U6, 1, &[7; 6], &[some(7); 6]);
    run.clock = 3;
    decide(&mut run, 0, 9, 2);
    decide(&mut run, 5, 7, 2);
    step(sheet, "U6 decided 9 before", &run, &[]);

    // On both sides of the thresholds: T 4, E 4, alpha 1, more than 4 safe.
    let value_round = opened(U6, 1, &[3, 3, 3, 3, 3, 8]);
    let vote_round = voting(U6, 1, &[6; 6], &[some(3), some(3), some(3), some(3), some(3), none]);
    for (name, run) in [("value", value_round), ("vote", vote_round)] {
        for lost in 0..=2 {
            for altered in 0..=2 {
                let mut changes = Vec::new();
                changes.extend((0..lost).map(|q| (4, q, LOST)));
                changes.extend((0..altered).map(|k| (4, 5 - k, value(3 + k as u32))));
                let label = format!("U6 {name} {lost} lost {altered} altered");
                step(sheet, &label, &run, &changes);
            }
        }
    }
    step(sheet, "U6 value 8 lost", &value_round, &[(1, 5, LOST)]);
    step(sheet, "U6 value on T", &value_round, &[(1, 0, value(8))]);
    step(sheet, "U6 vote ? lost", &vote_round, &[(1, 5, LOST)]);
    step(sheet, "U6 vote altered to ?", &vote_round, &[(1, 0, QUERY)]);
    let run = opened(U6, 1, &[0, 0, 0, 0, 9, 9]);
    step(sheet, "U6 lost is not 0", &run, &[(0, 4, LOST)]);

    // alpha + 1 votes (rule 9.6)
    let run = voting(U6, 1, &[6; 6], &[none, none, none, none, none, some(3)]);
    step(sheet, "U6 one vote", &run, &[]);
    step(sheet, "U6 one vote and one more", &run, &[(2, 0, value(3))]);
    step(sheet, "U6 one vote and another", &run, &[(2, 0, value(9))]);
    step(sheet, "U6 no vote heard", &run, &[(2, 5, LOST)]);
    let run = voting(U6, 8, &[6; 6], &[none; 6]);
    let run = step(sheet, "U6 all ?", &run, &[(3, 3, LOST), (4, 2, value(8))]);
    step(sheet, "U6 all ? next", &run, &[]);
    let nearly = [9, 9, 9, 9, 9, 3].map(some);
    let run = voting(U6, 1, &[6; 6], &nearly);
    step(sheet, "U6 two for 3", &run, &[(0, 0, value(3)), (1, 5, LOST), (2, 0, LOST)]);
    step(sheet, "U6 ? from a voter", &run, &[(0, 0, QUERY), (3, 5, QUERY)]);
    let run = voting(U6, 1, &[6; 6], &[some(0), some(0), some(MAX), some(MAX), none, none]);
    step(sheet, "U6 votes of 0 and max", &run, &[(5, 0, LOST), (4, 0, value(MAX))]);
    // What a sender holds is not what it is to send in a vote round.
    let run = voting(U6, 1, &[4; 6], &[some(5); 6]);
    step(sheet, "U6 estimate for a vote", &run, &[(0, 3, value(4)), (1, 3, value(4))]);
    step(sheet, "U6 two estimates for votes", &run, &[(1, 3, value(4)), (1, 4, value(4))]);
    // Two stations: all must be heard.
    let run = opened(U2, 9, &[1, 2]);
    step(sheet, "U2 values differ", &run, &[]);
    step(sheet, "U2 own frame lost", &run, &[(1, 1, LOST)]);
    step(sheet, "U2 altered", &run, &[(1, 1, value(1))]);
    let run = voting(U2, 9, &[1, 2], &[some(2), none]);
    step(sheet, "U2 one vote", &run, &[]);
    step(sheet, "U2 vote altered to ?", &run, &[(0, 0, QUERY)]);
    step(sheet, "U2 ? altered to vote", &run, &[(1, 1, value(2))]);
    let run = voting(U2, 9, &[1, 2], &[some(2), some(2)]);
    step(sheet, "U2 two votes", &run, &[]);
    // 6 over all receivers comes before 7 over all (rule 12.8).
    let run = opened(U7, 0, &[3; 7]);
    let changes = [(1, 0, LOST), (1, 1, LOST), (6, 5, value(1)), (6, 6, value(1))];
    step(sheet, "U7 7 at 1 and 6 at 6", &run, &changes);
    step(sheet, "U7 7 at 1", &run, &changes[..3]);
    step(
        sheet,
        "U7 6 at 2 and 6",
        &run,
        &[&changes[2..], &[(2, 0, value(1)), (2, 1, value(1))]].concat(),
    );
    step(sheet, "U7 lost and altered in one row", &run, &[(5, 0, LOST), (5, 1, value(1))]);
}

/// 32 stations, with rows on both sides of the thresholds.
fn many_stations(sheet: &mut Sheet) {
    // T 30, E 23, alpha 3: 24 stations hold 4, and 8 hold 9.
    let mut starts = [4; 32];
    starts[24..].fill(9);
    let run = opened(A32, 0, &starts);
    let mut changes = vec![
        (0, 24, LOST),
        (0, 31, LOST),
        (2, 3, LOST),
        (5, 31, value(4)),
        (6, 0, value(9)),
        (30, 30, LOST),
        (30, 31, LOST),
    ];
    changes.extend([29, 30, 31].map(|q| (31, q, value(4))));
    step(sheet, "A32 rows on the edge", &run, &changes);
    changes.extend([0, 8, 16, 31].map(|q| (7, q, value(5))));
    step(sheet, "A32 four altered at 7", &run, &changes);

    // T 20, E 19, alpha 3, more than 20 safe: 21 stations hold 5, and 11 hold 6.
    let mut starts = [5; 32];
    starts[21..].fill(6);
    let run = opened(U32, 2, &starts);
    let mut changes = vec![(1, 0, LOST), (2, 31, LOST), (3, 20, value(6))];
    changes.extend((21..32).map(|q| (31, q, LOST)));
    changes.extend((21..29).map(|q| (30, q, LOST)));
    changes.extend((29..32).map(|q| (30, q, value(5))));
    step(sheet, "U32 value rows on the edge", &run, &changes);
    changes.push((31, 0, LOST));
    step(sheet, "U32 value 7 at 31", &run, &changes);
    // Four stations vote 5; the others vote "?".
    let votes: Vec<_> = (0..32).map(|p| if p % 8 == 7 { Some(5) } else { None }).collect();
    let run = voting(U32, 2, &[1; 32], &votes);
    let mut changes = vec![(0, 31, LOST), (1, 31, LOST), (1, 30, value(5)), (31, 7, QUERY)];
    changes.extend((0..3).map(|q| (29, q, value(4))));
    step(sheet, "U32 four votes", &run, &changes);
    // 20 stations vote 0.
    let votes: Vec<_> = (0..32).map(|p| if p >= 12 { Some(0) } else { None }).collect();
    let run = voting(U32, 2, &[1; 32], &votes);
    step(sheet, "U32 twenty votes", &run, &[(31, 31, LOST), (12, 0, LOST), (13, 13, value(1))]);
}

fn refused_steps(sheet: &mut Sheet) {
    // Runs that are none.
    let a3 = opened(A3, 0, &[5, 5, 9]);
    let bytes = round(&a3, &heard(&a3));
    let mut stray = a3;
    stray.rounds[31] = 1;
    let nonsense = Run {
        setup: setup(255, 255, 255, 255, 255),
        default: MAX,
        clock: MAX,
        estimates: [MAX; 32],
        voted: [true; 32],
        votes: [MAX; 32],
        decided: [true; 32],
        decisions: [MAX; 32],
        rounds: [MAX; 32],
    };
    let runs = [
        ("idle", Run::IDLE),
        ("A1", opened(setup(A, 1, 0, 0, 0), 0, &[5])),
        ("U1", opened(setup(U, 1, 0, 0, 0), 0, &[5])),
        ("n 33", Run { setup: setup(A, 33, 32, 32, 0), ..a3 }),
        ("n 200", Run { setup: setup(U, 200, 199, 199, 0), ..a3 }),
        ("nonsense", nonsense),
        ("default 1", Run { default: 1, ..a3 }),
        ("clock 4097", Run { clock: 4097, ..a3 }),
        ("round of 31", stray),
        ("round of 31 at 4096", Run { clock: 4096, ..stray }),
    ];
    for (name, run) in runs {
        sheet.step(&format!("step? {name}"), &run, &bytes);
        sheet.step(&format!("step? {name} nothing"), &run, &[]);
        sheet.play(&format!("play? {name}"), &run, &bytes);
        sheet.play(&format!("play? {name} nothing"), &run, &[]);
    }
    // Lengths
    for length in [0, 1, 36, 64, 71, 73, 80, 144] {
        sheet.step(&format!("step A3 {length} bytes"), &a3, &resized(&bytes, length));
    }
    // Every byte in turn
    let vote_round = voting(U2, 9, &[1, 2], &[Some(2), None]);
    for (place, changed) in each_byte_changed(&round(&vote_round, &heard(&vote_round)), 0x01) {
        sheet.step(&format!("step U2 vote {place}"), &vote_round, &changed);
    }
    let lost_one = round(&a3, &heard_but(&a3, &[(0, 0, LOST)]));
    for (place, changed) in each_byte_changed(&lost_one[..24], 0x80) {
        let changed = [&changed, &lost_one[24..]].concat();
        sheet.step(&format!("step A3 {place}"), &a3, &changed);
    }
    // Two faults at once: 2 and 5 by record, and before 6 and 7 (rules 12.5 and 12.8).
    let query = |p, q| record(kind::HEARD_QUERY, p, q, 0);
    let altered = round(&a3, &heard_but(&a3, &[(0, 0, value(6))]));
    sheet.step("step A3 6 at 0", &a3, &altered);
    sheet.step("step A3 6 at 0, 2 at 8", &a3, &with(&altered, &[(8, 3, 1)]));
    sheet.step("step A3 6 at 0, 5 at 8", &a3, &with_records(&altered, &[(8, query(2, 2))]));
    sheet.step(
        "step A3 5 at 3, 2 at 4",
        &a3,
        &with(&with_records(&bytes, &[(3, query(1, 0))]), &[(4, 1, 0)]),
    );
    sheet.step("step A3 5 and 2 at 3", &a3, &with_records(&bytes, &[(3, query(1, 1))]));
    let u6 = opened(U6, 0, &[3; 6]);
    let lossy = round(&u6, &heard_but(&u6, &[(0, 0, LOST), (0, 1, LOST)]));
    sheet.step("step U6 7 at 0", &u6, &lossy);
    sheet.step("step U6 7 at 0, 2 at 35", &u6, &with(&lossy, &[(35, 0, 7)]));
    sheet.step("step U6 7 at 0, 5 at 35", &u6, &with_records(&lossy, &[(35, query(5, 5))]));
    sheet.step("step U6 all lost", &u6, &round(&u6, &ALL_LOST));
    sheet.step("step U6 ? in round 1", &u6, &round(&u6, &heard_but(&u6, &[(4, 2, QUERY)])));
    let full = Run { clock: 4096, ..a3 };
    sheet.step("step A3 full, one byte short", &full, &bytes[..71]);
}

fn plays(sheet: &mut Sheet) {
    let a3 = opened(A3, 0, &[5, 5, 9]);
    let three = tape_heard(&a3, 3);
    for length in [0, 1, 36, 71, 72, 73, 80, 108, 143, 144, 145, 215, 216, 217] {
        sheet.play(&format!("play A3 {length} bytes"), &a3, &resized(&three, length));
    }
    let bad_tapes = [
        ("2 at 4", with(&three, &[(9 + 4, 0, 9)])),
        ("5 at 8", with_records(&three, &[(9 + 8, record(kind::HEARD_QUERY, 2, 2, 0))])),
        ("6 at 1", with(&three, &[(9 + 3, 4, 6)])),
        ("2 at 0 in the last", with(&three, &[(18, 1, 1)])),
        ("2 at 0 in the first", with(&three, &[(0, 2, 1)])),
        ("6 at 0 and 2 at 7 later", with(&three, &[(9, 4, 6), (18 + 7, 0, 0)])),
    ];
    for (name, bytes) in bad_tapes {
        sheet.play(&format!("play A3 {name}"), &a3, &bytes);
    }

    // U, from even and odd clocks.
    let u6 = opened(U6, 0, &[1, 1, 1, 2, 2, 2]);
    let five = tape_heard(&u6, 5);
    for length in [0, 288, 576, 577, 720, 1152, 1440, 1441] {
        sheet.play(&format!("play U6 {length} bytes"), &u6, &resized(&five, length));
    }
    let odd = voting(U6, 1, &[0; 6], &[7, 7, 7, 3, 3, 3].map(Some));
    for rounds in 0..=4 {
        sheet.play(&format!("play U6 odd {rounds} rounds"), &odd, &tape_heard(&odd, rounds));
    }
    sheet.play("play U6 odd half a round", &odd, &tape_heard(&odd, 1)[..144]);
    sheet.play("play U6 odd a byte more", &odd, &resized(&tape_heard(&odd, 2), 577));
    let query = record(kind::HEARD_QUERY, 0, 1, 0);
    let four = tape_heard(&odd, 4);
    sheet.play("play U6 odd ? in round 3", &odd, &with_records(&four, &[(36 + 1, query)]));
    sheet.play("play U6 odd ? in round 4", &odd, &with_records(&four, &[(72 + 1, query)]));
    let lost = |p, q| record(kind::LOST, p, q, 0);
    let lossy = with_records(&four, &[(36 + 30, lost(5, 0)), (36 + 31, lost(5, 1))]);
    sheet.play("play U6 odd 7 at 5 in round 3", &odd, &lossy);
    let one_lost = with_records(&four, &[(36 + 30, lost(5, 0))]);
    sheet.play("play U6 odd one lost in round 3", &odd, &one_lost);
    sheet.play("play U6 rounds out of phase", &odd, &five);
    let u2 = voting(U2, 9, &[1, 2], &[Some(2), Some(2)]);
    sheet.play("play U2 odd", &u2, &tape_heard(&u2, 7));
}

/// Many rounds at a time, with the losses and alterations on other stations each round.
fn long_plays(sheet: &mut Sheet) {
    let a3 = opened(A3, 0, &[5, 5, 9]);
    let loses = |k: usize, run: &Run| match k % 100 {
        99 => heard(run),
        _ => heard_but(run, &[(k % 3, k % 2, LOST), (2, k % 5 % 3, LOST)]),
    };
    sheet.play("play A3 300 rounds", &a3, &tape(&a3, 300, loses));
    let u2 = opened(U2, 6, &[6, 7]);
    sheet.play("play U2 700 rounds", &u2, &tape_heard(&u2, 700));
    let alters_one = |k: usize, run: &Run| {
        let n = run.setup.stations();
        let changes: Vec<_> = (0..n).map(|p| (p, (p * p + k) % n, value(k as u32 % 5))).collect();
        heard_but(run, &changes)
    };
    for starts in [[4; 7], [4, 4, 4, 4, 9, 9, 9], [7, 6, 5, 4, 3, 2, 1]] {
        let a7 = opened(A7, 0, &starts);
        sheet.play(&format!("play A7 from {starts:?}"), &a7, &tape(&a7, 15, alters_one));
    }
    for starts in [[3; 6], [3, 3, 3, 3, 3, 8], [1, 1, 1, 2, 2, 2]] {
        let u6 = opened(U6, 4, &starts);
        sheet.play(&format!("play U6 from {starts:?}"), &u6, &tape(&u6, 20, alters_one));
    }
    let a32 = opened(A32, 0, &(0..32).map(|p| p % 2).collect::<Vec<u32>>());
    sheet.play("play A32 two rounds", &a32, &tape(&a32, 2, alters_one));
}
