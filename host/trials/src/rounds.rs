//! Rounds read, written and surveyed: operations 6 to 8 (rules 12.5 to 12.7).

use crate::make::*;
use crate::sheet::Sheet;
use independent::{kind, Cell, Matrix, Run, A, ALL_LOST, U};

const MAX: u32 = u32::MAX;

pub fn fill(sheet: &mut Sheet) {
    good_rounds(sheet);
    sets(sheet);
    wrong_lengths(sheet);
    damaged_rounds(sheet);
    broken_runs(sheet);
    refused_writings(sheet);
}

/// A run of U before a vote round, with these votes.
fn voting(run: Run, clock: u32, votes: &[Option<u32>]) -> Run {
    let mut run = Run { clock, ..run };
    for (p, vote) in votes.iter().enumerate() {
        run.voted[p] = vote.is_some();
        run.votes[p] = vote.unwrap_or(0);
    }
    run
}

fn a3() -> Run {
    opened(A3, 0, &[5, 5, 9])
}

fn a7() -> Run {
    opened(A7, 0, &[4, 4, 4, 7, 7, 0, MAX])
}

fn a32() -> Run {
    opened(A32, 0, &(0..32).map(|p| p % 5).collect::<Vec<u32>>())
}

fn u2() -> Run {
    opened(U2, 7, &[0, MAX])
}

fn u2_voting() -> Run {
    voting(u2(), 1, &[Some(7), None])
}

fn u7() -> Run {
    Run { clock: 2, ..opened(U7, 7, &[1, 1, 1, 0, 2, 2, MAX]) }
}

fn u7_voting() -> Run {
    voting(u7(), 3, &[None, Some(1), Some(1), None, Some(0), Some(MAX), Some(1)])
}

fn u32() -> Run {
    Run { clock: 6, ..opened(U32, 7, &(0..32).map(|p| p / 3).collect::<Vec<u32>>()) }
}

fn u32_voting() -> Run {
    let votes: Vec<_> = (0..32).map(|p| if p % 3 == 1 { None } else { Some(p / 5) }).collect();
    voting(u32(), 7, &votes)
}

/// A round with cells lost and cells altered all over: more than the predicates allow, which
/// neither a reading nor a survey asks about.
fn mixed(run: &Run) -> Matrix {
    let n = run.setup.stations();
    let mut matrix = heard(run);
    for (p, row) in matrix[..n].iter_mut().enumerate() {
        for (q, cell) in row[..n].iter_mut().enumerate() {
            *cell = match ((5 * p + 3 * q) % 7, *cell) {
                (0, _) => Cell::Lost,
                (1, Cell::Query) => Cell::Value(0),
                (2, _) if run.votes_next() => Cell::Query,
                (1 | 4, Cell::Value(value)) => Cell::Value(value.wrapping_add(1)),
                (4, _) => Cell::Value(q as u32),
                (_, sent) => sent,
            };
        }
    }
    matrix
}

fn good_rounds(sheet: &mut Sheet) {
    let runs = [
        ("A3", a3()),
        ("A7", a7()),
        ("U2 value", u2()),
        ("U2 vote", u2_voting()),
        ("U7 value", u7()),
        ("U7 vote", u7_voting()),
        ("A3 4096", Run { clock: 4096, ..a3() }),
        ("U2 4096", Run { clock: 4096, ..u2() }),
        ("U2 4095", voting(u2(), 4095, &[None, Some(MAX)])),
    ];
    for (name, run) in runs {
        for (what, matrix) in [("heard", heard(&run)), ("mixed", mixed(&run))] {
            sheet.survey(&format!("survey {name} {what}"), &run, &round(&run, &matrix));
            sheet.read_round(&format!("read {name} {what}"), &run, &round(&run, &matrix));
        }
    }
    for (name, run) in [("A32", a32()), ("U32 value", u32()), ("U32 vote", u32_voting())] {
        let bytes = round(&run, &mixed(&run));
        sheet.survey(&format!("survey {name} mixed"), &run, &bytes);
        sheet.read_round(&format!("read {name} mixed"), &run, &bytes);
        sheet.write_round(&format!("write {name} mixed"), &run, &mixed(&run), &buffer(8192));
    }
    for (name, run) in [runs[0], runs[1], runs[2], runs[4], runs[5]] {
        let length = run.setup.round_length();
        sheet.write_round(&format!("write {name} mixed"), &run, &mixed(&run), &buffer(length));
    }
    sheet.write_round("write U2 vote heard", &u2_voting(), &heard(&u2_voting()), &buffer(32));
    for (name, run) in [runs[0], runs[5]] {
        sheet.survey(&format!("survey {name} lost"), &run, &round(&run, &ALL_LOST));
        sheet.read_round(&format!("read {name} lost"), &run, &round(&run, &ALL_LOST));
    }
    let full = Run { clock: 4096, ..a3() };
    sheet.write_round("write A3 4096 lost", &full, &ALL_LOST, &buffer(72));
}

/// What is altered and what is not (rules 7.3 to 7.7).
fn sets(sheet: &mut Sheet) {
    let value = Cell::Value;
    let run = opened(A3, 0, &[5, 7, 7]);
    let surveys: [(&str, &[Change]); 6] = [
        ("own estimate from another", &[(1, 0, value(7))]),
        ("the other's from itself", &[(1, 1, value(5))]),
        ("value 0 from all", &[(0, 0, value(0)), (0, 1, value(0)), (0, 2, value(0))]),
        ("own frame lost", &[(2, 2, Cell::Lost)]),
        ("two values swapped", &[(0, 0, value(7)), (0, 1, value(5))]),
        ("equal values swapped", &[(0, 1, value(7)), (0, 2, value(7))]),
    ];
    for (name, changes) in surveys {
        let bytes = round(&run, &heard_but(&run, changes));
        sheet.survey(&format!("survey A3 {name}"), &run, &bytes);
    }
    let run = voting(u2(), 1, &[Some(0), None]);
    let surveys: [(&str, &[Change]); 5] = [
        ("vote 0 as ?", &[(0, 0, Cell::Query)]),
        ("? as 0", &[(1, 1, value(0))]),
        ("estimate instead of vote", &[(0, 1, value(MAX))]),
        ("? lost", &[(0, 1, Cell::Lost)]),
        ("vote 0 lost", &[(1, 0, Cell::Lost)]),
    ];
    for (name, changes) in surveys {
        let bytes = round(&run, &heard_but(&run, changes));
        sheet.survey(&format!("survey U2 {name}"), &run, &bytes);
    }
}

fn wrong_lengths(sheet: &mut Sheet) {
    for (name, run) in [("A3", a3()), ("U2 vote", u2_voting()), ("A7", a7())] {
        let bytes = round(&run, &heard(&run));
        let exact = bytes.len();
        for length in [0, exact - 8, exact + 8] {
            let bytes = resized(&bytes, length);
            sheet.survey(&format!("survey {name} {length} bytes"), &run, &bytes);
            sheet.read_round(&format!("read {name} {length} bytes"), &run, &bytes);
        }
        for length in [1, exact - 1, exact + 1] {
            let bytes = resized(&bytes, length);
            sheet.survey(&format!("survey {name} {length} bytes"), &run, &bytes);
        }
        let bad = with(&bytes, &[(0, 0, 9)]);
        sheet.survey(&format!("survey {name} short and bad"), &run, &bad[..exact - 8]);
        sheet.read_round(&format!("read {name} long and bad"), &run, &resized(&bad, exact + 8));
    }
    sheet.survey("survey A32 nothing", &a32(), &[]);
    let full = Run { clock: 4096, ..a3() };
    sheet.survey("survey A3 4096 nothing", &full, &[]);
    sheet.read_round("read A3 4096 nothing", &full, &[]);
}

fn damaged_rounds(sheet: &mut Sheet) {
    // Every byte in turn, of a round with all kinds in it that may stand there.
    let run = u2_voting();
    let all_kinds = heard_but(&run, &[(0, 0, Cell::Lost)]);
    let bytes = round(&run, &all_kinds);
    for (place, changed) in each_byte_changed(&bytes, 0x80) {
        sheet.survey(&format!("survey U2 vote {place}"), &run, &changed);
    }
    let run = u2();
    let bytes = round(&run, &heard_but(&run, &[(1, 0, Cell::Lost)]));
    for (place, changed) in each_byte_changed(&bytes, 0x01) {
        sheet.read_round(&format!("read U2 value {place}"), &run, &changed);
    }

    // Kinds, in each kind of round.
    for (name, run) in [("A3", a3()), ("U2 value", u2()), ("U2 vote", u2_voting())] {
        let bytes = round(&run, &heard(&run));
        for bad in [0, 3, 5, 6, 7, 255] {
            let changed = with_records(&bytes, &[(1, record(bad, 0, 1, 0))]);
            sheet.survey(&format!("survey {name} kind {bad} at 1"), &run, &changed);
        }
        for bad in [5, 6] {
            let changed = with_records(&bytes, &[(1, record(bad, 0, 1, 8))]);
            sheet.read_round(&format!("read {name} kind {bad} and 8 at 1"), &run, &changed);
        }
    }

    // Stations, order, and two faults at once.
    let run = a3();
    let bytes = round(&run, &heard(&run));
    let query = |p, q| record(kind::HEARD_QUERY, p, q, 0);
    let faults = [
        ("rows 0 and 1 swapped", [&bytes[24..48], &bytes[..24], &bytes[48..]].concat()),
        ("records 0 and 1 swapped", swapped(&bytes, 0, 1)),
        ("records 7 and 8 swapped", swapped(&bytes, 7, 8)),
        ("sender 0 twice", with(&bytes, &[(1, 2, 0)])),
        ("sender 3", with(&bytes, &[(2, 2, 3)])),
        ("receiver 3", with(&bytes, &[(8, 1, 3)])),
        ("receiver and sender exchanged", with(&bytes, &[(1, 1, 1), (1, 2, 0)])),
        ("byte 3 set", with(&bytes, &[(4, 3, 1)])),
        ("? at 0", with_records(&bytes, &[(0, query(0, 0))])),
        ("? at 5", with_records(&bytes, &[(5, query(1, 2))])),
        ("? at 8", with_records(&bytes, &[(8, query(2, 2))])),
        ("? with wrong sender", with_records(&bytes, &[(5, query(1, 1))])),
        ("? with wrong receiver", with_records(&bytes, &[(5, query(2, 2))])),
        ("? with byte 3", with(&with_records(&bytes, &[(5, query(1, 2))]), &[(5, 3, 1)])),
        ("? with byte 7", with(&with_records(&bytes, &[(5, query(1, 2))]), &[(5, 7, 1)])),
        ("? at 3, bad kind at 4", with(&with_records(&bytes, &[(3, query(1, 0))]), &[(4, 0, 9)])),
        ("bad kind at 2, ? at 3", with(&with_records(&bytes, &[(3, query(1, 0))]), &[(2, 0, 9)])),
        ("two bad kinds", with(&bytes, &[(7, 0, 9), (6, 0, 9)])),
        ("two ?", with_records(&bytes, &[(7, query(2, 1)), (4, query(1, 1))])),
    ];
    for (name, changed) in faults {
        sheet.survey(&format!("survey A3 {name}"), &run, &changed);
        if name.starts_with('?') {
            sheet.read_round(&format!("read A3 {name}"), &run, &changed);
        }
    }
    let run = u7();
    let bytes = round(&run, &heard(&run));
    let changed = with_records(&bytes, &[(48, query(6, 6))]);
    sheet.survey("survey U7 value ? at 48", &run, &changed);
    sheet.survey("survey U7 value bad at 48", &run, &with(&bytes, &[(48, 0, 0)]));
    let bytes = round(&a32(), &heard(&a32()));
    sheet.survey("survey A32 bad at 1023", &a32(), &with(&bytes, &[(1023, 3, 1)]));
    // At clock 4,096 the next round would be a value round.
    let run = Run { clock: 4096, ..u2() };
    let bytes = with_records(&round(&run, &heard(&run)), &[(2, query(1, 0))]);
    sheet.survey("survey U2 4096 ?", &run, &bytes);
    sheet.read_round("read U2 4096 ?", &run, &bytes);
}

fn broken_runs(sheet: &mut Sheet) {
    let clock_past = Run { clock: 4097, ..a3() };
    let even_votes = Run { clock: 2, ..u2_voting() };
    let mut stray = a3();
    stray.estimates[3] = 1;
    let runs = [
        ("A1", opened(setup(A, 1, 0, 0, 0), 0, &[5]), 8),
        ("U1", opened(setup(U, 1, 0, 0, 0), 0, &[5]), 8),
        ("n 0", Run { setup: setup(A, 0, 2, 2, 0), ..a3() }, 0),
        ("n 33", Run { setup: setup(A, 33, 32, 32, 0), ..a32() }, 72),
        ("n 200", Run { setup: setup(U, 200, 199, 199, 0), ..u32() }, 72),
        ("idle", Run::IDLE, 0),
        ("clock 4097", clock_past, 72),
        ("votes at clock 2", even_votes, 32),
        ("estimate of 3", stray, 72),
    ];
    for (name, run, length) in runs {
        let bytes = resized(&round(&a3(), &heard(&a3())), length);
        sheet.survey(&format!("survey? {name}"), &run, &bytes);
        sheet.read_round(&format!("read? {name}"), &run, &bytes);
    }
    sheet.survey("survey? idle 7 bytes", &Run::IDLE, &buffer(7));
    for (name, run, length) in [runs[0], runs[4], runs[5]] {
        let matrix = heard(&a3());
        sheet.write_round(&format!("write? {name}"), &run, &matrix, &buffer(length));
    }
}

fn refused_writings(sheet: &mut Sheet) {
    let run = a3();
    let (query, value) = (Cell::Query, Cell::Value(0));
    for length in [71, 73] {
        sheet.write_round(&format!("write A3 into {length}"), &run, &heard(&run), &buffer(length));
    }
    let writings: [(&str, &[Change]); 6] = [
        ("? at 7 and 5", &[(2, 1, query), (1, 2, query)]),
        ("? outside", &[(0, 3, query)]),
        ("? outside and at 8", &[(0, 3, query), (2, 2, query)]),
        ("cell 0 3", &[(0, 3, value)]),
        ("cell 3 0", &[(3, 0, value)]),
        ("cell 31 31", &[(31, 31, value)]),
    ];
    for (name, changes) in writings {
        sheet.write_round(
            &format!("write A3 {name}"),
            &run,
            &heard_but(&run, changes),
            &buffer(72),
        );
    }
    let outside = heard_but(&run, &[(3, 3, value)]);
    sheet.write_round("write A3 outside into 71", &run, &outside, &buffer(71));
    let inside = heard_but(&run, &[(1, 1, query)]);
    sheet.write_round("write A3 ? at 4 into 73", &run, &inside, &buffer(73));
    let run = u2();
    let matrix = heard_but(&run, &[(1, 0, query)]);
    sheet.write_round("write U2 value ? at 2", &run, &matrix, &buffer(32));
    let run = u2_voting();
    let matrix = heard_but(&run, &[(1, 0, query), (1, 2, query)]);
    sheet.write_round("write U2 vote ? outside", &run, &matrix, &buffer(32));
    let run = u7();
    let matrix = heard_but(&run, &[(6, 6, query), (7, 7, value)]);
    sheet.write_round("write U7 value ? at 48", &run, &matrix, &buffer(392));
    // At clock 4,096 writing is not refused, but "?" is, as in a value round (rules 4.2 and 12.7).
    let run = Run { clock: 4096, ..u2() };
    let matrix = heard_but(&run, &[(1, 1, query)]);
    sheet.write_round("write U2 4096 ? at 3", &run, &matrix, &buffer(32));
}
