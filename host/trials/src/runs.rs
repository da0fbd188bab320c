//! Openings, images and runs: operations 1 to 5 (rules 12.1 to 12.4, and 5.2 to 5.9).

use crate::make::*;
use crate::sheet::Sheet;
use independent::{kind, Run, Setup, A, U};

const MAX: u32 = u32::MAX;

pub fn fill(sheet: &mut Sheet) {
    openings(sheet);
    written_openings(sheet);
    images(sheet);
    damaged_images(sheet);
    sound_runs(sheet);
    broken_runs(sheet);
}

/// Setups on both sides of each inequality (rules 10.2 to 10.6).
fn edge_setups() -> Vec<Setup> {
    let a = [
        (3, 2, 2, 0),
        (3, 1, 2, 0),
        (7, 6, 6, 1),
        (7, 6, 5, 1),
        (5, 4, 4, 1),
        (1, 0, 0, 0),
        (2, 1, 1, 0),
        (7, 7, 6, 1),
        (7, 6, 7, 1),
        (7, 5, 6, 1),
        (4, 2, 3, 0),
        (4, 1, 3, 0),
        (5, 4, 3, 0),
        (5, 3, 3, 0),
        (7, 255, 6, 1),
        (7, 6, 255, 1),
        (7, 6, 6, 255),
        (7, 6, 6, 129),
        (3, 2, 2, 128),
        (32, 30, 31, 7),
        (32, 29, 31, 7),
        (32, 31, 31, 8),
    ];
    let u = [
        (2, 1, 1, 0),
        (6, 4, 4, 1),
        (5, 4, 3, 1),
        (5, 3, 4, 1),
        (5, 4, 4, 1),
        (1, 0, 0, 0),
        (6, 3, 4, 1),
        (6, 4, 3, 1),
        (6, 5, 5, 2),
        (6, 5, 4, 2),
        (6, 4, 5, 2),
        (6, 6, 4, 1),
        (6, 4, 6, 1),
        (6, 255, 4, 1),
        (6, 4, 255, 1),
        (6, 4, 4, 255),
        (6, 4, 4, 129),
        (6, 4, 4, 128),
        (32, 31, 31, 15),
        (32, 31, 31, 16),
    ];
    let of = |algorithm| move |(n, t, e, alpha)| setup(algorithm, n, t, e, alpha);
    a.into_iter().map(of(A)).chain(u.into_iter().map(of(U))).collect()
}

/// Setups with an algorithm or n that may be out of range (rule 10.1).
fn range_setups() -> Vec<Setup> {
    let mut all = Vec::new();
    for algorithm in [A, U] {
        for n in [0u8, 1, 2, 31, 32, 33, 64, 255] {
            let below = n.saturating_sub(1);
            all.push(setup(algorithm, n, below, below, 0));
        }
    }
    for algorithm in [0, 3, 4, 128, 129, 255] {
        all.push(setup(algorithm, 3, 2, 2, 0));
    }
    all
}

fn openings(sheet: &mut Sheet) {
    let a3 = opening(A3, 0, &[5, 5, 9]);
    let u2 = opening(U2, 7, &[0, MAX]);
    let a32 = opening(A32, 0, &(0..32).collect::<Vec<u32>>());
    let u32 = opening(U32, MAX, &(0..32).map(|p| MAX - p).collect::<Vec<u32>>());
    sheet.open("open A3", &a3);
    sheet.open("open U2", &u2);
    sheet.open("open A32", &a32);
    sheet.open("open U32", &u32);
    sheet.open("open A3 all 0", &opening(A3, 0, &[0, 0, 0]));
    sheet.open("open U6 bytes in order", &opening(U6, 0x04030201, &[0x08070605; 6]));

    for length in [0, 1, 7, 8, 9, 16, 24, 32, 39, 41, 48, 120] {
        sheet.open(&format!("open A3 {length} bytes"), &resized(&a3, length));
    }
    for length in [0, 7, 8, 9, 31, 33] {
        sheet.open(&format!("open U2 {length} bytes"), &resized(&u2, length));
    }
    sheet.open("open A32 one byte short", &a32[..a32.len() - 1]);
    sheet.open("open U32 one record long", &resized(&u32, u32.len() + 8));
    for setup in range_setups() {
        let starts = vec![6; setup.stations()];
        sheet.open(&format!("open range {}", full_name(setup)), &opening(setup, 0, &starts));
    }
    for setup in edge_setups() {
        let starts = vec![6; setup.stations()];
        sheet.open(&format!("open edge {}", full_name(setup)), &opening(setup, 0, &starts));
    }
    for bits in [0x01, 0x80] {
        for (place, changed) in each_byte_changed(&a3, bits) {
            sheet.open(&format!("open A3 {place}"), &changed);
        }
        for (place, changed) in each_byte_changed(&u2, bits) {
            sheet.open(&format!("open U2 {place}"), &changed);
        }
    }

    for (j, k) in [(0, 1), (1, 2), (2, 3), (3, 4), (2, 4)] {
        sheet.open(&format!("open A3 records {j} and {k} swapped"), &swapped(&a3, j, k));
    }
    sheet.open("open A3 station 0 twice", &with(&a3, &[(3, 1, 0)]));
    sheet.open("open A3 station 1 twice", &with(&a3, &[(4, 1, 1)]));
    sheet.open("open A3 station 3", &with(&a3, &[(4, 1, 3)]));
    sheet.open("open A3 station 255", &with(&a3, &[(2, 1, 255)]));
    for bad in [0, 1, 2, 4, 9, 255] {
        sheet.open(&format!("open A3 kind {bad} for a start"), &with(&a3, &[(3, 0, bad)]));
    }
    for bad in [0, 2, 3, 255] {
        sheet.open(&format!("open A3 kind {bad} for the setup"), &with(&a3, &[(0, 0, bad)]));
    }
    for bad in [0, 1, 3, 8] {
        sheet.open(&format!("open A3 kind {bad} for the default"), &with(&a3, &[(1, 0, bad)]));
    }
    sheet.open("open A3 default 1", &opening(A3, 1, &[5, 5, 9]));
    sheet.open("open A3 default 2^24", &opening(A3, 1 << 24, &[5, 5, 9]));
    sheet.open("open an image", &image(&opened(A3, 0, &[5, 5, 9])));

    // Two faults at once: the order shows.
    sheet.open("open 7 bytes, bad kind", &with(&a3, &[(0, 0, 9)])[..7]);
    sheet.open("open 8 bytes, bad kind", &with(&a3, &[(0, 0, 9)])[..8]);
    sheet.open("open 8 bytes, algorithm 3", &with(&a3, &[(0, 1, 3)])[..8]);
    sheet.open("open 9 bytes, n 33", &with(&a3, &[(0, 2, 33)])[..9]);
    sheet.open("open 8 bytes, T 1", &with(&a3, &[(0, 3, 1)])[..8]);
    sheet.open("open bad kind, algorithm 3", &with(&a3, &[(0, 0, 2), (0, 1, 3)]));
    sheet.open("open byte 7 set, n 0", &with(&a3, &[(0, 7, 1), (0, 2, 0)]));
    sheet.open("open byte 6 set, T 1", &with(&a3, &[(0, 6, 1), (0, 3, 1)]));
    sheet.open("open algorithm 0, T 1", &with(&a3, &[(0, 1, 0), (0, 3, 1)]));
    sheet.open("open n 255, E 255", &with(&a3, &[(0, 2, 255), (0, 4, 255)]));
    sheet.open("open T 1, default 1", &with(&a3, &[(0, 3, 1), (1, 4, 1)]));
    sheet.open("open T 1, bad start", &with(&a3, &[(0, 3, 1), (2, 0, 1)]));
    sheet.open("open one byte short, default 1", &with(&a3, &[(1, 4, 1)])[..39]);
    sheet.open("open one byte long, bad start", &resized(&with(&a3, &[(2, 0, 1)]), 41));
    sheet.open("open default 1, bad start", &with(&a3, &[(1, 4, 1), (2, 0, 1)]));
    sheet.open("open start 2 bad, start 1 bad", &with(&a3, &[(4, 0, 1), (3, 2, 1)]));
}

fn written_openings(sheet: &mut Sheet) {
    let starts = padded(&[5, 5, 9]);
    let many: Vec<u32> = (0..32).map(|p| 0x01020304 * p).collect();
    let seven = padded(&many[..7]);
    let all = padded(&many);
    for length in [40, 39, 41, 32, 48, 0, 1, 8] {
        let label = format!("write open A3 into {length}");
        sheet.write_opening(&label, A3, 0, starts, &buffer(length));
    }
    for length in [72, 71, 73] {
        let label = format!("write open U7 into {length}");
        sheet.write_opening(&label, U7, MAX, seven, &buffer(length));
    }
    for length in [272, 271, 273] {
        let label = format!("write open A32 into {length}");
        sheet.write_opening(&label, A32, 0, all, &buffer(length));
    }
    sheet.write_opening("write open U32", U32, 1, all, &buffer(272));
    sheet.write_opening("write open U2", U2, 0, padded(&[MAX, 0]), &buffer(32));
    let range = range_setups().into_iter().map(|setup| ("range", setup));
    let edge = edge_setups().into_iter().map(|setup| ("edge", setup));
    for (what, setup) in range.chain(edge) {
        let label = format!("write open {what} {}", full_name(setup));
        let mut starts = [0; 32];
        starts[..setup.stations().min(32)].fill(3);
        let length = setup.opening_length().min(272);
        sheet.write_opening(&label, setup, 0, starts, &buffer(length));
    }
    sheet.write_opening("write open A3 default 1", A3, 1, starts, &buffer(40));
    sheet.write_opening("write open A3 default max", A3, MAX, starts, &buffer(40));
    sheet.write_opening("write open A32 default 1", A32, 1, all, &buffer(272));
    for p in [3, 4, 31] {
        let mut starts = starts;
        starts[p] = 1;
        let label = format!("write open A3 start {p} set");
        sheet.write_opening(&label, A3, 0, starts, &buffer(40));
    }
    let mut last = seven;
    last[31] = 1 << 31;
    sheet.write_opening("write open U7 start 31 set", U7, 4, last, &buffer(72));
    sheet.write_opening("write open U2 starts 3 to 31 set", U2, 4, all, &buffer(32));

    // Two faults at once.
    let long = padded(&[5, 5, 9, 1]);
    let none = setup(0, 3, 1, 2, 0);
    sheet.write_opening("write open 3 before 4", none, 1, long, &buffer(39));
    sheet.write_opening("write open 4 before 2", setup(A, 3, 1, 2, 0), 1, long, &buffer(39));
    sheet.write_opening("write open default before start", A3, 1, long, &buffer(39));
    sheet.write_opening("write open start before 9", A3, 0, long, &buffer(39));
    sheet.write_opening("write open n 200", setup(A, 200, 199, 199, 0), 0, all, &buffer(40));
    sheet.write_opening("write open n 33 into 0", setup(U, 33, 32, 32, 0), 0, all, &[]);
}

/// A run of A with a decision of 9 in round 3 and one of 0 in round 1.
fn busy_a3() -> Run {
    let mut run = Run { clock: 3, ..opened(A3, 0, &[5, MAX, 0]) };
    decide(&mut run, 1, 9, 3);
    decide(&mut run, 2, 0, 1);
    run
}

/// A run of U in the middle of a phase.
fn busy_u6() -> Run {
    let mut run = Run { clock: 5, ..opened(U6, 8, &[1, 2, 3, 4, 5, MAX]) };
    vote(&mut run, 0, 0);
    vote(&mut run, 2, 7);
    vote(&mut run, 5, MAX);
    decide(&mut run, 1, 0, 2);
    decide(&mut run, 4, 9, 4);
    run
}

/// A run of U before its last round.
fn late_u2() -> Run {
    let mut run = Run { clock: 4095, ..opened(U2, MAX, &[0, 0x04030201]) };
    vote(&mut run, 0, 0);
    decide(&mut run, 1, MAX, 4094);
    run
}

/// A full run of A with 32 stations, each with another decision.
fn full_a32() -> Run {
    let mut run = Run { clock: 4096, ..opened(A32, 0, &(1..33).collect::<Vec<u32>>()) };
    for p in 0..32 {
        decide(&mut run, p, p as u32, 4096 - 132 * p as u32);
    }
    run
}

/// A run of U with 32 stations, half of them with votes and half with decisions.
fn busy_u32() -> Run {
    let mut run = Run { clock: 33, ..opened(U32, 1, &[MAX; 32]) };
    for p in 0..32 {
        if p % 2 == 0 {
            vote(&mut run, p, p as u32 / 4);
        }
        if p % 4 < 2 {
            decide(&mut run, p, 77, 2 + (p as u32 / 2 * 2));
        }
    }
    run
}

fn vote(run: &mut Run, p: usize, value: u32) {
    run.voted[p] = true;
    run.votes[p] = value;
}

fn decide(run: &mut Run, p: usize, value: u32, round: u32) {
    run.decided[p] = true;
    run.decisions[p] = value;
    run.rounds[p] = round;
}

fn clocked(run: Run, clock: u32) -> Run {
    Run { clock, ..run }
}

fn good_runs() -> Vec<(&'static str, Run)> {
    let fresh = opened(A3, 0, &[5, 5, 9]);
    vec![
        ("fresh A3", fresh),
        ("busy A3", busy_a3()),
        ("A3 at 4096", clocked(fresh, 4096)),
        ("fresh U2", opened(U2, 7, &[0, MAX])),
        ("late U2", late_u2()),
        ("U2 at 4096", clocked(opened(U2, 7, &[0, MAX]), 4096)),
        ("busy U6", busy_u6()),
        ("fresh A7", opened(A7, 0, &[4; 7])),
        ("full A32", full_a32()),
        ("busy U32", busy_u32()),
    ]
}

fn images(sheet: &mut Sheet) {
    for (name, run) in good_runs() {
        sheet.load(&format!("load {name}"), &image(&run));
    }
    let a3 = image(&opened(A3, 0, &[5, 5, 9]));
    for length in [0, 1, 7, 8, 9, 16, 40, 112, 119, 121, 128] {
        sheet.load(&format!("load A3 {length} bytes"), &resized(&a3, length));
    }
    let u32 = image(&busy_u32());
    for length in [0, 7, 8, 9, 1047, 1049] {
        sheet.load(&format!("load U32 {length} bytes"), &resized(&u32, length));
    }
    for setup in range_setups() {
        // Beyond 32 stations an image is not put together; the bytes are those of n 32.
        let told = Setup { n: setup.n.min(32), ..setup };
        let bytes = image(&opened(told, 0, &vec![6; told.stations()]));
        let label = format!("load range {}", full_name(setup));
        sheet.load(&label, &with(&bytes, &[(0, 2, setup.n)]));
    }
    for setup in edge_setups() {
        let bytes = image(&opened(setup, 0, &vec![6; setup.stations()]));
        sheet.load(&format!("load edge {}", full_name(setup)), &bytes);
    }
    for bits in [0x01, 0x80] {
        for (place, changed) in each_byte_changed(&image(&busy_a3()), bits) {
            sheet.load(&format!("load A3 {place}"), &changed);
        }
        for (place, changed) in each_byte_changed(&image(&late_u2()), bits) {
            sheet.load(&format!("load U2 {place}"), &changed);
        }
    }
    sheet.load("load an opening", &opening(A3, 0, &[5, 5, 9]));
}

/// Damage to an image of U with n 6: estimates are records 3 to 8, votes 9 to 14, decisions 15
/// to 20, decision rounds 21 to 26.
fn damaged_images(sheet: &mut Sheet) {
    let u6 = image(&busy_u6());
    for (j, k) in [(0, 1), (1, 2), (2, 3), (3, 4), (8, 9), (9, 10), (14, 15), (20, 21), (25, 26)] {
        sheet.load(&format!("load U6 records {j} and {k} swapped"), &swapped(&u6, j, k));
    }
    for (what, k) in [("estimate", 4), ("vote", 10), ("decision", 16), ("round", 22)] {
        sheet.load(&format!("load U6 {what} of 0 twice"), &with(&u6, &[(k, 1, 0)]));
        sheet.load(&format!("load U6 {what} of 6"), &with(&u6, &[(k, 1, 6)]));
        for bad in [0, 3, 8, 9, 10, 11, 12, 13, 14, 15, 255] {
            sheet.load(&format!("load U6 kind {bad} for {what} 1"), &with(&u6, &[(k, 0, bad)]));
        }
    }
    for bad in [0, 2, 7, 9, 255] {
        sheet.load(&format!("load U6 kind {bad} for the clock"), &with(&u6, &[(2, 0, bad)]));
    }
    sheet.load("load U6 ? with a number", &with(&u6, &[(10, 4, 1)]));
    sheet.load("load U6 undecided with a number", &with(&u6, &[(15, 7, 1)]));
    sheet.load("load A3 default 1", &with(&image(&busy_a3()), &[(1, 4, 1)]));

    // Clocks
    let fresh = opened(U6, 8, &[1, 2, 3, 4, 5, 6]);
    for clock in [0, 1, 2, 4095, 4096, 4097, 4098, 65536, 1 << 31, MAX] {
        sheet.load(&format!("load U6 clock {clock}"), &image(&clocked(fresh, clock)));
        let a3 = opened(A3, 0, &[5, 5, 9]);
        sheet.load(&format!("load A3 clock {clock}"), &image(&clocked(a3, clock)));
    }

    // Votes
    for clock in [0, 1, 3, 4, 4095, 4096] {
        let mut run = clocked(fresh, clock);
        vote(&mut run, 3, 2);
        sheet.load(&format!("load U6 vote at clock {clock}"), &image(&run));
        let mut run = clocked(opened(A3, 0, &[5, 5, 9]), clock);
        vote(&mut run, 1, 0);
        sheet.load(&format!("load A3 vote at clock {clock}"), &image(&run));
    }

    // Decisions
    for (clock, round) in [(5, 0), (5, 1), (5, 2), (5, 3), (5, 4), (5, 5), (5, 6), (5, MAX)] {
        let mut run = clocked(fresh, clock);
        decide(&mut run, 3, 2, round);
        sheet.load(&format!("load U6 clock {clock} decided in {round}"), &image(&run));
        run.decided[3] = false;
        run.decisions[3] = 0;
        sheet.load(&format!("load U6 clock {clock} undecided in {round}"), &image(&run));
        let mut run = clocked(opened(A3, 0, &[5, 5, 9]), clock);
        decide(&mut run, 2, 2, round);
        sheet.load(&format!("load A3 clock {clock} decided in {round}"), &image(&run));
    }
    for (clock, round) in [(0, 0), (0, 1), (0, 2), (4096, 4096), (4096, 4097), (4096, 4098)] {
        let mut run = clocked(fresh, clock);
        decide(&mut run, 5, 2, round);
        sheet.load(&format!("load U6 clock {clock} decided in {round}"), &image(&run));
    }

    // Two faults at once: every 2 comes before any 10, and then the first record counts (rules 6.4
    // and 6.5).
    let mut bad_clock = clocked(fresh, 4097);
    sheet.load("load U6 4097, bad kind at 20", &with(&image(&bad_clock), &[(20, 0, 0)]));
    sheet.load("load U6 4097, bad kind at 26", &with(&image(&bad_clock), &[(26, 0, 9)]));
    sheet.load("load U6 4097, bad kind at 3", &with(&image(&bad_clock), &[(3, 0, 3)]));
    sheet.load("load U6 4097, byte 3 of it set", &with(&image(&bad_clock), &[(2, 3, 1)]));
    decide(&mut bad_clock, 0, 1, 9);
    sheet.load("load U6 4097, decided in 9", &image(&bad_clock));
    vote(&mut bad_clock, 0, 1);
    bad_clock.clock = 4098;
    sheet.load("load U6 4098, vote, decided in 9", &image(&bad_clock));
    let mut both = clocked(fresh, 4);
    decide(&mut both, 1, 1, 3);
    decide(&mut both, 4, 1, 0);
    sheet.load("load U6 decisions of 1 and 4 bad", &image(&both));
    vote(&mut both, 5, 1);
    sheet.load("load U6 vote of 5 bad, decision of 1 bad", &image(&both));
    vote(&mut both, 2, 1);
    sheet.load("load U6 votes of 2 and 5 bad", &image(&both));
    sheet.load("load U6 vote bad, kind at 14 bad", &with(&image(&both), &[(14, 0, 12)]));
    sheet.load("load U6 vote bad, ? with a number", &with(&image(&both), &[(9, 5, 1)]));
    sheet.load("load U6 decision bad, byte 26.2 set", &with(&image(&both), &[(26, 2, 1)]));
    let mut undecided = clocked(opened(A3, 0, &[5, 5, 9]), 2);
    undecided.rounds[0] = 1;
    decide(&mut undecided, 2, 4, 3);
    sheet.load("load A3 rounds of 0 and 2 bad", &image(&undecided));
    sheet.load("load A3 default 1, round of 0 bad", &with(&image(&undecided), &[(1, 4, 1)]));
    sheet.load("load U6 7 bytes, bad kind", &with(&u6, &[(0, 0, 9)])[..7]);
    sheet.load("load U6 8 bytes, bad kind", &with(&u6, &[(0, 0, 9)])[..8]);
    sheet.load("load U6 9 bytes, algorithm 255", &with(&u6, &[(0, 1, 255)])[..9]);
    sheet.load("load U6 byte 6 set, algorithm 0", &with(&u6, &[(0, 6, 1), (0, 1, 0)]));
    sheet.load("load U6 algorithm 0, T 0", &with(&u6, &[(0, 1, 0), (0, 3, 0)]));
    sheet.load("load U6 T 0, bad default", &with(&u6, &[(0, 3, 0), (1, 0, 0)]));
    sheet.load("load U6 one byte short, bad default", &with(&u6, &[(1, 0, 0)])[..215]);
    sheet.load("load U6 one byte short, clock 4097", &image(&bad_clock)[..215]);
    let last_first = with_records(&u6, &[(26, record(kind::DECISION_ROUND, 0, 0, 0))]);
    sheet.load("load U6 last round of 0", &last_first);
}

fn sound_runs(sheet: &mut Sheet) {
    for (name, run) in good_runs() {
        let length = run.setup.image_length();
        sheet.sound(&format!("sound {name}"), &run);
        sheet.save(&format!("save {name}"), &run, &buffer(length));
        sheet.save(&format!("save {name} one byte short"), &run, &buffer(length - 1));
        sheet.save(&format!("save {name} one byte long"), &run, &buffer(length + 1));
    }
    sheet.save("save busy A3 into nothing", &busy_a3(), &[]);
    sheet.save("save busy A3 one record short", &busy_a3(), &buffer(112));
    sheet.save("save busy U6 one record long", &busy_u6(), &buffer(224));
}

/// A run and what is done to it, by name.
type Spoiled = (&'static str, Run, fn(&mut Run));

fn broken_runs(sheet: &mut Sheet) {
    let a3 = opened(A3, 0, &[5, 5, 9]);
    let changes: Vec<Spoiled> = vec![
        ("idle", Run::IDLE, |_| ()),
        ("A3 algorithm 0", busy_a3(), |run| run.setup.algorithm = 0),
        ("A3 algorithm 3", busy_a3(), |run| run.setup.algorithm = 3),
        ("A3 algorithm 255", busy_a3(), |run| run.setup.algorithm = 255),
        ("A3 n 0", busy_a3(), |run| run.setup.n = 0),
        ("A3 n 1", busy_a3(), |run| run.setup.n = 1),
        ("A3 n 2", busy_a3(), |run| run.setup.n = 2),
        ("A3 n 4", busy_a3(), |run| run.setup.n = 4),
        ("A3 n 32", busy_a3(), |run| run.setup.n = 32),
        ("A3 n 33", busy_a3(), |run| run.setup.n = 33),
        ("A3 n 200", busy_a3(), |run| run.setup.n = 200),
        ("A3 n 255", busy_a3(), |run| run.setup.n = 255),
        ("A32 n 33", full_a32(), |run| run.setup.n = 33),
        ("A200", full_a32(), |run| run.setup = setup(A, 200, 199, 199, 0)),
        ("U200", busy_u32(), |run| run.setup = setup(U, 200, 199, 199, 0)),
        ("U255 all 255", busy_u32(), |run| run.setup = setup(U, 255, 255, 255, 255)),
        ("A1", opened(setup(A, 1, 0, 0, 0), 0, &[5]), |_| ()),
        ("U1", opened(setup(U, 1, 0, 0, 0), 0, &[5]), |_| ()),
        ("A3 T 1", a3, |run| run.setup.t = 1),
        ("A3 E 3", a3, |run| run.setup.e = 3),
        ("A3 alpha 1", a3, |run| run.setup.alpha = 1),
        ("A3 as U", busy_a3(), |run| run.setup.algorithm = U),
        ("U6 as A", busy_u6(), |run| run.setup.algorithm = A),
        ("A3 default 1", a3, |run| run.default = 1),
        ("A3 clock 4097", a3, |run| run.clock = 4097),
        ("A3 clock max", a3, |run| run.clock = MAX),
        ("U6 clock 4097", busy_u6(), |run| run.clock = 4097),
        ("U6 clock 6 with votes", busy_u6(), |run| run.clock = 6),
        ("A3 vote at clock 3", busy_a3(), |run| vote(run, 0, 5)),
        ("A3 vote of 0 at clock 3", busy_a3(), |run| vote(run, 2, 0)),
        ("A3 number beside ?", a3, |run| run.votes[2] = 1),
        ("U6 number beside ?", busy_u6(), |run| run.votes[1] = 1),
        ("A3 number beside undecided", a3, |run| run.decisions[0] = 1),
        ("U6 number beside undecided", busy_u6(), |run| run.decisions[5] = MAX),
        ("A3 undecided in 1", busy_a3(), |run| run.rounds[0] = 1),
        ("A3 decided in 0", busy_a3(), |run| run.rounds[1] = 0),
        ("A3 decided in 4", busy_a3(), |run| run.rounds[1] = 4),
        ("U6 decided in 3", busy_u6(), |run| run.rounds[1] = 3),
        ("U6 decided in 6", busy_u6(), |run| run.rounds[1] = 6),
        ("U6 decided in 0", busy_u6(), |run| run.rounds[4] = 0),
        ("A3 estimate of 3", a3, |run| run.estimates[3] = 1),
        ("A3 estimate of 31", a3, |run| run.estimates[31] = 1),
        ("U6 vote of 6", busy_u6(), |run| run.voted[6] = true),
        ("U6 number beside ? of 31", busy_u6(), |run| run.votes[31] = 1),
        ("U6 vote of 31 with number", busy_u6(), |run| vote(run, 31, 7)),
        ("U6 decided 6", busy_u6(), |run| run.decided[6] = true),
        ("U6 decided 31 in 2", busy_u6(), |run| decide(run, 31, 9, 2)),
        ("U6 number beside undecided 31", busy_u6(), |run| run.decisions[31] = 1),
        ("A3 undecided 3 in 1", busy_a3(), |run| run.rounds[3] = 1),
        ("A3 undecided 31 in max", busy_a3(), |run| run.rounds[31] = MAX),
        ("nonsense A3", nonsense(A3), |_| ()),
        ("nonsense A32", nonsense(A32), |_| ()),
        ("nonsense U32", nonsense(U32), |_| ()),
        ("nonsense A33", nonsense(setup(A, 33, 32, 32, 0)), |_| ()),
        ("nonsense U255", nonsense(setup(U, 255, 254, 254, 1)), |_| ()),
        ("nonsense 0", nonsense(setup(0, 0, 0, 0, 0)), |_| ()),
    ];
    for (name, mut run, change) in changes {
        change(&mut run);
        sheet.sound(&format!("sound? {name}"), &run);
        let length = run.setup.image_length().min(1048);
        sheet.save(&format!("save? {name}"), &run, &buffer(length));
    }
    for (name, run) in [("idle", Run::IDLE), ("nonsense", nonsense(A32))] {
        for length in [0, 1, 24, 119] {
            sheet.save(&format!("save? {name} into {length}"), &run, &buffer(length));
        }
    }
    // Changes that break nothing.
    let mut run = busy_a3();
    decide(&mut run, 1, 9, 2);
    sheet.sound("sound A3 decided in 2", &run);
    let mut run = busy_u6();
    run.default = 0;
    run.voted = [false; 32];
    run.votes = [0; 32];
    sheet.sound("sound U6 all votes ?", &run);
    sheet.sound("sound U6 all votes ? at 4", &clocked(run, 4));
    sheet.sound("broken U6 decided past clock 3", &clocked(run, 3));
}

/// Every flag set and every number as large as can be.
fn nonsense(setup: Setup) -> Run {
    Run {
        setup,
        default: MAX,
        clock: MAX,
        estimates: [MAX; 32],
        voted: [true; 32],
        votes: [MAX; 32],
        decided: [true; 32],
        decisions: [MAX; 32],
        rounds: [MAX; 32],
    }
}
