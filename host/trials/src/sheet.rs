//! A sheet of trials: for each call a frame on the input, and the line that must be printed.

use independent::{
    fired_text, setup_text, spaced, state_text, Cell, Matrix, Reply, Run, Sets, Setup,
};
use std::collections::BTreeSet;

/// The numbers of the operations.
pub mod operation {
    pub const OPEN: u8 = 1;
    pub const WRITE_OPENING: u8 = 2;
    pub const LOAD: u8 = 3;
    pub const SAVE: u8 = 4;
    pub const SOUND: u8 = 5;
    pub const READ_ROUND: u8 = 6;
    pub const WRITE_ROUND: u8 = 7;
    pub const SURVEY: u8 = 8;
    pub const STEP: u8 = 9;
    pub const PLAY: u8 = 10;
}

#[derive(Default)]
pub struct Sheet {
    pub stdin: Vec<u8>,
    pub stdout: String,
    labels: BTreeSet<String>,
}

impl Sheet {
    pub fn open(&mut self, label: &str, opening: &[u8]) {
        self.frame(label, operation::OPEN);
        self.payload(opening);
        let (reply, run) = independent::open(opening);
        self.answer(label, &format!("{reply} {}", opened_text(reply, &run)));
    }

    pub fn write_opening(
        &mut self,
        label: &str,
        setup: Setup,
        default: u32,
        starts: [u32; 32],
        buffer: &[u8],
    ) {
        self.frame(label, operation::WRITE_OPENING);
        self.setup(setup);
        self.numbers(&[default]);
        self.numbers(&starts);
        self.payload(buffer);
        let mut buffer = buffer.to_vec();
        let reply = independent::write_opening(setup, default, starts, &mut buffer);
        self.answer(label, &format!("{reply} bytes {}", hex(&buffer)));
    }

    pub fn load(&mut self, label: &str, image: &[u8]) {
        self.frame(label, operation::LOAD);
        self.payload(image);
        let (reply, run) = independent::load(image);
        self.answer(label, &format!("{reply} {}", opened_text(reply, &run)));
    }

    pub fn save(&mut self, label: &str, run: &Run, buffer: &[u8]) {
        self.frame(label, operation::SAVE);
        self.run(run);
        self.payload(buffer);
        let mut buffer = buffer.to_vec();
        let reply = independent::save(run, &mut buffer);
        self.answer(label, &format!("{reply} bytes {}", hex(&buffer)));
    }

    pub fn sound(&mut self, label: &str, run: &Run) {
        self.frame(label, operation::SOUND);
        self.run(run);
        let verdict = if independent::sound(run) { "sound" } else { "broken" };
        self.answer(label, verdict);
    }

    pub fn read_round(&mut self, label: &str, run: &Run, round: &[u8]) {
        self.frame(label, operation::READ_ROUND);
        self.run(run);
        self.payload(round);
        let (reply, matrix) = independent::read_round(run, round);
        self.answer(label, &format!("{reply} cells{}", cells_text(&matrix)));
    }

    pub fn write_round(&mut self, label: &str, run: &Run, matrix: &Matrix, buffer: &[u8]) {
        self.frame(label, operation::WRITE_ROUND);
        self.run(run);
        for cell in matrix.iter().flatten() {
            let (sort, value) = match *cell {
                Cell::Lost => (0, 0),
                Cell::Value(value) => (1, value),
                Cell::Query => (2, 0),
            };
            self.stdin.push(sort);
            self.numbers(&[value]);
        }
        self.payload(buffer);
        let mut buffer = buffer.to_vec();
        let reply = independent::write_round(run, matrix, &mut buffer);
        self.answer(label, &format!("{reply} bytes {}", hex(&buffer)));
    }

    pub fn survey(&mut self, label: &str, run: &Run, round: &[u8]) {
        self.frame(label, operation::SURVEY);
        self.run(run);
        self.payload(round);
        let (reply, ho, sho) = independent::survey(run, round);
        self.answer(label, &format!("{reply}{}", sets_text(&ho, &sho, 32)));
    }

    /// One step; the run after it, to go on from.
    pub fn step(&mut self, label: &str, run: &Run, round: &[u8]) -> Run {
        self.frame(label, operation::STEP);
        self.run(run);
        self.payload(round);
        let (reply, after, fired, ho, sho) = independent::step(run, round);
        let n = after.setup.stations().min(32);
        let (held, fired) = (held_text(&after), fired_text(&fired[..n]));
        let sets = sets_text(&ho, &sho, n);
        self.answer(label, &format!("{reply} {held} fired{fired}{sets}"));
        after
    }

    /// One part played; the run after it, to go on from.
    pub fn play(&mut self, label: &str, run: &Run, tape: &[u8]) -> Run {
        self.frame(label, operation::PLAY);
        self.run(run);
        self.payload(tape);
        let (reply, after, rounds) = independent::play(run, tape);
        self.answer(label, &format!("{reply} rounds {rounds} {}", held_text(&after)));
        after
    }

    // The input

    fn frame(&mut self, label: &str, operation: u8) {
        assert!(!label.is_empty() && label.chars().all(|c| matches!(c, ' '..='~')), "{label:?}");
        assert!(self.labels.insert(label.to_string()), "{label} stands twice");
        self.stdin.push(u8::try_from(label.len()).expect("a short label"));
        self.stdin.extend(label.bytes());
        self.stdin.push(operation);
    }

    fn payload(&mut self, bytes: &[u8]) {
        let length = u16::try_from(bytes.len()).expect("a payload of at most 65,535 bytes");
        self.stdin.extend(length.to_le_bytes());
        self.stdin.extend(bytes);
    }

    fn numbers(&mut self, numbers: &[u32]) {
        for number in numbers {
            self.stdin.extend(number.to_le_bytes());
        }
    }

    fn flags(&mut self, flags: &[bool]) {
        self.stdin.extend(flags.iter().map(|&flag| u8::from(flag)));
    }

    fn setup(&mut self, setup: Setup) {
        let Setup { algorithm, n, t, e, alpha } = setup;
        self.stdin.extend([algorithm, n, t, e, alpha]);
    }

    fn run(&mut self, run: &Run) {
        self.setup(run.setup);
        self.numbers(&[run.default, run.clock]);
        self.numbers(&run.estimates);
        self.flags(&run.voted);
        self.numbers(&run.votes);
        self.flags(&run.decided);
        self.numbers(&run.decisions);
        self.numbers(&run.rounds);
    }

    // The text

    fn answer(&mut self, label: &str, text: &str) {
        self.stdout += &format!("{label}: {text}\n");
    }
}

/// A sound run: `A n=3 T=2 E=2 alpha=0 default 0 clock 0 hold 5 5 9 vote ? ? ? decide - - -`
fn run_text(run: &Run) -> String {
    let decisions = (0..run.setup.stations()).map(|p| match run.decided[p] {
        true => format!("{}@{}", run.decisions[p], run.rounds[p]),
        false => "-".to_string(),
    });
    let Run { setup, default, clock, .. } = *run;
    let (setup, state) = (setup_text(setup), state_text(run));
    format!("{setup} default {default} clock {clock} {state} decide{}", spaced(decisions))
}

/// A run from an opening or an image: the idle run where that was refused.
fn opened_text(reply: Reply, run: &Run) -> String {
    if reply.accepted() {
        return run_text(run);
    }
    assert_eq!(*run, Run::IDLE);
    "idle".to_string()
}

/// A run after a round: it need not be sound, if what was handed in was not.
fn held_text(run: &Run) -> String {
    if independent::sound(run) {
        run_text(run)
    } else {
        "run".to_string()
    }
}

/// The first n sets of both sorts, in hex.
fn sets_text(ho: &Sets, sho: &Sets, n: usize) -> String {
    let masks = |sets: &Sets| spaced(sets[..n].iter().map(|set| format!("{set:x}")));
    format!(" ho{} sho{}", masks(ho), masks(sho))
}

/// The cells that are not lost, by receiver and sender.
fn cells_text(matrix: &Matrix) -> String {
    let mut text = String::new();
    for (p, row) in matrix.iter().enumerate() {
        for (q, cell) in row.iter().enumerate() {
            match cell {
                Cell::Lost => {}
                Cell::Value(value) => text += &format!(" {p}.{q}={value}"),
                Cell::Query => text += &format!(" {p}.{q}=?"),
            }
        }
    }
    if text.is_empty() {
        text += " none";
    }
    text
}

fn hex(bytes: &[u8]) -> String {
    if bytes.is_empty() {
        return "-".to_string();
    }
    bytes.iter().map(|byte| format!("{byte:02x}")).collect()
}
