//! The bytes of a tape that grows, and the run that they give.

use independent::{kind, Cell, Run, Setup};

/// No tape grows beyond this: it is room for 4,096 rounds of 32 stations, twice.
pub const CEILING: usize = 1 << 26;

/// A cell of a round: what the sender is to send, or what is written down.
#[derive(Clone, Copy, Debug, PartialEq, Eq)]
pub enum Entry {
    AsSent,
    Heard(Cell),
}

/// A round: a row for each receiver, an entry for each sender.
pub type Round = Vec<Vec<Entry>>;

pub struct Tape {
    bytes: Vec<u8>,
    /// The run after the first `played` bytes, once there is one.
    run: Option<Run>,
    played: usize,
}

fn record(kind: u8, first: usize, second: usize, value: u32) -> [u8; Run::RECORD] {
    let v = value.to_le_bytes();
    [kind, first as u8, second as u8, 0, v[0], v[1], v[2], v[3]]
}

impl Tape {
    pub const EMPTY: Tape = Tape { bytes: Vec::new(), run: None, played: 0 };

    pub fn into_bytes(self) -> Vec<u8> {
        self.bytes
    }

    pub fn length(&self) -> usize {
        self.bytes.len()
    }

    /// The number of stations, as the listing program finds it: byte 2 (rule 13.2).
    pub fn stations(&self) -> Option<usize> {
        self.bytes.get(2).map(|&n| usize::from(n))
    }

    pub fn push(&mut self, bytes: &[u8]) {
        self.bytes.extend(bytes);
    }

    pub fn setup(&mut self, setup: Setup) {
        let Setup { algorithm, n, t, e, alpha } = setup;
        self.push(&[kind::SETUP, algorithm, n, t, e, alpha, 0, 0]);
    }

    pub fn default(&mut self, value: u32) {
        self.push(&record(kind::DEFAULT, 0, 0, value));
    }

    pub fn starts(&mut self, values: &[u32]) {
        for (p, &value) in values.iter().enumerate() {
            self.push(&record(kind::START, p, 0, value));
        }
    }

    /// Drops the last bytes. What is left is played from its beginning when next asked for.
    pub fn cut(&mut self, count: usize) {
        self.bytes.truncate(self.bytes.len() - count);
        self.run = None;
        self.played = 0;
    }

    /// One more round, or why the tape so far gives no run that could say what is to be sent.
    pub fn round(&mut self, round: &Round) -> Result<(), String> {
        let run = match round.iter().flatten().any(|&entry| entry == Entry::AsSent) {
            true => Some(self.run()?),
            false => None,
        };
        for (p, row) in round.iter().enumerate() {
            self.row(p, row, run.as_ref());
        }
        Ok(())
    }

    fn row(&mut self, p: usize, row: &[Entry], run: Option<&Run>) {
        for (q, &entry) in row.iter().enumerate() {
            let cell = match (entry, run) {
                (Entry::Heard(cell), _) => cell,
                (Entry::AsSent, Some(run)) => run.sends(q),
                (Entry::AsSent, None) => unreachable!("a run is asked for where an entry needs it"),
            };
            self.push(&match cell {
                Cell::Value(value) => record(kind::HEARD, p, q, value),
                Cell::Query => record(kind::HEARD_QUERY, p, q, 0),
                Cell::Lost => record(kind::LOST, p, q, 0),
            });
        }
    }

    /// The run that the tape gives: opened, and every round since played and accepted.
    fn run(&mut self) -> Result<Run, String> {
        let mut run = match self.run {
            Some(run) => run,
            None => self.open()?,
        };
        let length = run.setup.round_length();
        while self.bytes.len() >= self.played + length {
            let (reply, after, ..) =
                independent::step(&run, &self.bytes[self.played..self.played + length]);
            if !reply.accepted() {
                return Err(format!("round {} is refused with {reply}", run.clock + 1));
            }
            run = after;
            self.played += length;
        }
        self.run = Some(run);
        match self.bytes.len() - self.played {
            0 => Ok(run),
            rest => Err(format!("the round before has {rest} bytes of {length}")),
        }
    }

    fn open(&mut self) -> Result<Run, String> {
        let stations = self.stations().unwrap_or(0);
        let length = self.bytes.len().min(Run::RECORD * (2 + stations));
        let (reply, run) = independent::open(&self.bytes[..length]);
        if !reply.accepted() {
            return Err(format!("the opening is refused with {reply}"));
        }
        self.played = length;
        Ok(run)
    }
}
