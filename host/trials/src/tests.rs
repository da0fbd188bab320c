//! The frames read back say what was meant, and each group holds what it ought to.

use super::*;
use crate::sheet::operation;
use independent::{Cell, Matrix, Run, Setup, ALL_LOST};
use std::collections::BTreeSet;

fn filled(group: &str) -> Sheet {
    let (_, fill) = GROUPS.iter().find(|(name, _)| *name == group).unwrap();
    let mut sheet = Sheet::default();
    fill(&mut sheet);
    sheet
}

/// Reads frames as a program under test does.
struct Reader<'a>(&'a [u8]);

impl<'a> Reader<'a> {
    fn bytes(&mut self, length: usize) -> &'a [u8] {
        let (bytes, rest) = self.0.split_at(length);
        self.0 = rest;
        bytes
    }

    fn byte(&mut self) -> u8 {
        self.bytes(1)[0]
    }

    fn number(&mut self) -> u32 {
        u32::from_le_bytes(self.bytes(4).try_into().unwrap())
    }

    fn numbers(&mut self) -> [u32; 32] {
        [(); 32].map(|()| self.number())
    }

    fn flags(&mut self) -> [bool; 32] {
        [(); 32].map(|()| match self.byte() {
            0 => false,
            1 => true,
            other => panic!("flag {other}"),
        })
    }

    fn payload(&mut self) -> &'a [u8] {
        let length = u16::from_le_bytes(self.bytes(2).try_into().unwrap());
        self.bytes(usize::from(length))
    }

    fn setup(&mut self) -> Setup {
        let [algorithm, n, t, e, alpha] = [(); 5].map(|()| self.byte());
        Setup { algorithm, n, t, e, alpha }
    }

    fn run(&mut self) -> Run {
        let before = self.0.len();
        let run = Run {
            setup: self.setup(),
            default: self.number(),
            clock: self.number(),
            estimates: self.numbers(),
            voted: self.flags(),
            votes: self.numbers(),
            decided: self.flags(),
            decisions: self.numbers(),
            rounds: self.numbers(),
        };
        assert_eq!(before - self.0.len(), 589);
        run
    }

    fn matrix(&mut self) -> Matrix {
        let mut matrix = ALL_LOST;
        for cell in matrix.iter_mut().flatten() {
            *cell = match (self.byte(), self.number()) {
                (0, 0) => Cell::Lost,
                (1, value) => Cell::Value(value),
                (2, 0) => Cell::Query,
                other => panic!("cell {other:?}"),
            };
        }
        matrix
    }
}

/// The sheet of the frames read back, and the operation of each.
fn replayed(stdin: &[u8]) -> (Sheet, Vec<u8>) {
    let mut sheet = Sheet::default();
    let mut operations = Vec::new();
    let mut reader = Reader(stdin);
    while !reader.0.is_empty() {
        let length = reader.byte();
        let label = std::str::from_utf8(reader.bytes(usize::from(length))).unwrap();
        let operation = reader.byte();
        operations.push(operation);
        match operation {
            operation::OPEN => sheet.open(label, reader.payload()),
            operation::WRITE_OPENING => {
                let (setup, default, starts) = (reader.setup(), reader.number(), reader.numbers());
                sheet.write_opening(label, setup, default, starts, reader.payload());
            }
            operation::LOAD => sheet.load(label, reader.payload()),
            operation::SAVE => sheet.save(label, &reader.run(), reader.payload()),
            operation::SOUND => sheet.sound(label, &reader.run()),
            operation::READ_ROUND => sheet.read_round(label, &reader.run(), reader.payload()),
            operation::WRITE_ROUND => {
                let (run, matrix) = (reader.run(), reader.matrix());
                sheet.write_round(label, &run, &matrix, reader.payload());
            }
            operation::SURVEY => sheet.survey(label, &reader.run(), reader.payload()),
            operation::STEP => drop(sheet.step(label, &reader.run(), reader.payload())),
            operation::PLAY => drop(sheet.play(label, &reader.run(), reader.payload())),
            other => panic!("operation {other}"),
        }
    }
    (sheet, operations)
}

#[test]
fn frames_read_back() {
    for (group, _) in GROUPS {
        let sheet = filled(group);
        let (again, operations) = replayed(&sheet.stdin);
        assert_eq!(again.stdin, sheet.stdin);
        assert_eq!(again.stdout, sheet.stdout);
        assert_eq!(operations.len(), sheet.stdout.lines().count());
        assert!(sheet.stdin.len() < 400_000, "{group} has {} bytes", sheet.stdin.len());
    }
}

/// Every reply an operation can give is given, and no other.
#[test]
fn every_reply_is_met() {
    let expected = [
        ("runs", operation::OPEN, "0 1 2 3 4"),
        ("runs", operation::WRITE_OPENING, "0 2 3 4 9"),
        ("runs", operation::LOAD, "0 1 10 2 3 4"),
        ("runs", operation::SAVE, "0 10 9"),
        ("runs", operation::SOUND, "broken sound"),
        ("rounds", operation::READ_ROUND, "0 1 10 2 5"),
        ("rounds", operation::WRITE_ROUND, "0 10 2 5 9"),
        ("rounds", operation::SURVEY, "0 1 10 2 5"),
        ("steps", operation::STEP, "0 1 10 2 5 6 7 8"),
        ("steps", operation::PLAY, "0 1 10 2 5 6 7 8"),
    ];
    for (group, _) in GROUPS {
        let sheet = filled(group);
        let (_, operations) = replayed(&sheet.stdin);
        let told: BTreeSet<u8> = operations.iter().copied().collect();
        let of_group = expected.iter().filter(|(name, ..)| *name == group);
        assert!(told.into_iter().eq(of_group.clone().map(|(_, operation, _)| *operation)));
        for (_, wanted, replies) in of_group {
            let lines = sheet.stdout.lines().zip(&operations);
            let met: BTreeSet<&str> = lines
                .filter(|(_, operation)| *operation == wanted)
                .map(|(line, _)| line.split_once(": ").unwrap().1.split(' ').next().unwrap())
                .collect();
            assert_eq!(met.into_iter().collect::<Vec<_>>().join(" "), *replies, "{wanted}");
        }
    }
}

/// Lines worked out by hand.
#[test]
fn lines_by_hand() {
    let expected = [
        (
            "runs",
            vec![
                "open A3: 0 at 0 A n=3 T=2 E=2 alpha=0 default 0 clock 0 \
                 hold 5 5 9 vote ? ? ? decide - - -",
                "open U2: 0 at 0 U n=2 T=1 E=1 alpha=0 default 7 clock 0 \
                 hold 0 4294967295 vote ? ? decide - -",
                "open A3 7 bytes: 1 at 0 idle",
                "open A3 8 bytes: 1 at 0 idle",
                "open range A(33,32,32,0): 3 at 0 idle",
                "open range U(255,254,254,0): 3 at 0 idle",
                "open range A(1,0,0,0): 4 at 0 idle",
                "open range 3(3,2,2,0): 3 at 0 idle",
                "open edge U(5,4,3,1): 4 at 0 idle",
                "open edge A(7,6,6,129): 4 at 0 idle",
                "open A3 1.7 ^80: 2 at 1 idle",
                "open A3 0.6 ^01: 2 at 0 idle",
                "open A3 4.3 ^80: 2 at 4 idle",
                "open A3 station 1 twice: 2 at 4 idle",
                "open one byte short, default 1: 1 at 0 idle",
                "write open A3 into 8: 9 at 0 bytes a0a1a2a3a4a5a6a7",
                "write open A3 into 0: 9 at 0 bytes -",
                "write open A3 into 40: 0 at 0 bytes 0101030202000000\
                 0200000000000000030000000500000003010000050000000302000009000000",
                "write open A3 start 31 set: 2 at 5 bytes a0a1a2a3a4a5a6a7a8a9aaabac\
                 a0a1a2a3a4a5a6a7a8a9aaabaca0a1a2a3a4a5a6a7a8a9aaabaca0",
                "write open U7 start 31 set: 2 at 9 bytes a0a1a2a3a4a5a6a7a8a9aaabac\
                 a0a1a2a3a4a5a6a7a8a9aaabaca0a1a2a3a4a5a6a7a8a9aaabaca0a1a2a3a4a5a6a7a8a9aaabac\
                 a0a1a2a3a4a5a6a7a8a9aaabaca0a1a2a3a4a5a6",
                "load busy A3: 0 at 0 A n=3 T=2 E=2 alpha=0 default 0 clock 3 \
                 hold 5 4294967295 0 vote ? ? ? decide - 9@3 0@1",
                "load late U2: 0 at 0 U n=2 T=1 E=1 alpha=0 default 4294967295 clock 4095 \
                 hold 0 67305985 vote 0 ? decide - 4294967295@4094",
                "load U6 4097, bad kind at 20: 2 at 20 idle",
                "load U6 clock 4097: 10 at 2 idle",
                "load U6 vote at clock 4: 10 at 12 idle",
                "load A3 vote at clock 1: 10 at 7 idle",
                "load U6 clock 5 decided in 0: 10 at 24 idle",
                "load U6 clock 5 decided in 6: 10 at 24 idle",
                "load U6 clock 5 decided in 3: 10 at 24 idle",
                "load U6 clock 5 undecided in 2: 10 at 24 idle",
                "load U6 vote of 5 bad, decision of 1 bad: 10 at 14 idle",
                "load A3 default 1, round of 0 bad: 2 at 1 idle",
                "sound? A3 n 200: broken",
                "save? idle into 1: 10 at 0 bytes a0",
                "sound busy U32: sound",
            ],
        ),
        (
            "rounds",
            vec![
                "survey A3 own estimate from another: 0 at 0 \
                 ho 7 7 7 0 0 0 0 0 0 0 0 0 0 0 0 0 0 0 0 0 0 0 0 0 0 0 0 0 0 0 0 0 \
                 sho 7 6 7 0 0 0 0 0 0 0 0 0 0 0 0 0 0 0 0 0 0 0 0 0 0 0 0 0 0 0 0 0",
                "survey U2 vote 0 as ?: 0 at 0 \
                 ho 3 3 0 0 0 0 0 0 0 0 0 0 0 0 0 0 0 0 0 0 0 0 0 0 0 0 0 0 0 0 0 0 \
                 sho 2 3 0 0 0 0 0 0 0 0 0 0 0 0 0 0 0 0 0 0 0 0 0 0 0 0 0 0 0 0 0 0",
                "survey? A1: 10 at 0 \
                 ho 0 0 0 0 0 0 0 0 0 0 0 0 0 0 0 0 0 0 0 0 0 0 0 0 0 0 0 0 0 0 0 0 \
                 sho 0 0 0 0 0 0 0 0 0 0 0 0 0 0 0 0 0 0 0 0 0 0 0 0 0 0 0 0 0 0 0 0",
                "read A3 heard: 0 at 0 cells 0.0=5 0.1=5 0.2=9 1.0=5 1.1=5 1.2=9 2.0=5 2.1=5 2.2=9",
                "read U2 vote heard: 0 at 0 cells 0.0=7 0.1=? 1.0=7 1.1=?",
                "read A3 lost: 0 at 0 cells none",
                "read A3 64 bytes: 1 at 0 cells none",
                "read A3 ? at 5: 5 at 5 cells none",
                "read A3 ? with wrong sender: 2 at 5 cells none",
                "write U2 vote heard: 0 at 0 bytes 04000000070000000500010000000000\
                 04010000070000000501010000000000",
            ],
        ),
        (
            "steps",
            vec![
                "case 9 round 2: 0 at 0 A n=3 T=2 E=2 alpha=0 default 0 clock 2 \
                 hold 5 5 5 vote ? ? ? decide 5@2 5@2 5@2 fired 5 5 5 ho 7 7 7 sho 7 7 7",
                "case 10 starts 9 5 7: 0 at 0 A n=3 T=2 E=2 alpha=0 default 0 clock 1 \
                 hold 5 5 5 vote ? ? ? decide - - - fired - - - ho 7 7 7 sho 7 7 7",
                "case 12 two altered: 6 at 0 A n=7 T=6 E=6 alpha=1 default 0 clock 0 \
                 hold 4 4 4 4 4 4 4 vote ? ? ? ? ? ? ? decide - - - - - - - \
                 fired - - - - - - - ho 0 0 0 0 0 0 0 sho 0 0 0 0 0 0 0",
                "case 15 played: 6 at 3 rounds 0 U n=6 T=4 E=4 alpha=1 default 0 clock 0 \
                 hold 3 3 3 3 3 3 vote ? ? ? ? ? ? decide - - - - - -",
                "A5 own frame lost: 0 at 0 A n=5 T=4 E=3 alpha=0 default 0 clock 1 \
                 hold 9 4 4 4 4 vote ? ? ? ? ? decide 4@1 4@1 4@1 4@1 4@1 \
                 fired 4 4 4 4 4 ho 1e 1f 1f 1f 1f sho 1e 1f 1f 1f 1f",
                "U6 votes 7 7 7 3 3 3: 0 at 0 U n=6 T=4 E=4 alpha=1 default 1 clock 2 \
                 hold 3 3 3 3 3 3 vote ? ? ? ? ? ? decide - - - - - - \
                 fired - - - - - - ho 3f 3f 3f 3f 3f 3f sho 3f 3f 3f 3f 3f 3f",
                "step? idle: 10 at 0 run fired ho sho",
                "step? A1: 10 at 0 run fired - ho 0 sho 0",
                "play? idle nothing: 10 at 0 rounds 0 run",
                "play A3 0 bytes: 0 at 0 rounds 0 A n=3 T=2 E=2 alpha=0 default 0 clock 0 \
                 hold 5 5 9 vote ? ? ? decide - - -",
                "play A3 145 bytes: 1 at 0 rounds 2 A n=3 T=2 E=2 alpha=0 default 0 clock 2 \
                 hold 5 5 5 vote ? ? ? decide 5@2 5@2 5@2",
                "play A3 6 at 1: 6 at 1 rounds 1 A n=3 T=2 E=2 alpha=0 default 0 clock 1 \
                 hold 5 5 5 vote ? ? ? decide - - -",
                "play A3 5 at 8: 5 at 8 rounds 1 A n=3 T=2 E=2 alpha=0 default 0 clock 1 \
                 hold 5 5 5 vote ? ? ? decide - - -",
            ],
        ),
    ];
    for (group, lines) in expected {
        let sheet = filled(group);
        let told: BTreeSet<&str> = sheet.stdout.lines().collect();
        for line in lines {
            assert!(told.contains(line), "not told: {line}");
        }
    }
}
