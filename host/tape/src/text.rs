//! Reads the text line by line. What a line may be stands at the top of `main.rs`.

use crate::bytes::{Entry, Round, Tape, CEILING};
use independent::{Cell, Run, Setup, A, U};
use std::fmt;
use std::str::FromStr;

/// What is wrong with a text, and in which line, counted from 1.
#[derive(Debug, PartialEq, Eq)]
pub struct Fault {
    pub line: usize,
    pub expected: String,
}

impl fmt::Display for Fault {
    fn fmt(&self, f: &mut fmt::Formatter<'_>) -> fmt::Result {
        write!(f, "line {}: {}", self.line, self.expected)
    }
}

/// A line that says something: its number, and its words without the comment.
struct Line<'a> {
    number: usize,
    words: Vec<&'a str>,
}

impl Line<'_> {
    fn fault<T>(&self, expected: String) -> Result<T, Fault> {
        Err(Fault { line: self.number, expected })
    }

    /// The fault that something else was expected in the place of this word, or of the line's end.
    fn instead<T>(&self, expected: &str, word: Option<&str>) -> Result<T, Fault> {
        match word {
            Some(word) => self.fault(format!("expected {expected}, found `{word}`")),
            None => self.fault(format!("expected {expected}, found the end of the line")),
        }
    }

    /// The one word after the first.
    fn only(&self, expected: &str) -> Result<&str, Fault> {
        match self.words[..] {
            [_, word] => Ok(word),
            [_, _, further, ..] => self.instead("the end of the line", Some(further)),
            _ => self.instead(expected, None),
        }
    }
}

/// How far the opening has come.
#[derive(Clone, Copy)]
enum Stage {
    Nothing,
    /// A setup, in this line.
    Setup(usize),
    /// A default too; the line is still the setup's.
    Default(usize),
    Open,
}

struct Reader<'a> {
    lines: std::vec::IntoIter<Line<'a>>,
    tape: Tape,
    stage: Stage,
    /// The round in the line before, for `again`.
    last: Option<Round>,
}

/// The tape that the text describes.
pub fn tape(text: &[u8]) -> Result<Vec<u8>, Fault> {
    let text = std::str::from_utf8(text).map_err(|fault| {
        let before = &text[..fault.valid_up_to()];
        let line = 1 + before.iter().filter(|&&byte| byte == b'\n').count();
        Fault { line, expected: "expected text in UTF-8".to_string() }
    })?;
    let numbered = text.lines().zip(1..).map(|(line, number)| {
        let said = line.split('#').next().unwrap_or("");
        Line { number, words: said.split_whitespace().collect() }
    });
    let lines: Vec<Line> = numbered.filter(|line| !line.words.is_empty()).collect();
    let mut reader =
        Reader { lines: lines.into_iter(), tape: Tape::EMPTY, stage: Stage::Nothing, last: None };
    while let Some(line) = reader.lines.next() {
        reader.line(&line)?;
    }
    match reader.stage {
        Stage::Setup(line) | Stage::Default(line) => {
            Err(Fault { line, expected: "expected `starts` after this setup".to_string() })
        }
        Stage::Nothing | Stage::Open => Ok(reader.tape.into_bytes()),
    }
}

impl Reader<'_> {
    fn line(&mut self, line: &Line) -> Result<(), Fault> {
        match line.words[0] {
            "setup" => self.setup(line),
            "default" => self.default(line),
            "starts" => self.starts(line),
            "round" => self.rows(line),
            "all" => self.all(line),
            "again" => self.again(line),
            "bytes" => self.bytes(line),
            "cut" => self.cut(line),
            word => {
                let known = "setup, default, starts, round, all, again, bytes or cut";
                line.instead(known, Some(word))
            }
        }
    }

    // The opening

    fn setup(&mut self, line: &Line) -> Result<(), Fault> {
        let Stage::Nothing = self.stage else {
            return line.fault("expected one setup, as the first line".to_string());
        };
        let mut words = line.words[1..].iter().copied();
        let algorithm = match words.next() {
            Some("A") => A,
            Some("U") => U,
            word => number(line, word, "", "A, U or a number from 0 to 255")?,
        };
        let mut named = |name: &str| {
            let expected = format!("`{name}` and a number from 0 to 255");
            number(line, words.next(), name, &expected)
        };
        let (n, t, e, alpha) = (named("n=")?, named("T=")?, named("E=")?, named("alpha=")?);
        if let Some(word) = words.next() {
            return line.instead("the end of the line", Some(word));
        }
        self.tape.setup(Setup { algorithm, n, t, e, alpha });
        self.stage = Stage::Setup(line.number);
        Ok(())
    }

    fn default(&mut self, line: &Line) -> Result<(), Fault> {
        let Stage::Setup(setup) = self.stage else {
            return line.fault("expected a default right after a setup".to_string());
        };
        self.tape.default(value(line, line.only(VALUE)?)?);
        self.stage = Stage::Default(setup);
        Ok(())
    }

    fn starts(&mut self, line: &Line) -> Result<(), Fault> {
        match self.stage {
            Stage::Setup(_) => self.tape.default(0),
            Stage::Default(_) => {}
            Stage::Nothing | Stage::Open => {
                return line.fault("expected starts after a setup and its default".to_string());
            }
        }
        let n = self.stations(line)?;
        let values = match line.words[1..] {
            ["all", word] => vec![value(line, word)?; n],
            ref words => words.iter().map(|word| value(line, word)).collect::<Result<_, _>>()?,
        };
        if values.len() != n {
            let found = values.len();
            return line.fault(format!("expected {n} starts, one for each station, found {found}"));
        }
        self.tape.starts(&values);
        self.stage = Stage::Open;
        Ok(())
    }

    // Rounds

    /// The number of stations, where a round may stand.
    fn may_round(&self, line: &Line) -> Result<usize, Fault> {
        match self.stage {
            Stage::Open => self.stations(line),
            Stage::Setup(_) | Stage::Default(_) => {
                line.fault("expected `starts` before the first round".to_string())
            }
            Stage::Nothing => line.fault("expected `setup` before the first round".to_string()),
        }
    }

    fn stations(&self, line: &Line) -> Result<usize, Fault> {
        let missing = "expected a tape of at least 3 bytes before this: byte 2 is n";
        self.tape.stations().map_or_else(|| line.fault(missing.to_string()), Ok)
    }

    fn rows(&mut self, line: &Line) -> Result<(), Fault> {
        let n = self.may_round(line)?;
        if let Some(word) = line.words.get(1) {
            return line.instead("the end of the line", Some(word));
        }
        let mut round = Round::new();
        for p in 0..n {
            let Some(row) = self.lines.next() else {
                return line.fault(format!("expected {n} rows after this line, found {p}"));
            };
            round.push(row_of(&row, p, n)?);
        }
        self.write(line, round, 1)
    }

    fn all(&mut self, line: &Line) -> Result<(), Fault> {
        let n = self.may_round(line)?;
        let mut round = vec![vec![Entry::AsSent; n]; n];
        let changes = match line.words[1..] {
            [] => &[],
            ["but", ref changes @ ..] if !changes.is_empty() => changes,
            ["but"] => return line.instead(CHANGE, None),
            [word, ..] => return line.instead("`but` or the end of the line", Some(word)),
        };
        for change in changes {
            let (p, q, cell) = change_of(line, change, n)?;
            round[p][q] = cell;
        }
        self.write(line, round, 1)
    }

    fn again(&mut self, line: &Line) -> Result<(), Fault> {
        let expected = "a number of times, from 1 up";
        let word = line.only(expected)?;
        let times: usize = number(line, Some(word), "", expected)?;
        if times == 0 {
            return line.instead(expected, Some(word));
        }
        match self.last.take() {
            Some(round) => self.write(line, round, times),
            None => line.fault("expected a round in the line before".to_string()),
        }
    }

    /// Writes the round so many times, and keeps it for `again`.
    fn write(&mut self, line: &Line, round: Round, times: usize) -> Result<(), Fault> {
        // A round of no stations takes no byte, and is not written for ever either.
        let length = (Run::RECORD * round.len() * round.len()).max(1);
        if length.saturating_mul(times).saturating_add(self.tape.length()) > CEILING {
            return line.fault(format!("expected a tape of at most {CEILING} bytes"));
        }
        for _ in 0..times {
            self.tape.round(&round).or_else(|reason| {
                line.fault(format!("expected no cell as sent, since {reason}"))
            })?;
        }
        self.last = Some(round);
        Ok(())
    }

    // Damage

    fn bytes(&mut self, line: &Line) -> Result<(), Fault> {
        let expected = "bytes of two hex digits each";
        if line.words.len() == 1 {
            return line.instead(expected, None);
        }
        for word in &line.words[1..] {
            let digits = word.len() == 2 && word.bytes().all(|digit| digit.is_ascii_hexdigit());
            match u8::from_str_radix(word, 16) {
                Ok(byte) if digits => self.tape.push(&[byte]),
                _ => return line.instead(expected, Some(word)),
            }
        }
        self.damaged();
        Ok(())
    }

    fn cut(&mut self, line: &Line) -> Result<(), Fault> {
        let length = self.tape.length();
        let expected = format!("a number of bytes up to {length}, all there are");
        let word = line.only(&expected)?;
        let count: usize = number(line, Some(word), "", &expected)?;
        if count > length {
            return line.instead(&expected, Some(word));
        }
        self.tape.cut(count);
        self.damaged();
        Ok(())
    }

    /// The opening is as it is now, and no round stands in the line before the next.
    fn damaged(&mut self) {
        self.stage = Stage::Open;
        self.last = None;
    }
}

// Words

const VALUE: &str = "a value from 0 to 4294967295";
const CELL: &str = "a cell (a value from 0 to 4294967295, `?`, `-` or `.`)";
const CHANGE: &str = "a change like `0<6=8`, receiver<sender=cell";

/// The number after this name in a word.
fn number<N: FromStr>(
    line: &Line,
    word: Option<&str>,
    name: &str,
    expected: &str,
) -> Result<N, Fault> {
    let digits = word.and_then(|word| word.strip_prefix(name));
    match digits.and_then(plain) {
        Some(number) => Ok(number),
        None => line.instead(expected, word),
    }
}

/// A number in decimal digits and nothing else: no sign.
fn plain<N: FromStr>(digits: &str) -> Option<N> {
    let only_digits = digits.bytes().all(|digit| digit.is_ascii_digit());
    digits.parse().ok().filter(|_| only_digits)
}

fn value(line: &Line, word: &str) -> Result<u32, Fault> {
    number(line, Some(word), "", VALUE)
}

fn entry(line: &Line, word: &str) -> Result<Entry, Fault> {
    Ok(match word {
        "." => Entry::AsSent,
        "-" => Entry::Heard(Cell::Lost),
        "?" => Entry::Heard(Cell::Query),
        digits => Entry::Heard(Cell::Value(number(line, Some(digits), "", CELL)?)),
    })
}

fn row_of(line: &Line, p: usize, n: usize) -> Result<Vec<Entry>, Fault> {
    let row: Vec<Entry> =
        line.words.iter().map(|word| entry(line, word)).collect::<Result<_, _>>()?;
    match row.len() {
        found if found == n => Ok(row),
        found => line.fault(format!("expected {n} cells in the row of {p}, found {found}")),
    }
}

/// `0<6=8`: receiver, sender, cell.
fn change_of(line: &Line, word: &str, n: usize) -> Result<(usize, usize, Entry), Fault> {
    let parts = word.split_once('=').and_then(|(stations, cell)| {
        let (p, q) = stations.split_once('<')?;
        Some((plain(p)?, plain(q)?, cell))
    });
    match parts {
        Some((p, q, cell)) if p < n && q < n => Ok((p, q, entry(line, cell)?)),
        Some(_) => line.instead(&format!("stations below {n}"), Some(word)),
        None => line.instead(CHANGE, Some(word)),
    }
}
