//! One call of both judges, with all that it may touch looked at.

use std::process;

/// Bytes lent to a call, within a larger buffer: a byte written beside them would show.
struct Lent {
    room: Vec<u8>,
    before: usize,
    length: usize,
}

const MARGIN: usize = 16;
const MARGIN_BYTE: u8 = 0xa5;

impl Lent {
    /// The place varies with the shift, and with it how the bytes are aligned.
    fn new(bytes: &[u8], shift: usize) -> Lent {
        let before = MARGIN + shift % MARGIN;
        Lent { room: Self::room(bytes, before), before, length: bytes.len() }
    }

    fn room(bytes: &[u8], before: usize) -> Vec<u8> {
        let mut room = vec![MARGIN_BYTE; before + bytes.len() + MARGIN];
        room[before..before + bytes.len()].copy_from_slice(bytes);
        room
    }

    fn bytes(&self) -> &[u8] {
        &self.room[self.before..self.before + self.length]
    }

    fn bytes_mut(&mut self) -> &mut [u8] {
        &mut self.room[self.before..self.before + self.length]
    }

    /// Whether it holds these bytes, and the margins are as they were.
    fn holds(&self, bytes: &[u8]) -> bool {
        self.room == Self::room(bytes, self.before)
    }
}

/// Which call it is, for the report of a difference.
#[derive(Clone, Copy)]
pub struct Call {
    pub seed: u64,
    pub case: u64,
    /// Which call of the case, from 0.
    pub turn: usize,
}

/// What both judges answered, and the bytes of the image after it.
pub struct Outcome {
    pub number: u32,
    pub image: Vec<u8>,
}

fn hex(bytes: &[u8]) -> String {
    bytes.iter().map(|byte| format!("{byte:02x}")).collect()
}

/// A call with a part to be read and an image, and what became of them.
struct Seen<'a> {
    entry: &'static str,
    read: &'a [u8],
    read_after: Lent,
    image: &'a [u8],
    image_after: Lent,
    answer: u64,
    expected: u64,
    expected_image: Vec<u8>,
}

impl Seen<'_> {
    fn fault(&self) -> Option<&'static str> {
        let refused = self.expected as u32 != 0;
        if self.answer != self.expected {
            Some("the answers differ")
        } else if !self.image_after.holds(&self.expected_image) {
            Some("the images or the bytes beside them differ")
        } else if refused && self.expected_image != self.image {
            Some("a refusal wrote")
        } else if !self.read_after.holds(self.read) {
            Some("a part to be read was written")
        } else {
            None
        }
    }

    fn report(&self, call: Call, fault: &str) -> ! {
        let text = |answer: u64| format!("{} at {}", answer as u32, answer >> 32);
        eprintln!("{}: {fault}", self.entry);
        eprintln!("seed {} case {} call {}", call.seed, call.case, call.turn);
        eprintln!("read      {}", hex(self.read));
        eprintln!("image     {}", hex(self.image));
        eprintln!("archive     answers {}", text(self.answer));
        eprintln!("archive     image   {}", hex(self.image_after.bytes()));
        eprintln!("independent answers {}", text(self.expected));
        eprintln!("independent image   {}", hex(&self.expected_image));
        process::exit(1)
    }

    fn outcome(self, call: Call) -> Outcome {
        if let Some(fault) = self.fault() {
            self.report(call, fault);
        }
        Outcome { number: self.answer as u32, image: self.expected_image }
    }
}

pub fn open(call: Call, opening: &[u8], image: &[u8]) -> Outcome {
    let read_after = Lent::new(opening, call.case as usize);
    let mut image_after = Lent::new(image, call.case as usize / MARGIN);
    let answer = avantrusa::open(read_after.bytes(), image_after.bytes_mut()).into();
    let mut expected_image = image.to_vec();
    let expected = independent::judge_open(opening, &mut expected_image);
    let entry = "judge_open";
    Seen { entry, read: opening, read_after, image, image_after, answer, expected, expected_image }
        .outcome(call)
}

pub fn step(call: Call, image: &[u8], round: &[u8]) -> Outcome {
    let read_after = Lent::new(round, call.case as usize);
    let mut image_after = Lent::new(image, call.case as usize / MARGIN);
    let answer = avantrusa::step(image_after.bytes_mut(), read_after.bytes()).into();
    let mut expected_image = image.to_vec();
    let expected = independent::judge_step(&mut expected_image, round);
    let entry = "judge_step";
    Seen { entry, read: round, read_after, image, image_after, answer, expected, expected_image }
        .outcome(call)
}
