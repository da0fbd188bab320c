use crate::raw::fault;
use crate::reply::number;
use crate::*;
use std::collections::BTreeMap;
use std::ptr::{null, null_mut};

const N: usize = 3;
const IMAGE: usize = image_length(N);
const ROUND: usize = round_length(N);
const OPENING: usize = opening_length(N);

/// The opening of `tapes/case-09`.
fn opening() -> Vec<u8> {
    let mut bytes =
        vec![kind::SETUP, A, N as u8, 2, 2, 0, 0, 0, kind::DEFAULT, 0, 0, 0, 0, 0, 0, 0];
    for (p, start) in [5, 5, 9].into_iter().enumerate() {
        bytes.extend([kind::START, p as u8, 0, 0, start, 0, 0, 0]);
    }
    bytes
}

fn image() -> Vec<u8> {
    let mut image = vec![0xa5; IMAGE];
    assert_eq!(open(&opening(), &mut image).reply(), Reply::Accepted);
    image
}

/// All hear what is held at the start.
fn round() -> Vec<u8> {
    let cell = |k: usize| [kind::HEARD, (k / N) as u8, (k % N) as u8, 0, [5, 5, 9][k % N], 0, 0, 0];
    (0..N * N).flat_map(cell).collect()
}

#[test]
fn case_9() {
    let mut image = image();
    assert!(step(&mut image, &round()).accepted());
    let estimates = &image[RECORD * 3..RECORD * (3 + N)];
    assert!(estimates.chunks(RECORD).all(|r| r[0] == kind::ESTIMATE && r[4] == 5));
    // The third station no longer sends 9.
    let before = image.clone();
    let answer = step(&mut image, &round());
    assert_eq!(answer.result(), Err(Reply::Altered { receiver: 0 }));
    assert_eq!(image, before);
}

#[test]
fn refusals_of_an_opening() {
    let mut untouched = vec![0xa5; IMAGE + 1];
    let mut bad = opening();
    bad[RECORD + 4] = 1;
    let mut attempt =
        |opening: &[u8], length: usize| open(opening, &mut untouched[..length]).reply();
    assert_eq!(attempt(&[], IMAGE), Reply::Length);
    assert_eq!(attempt(&opening(), IMAGE + 1), Reply::Buffer);
    assert_eq!(attempt(&opening(), 0), Reply::Buffer);
    assert_eq!(attempt(&bad, IMAGE), Reply::Malformed { record: 1 });
    assert_eq!(untouched, vec![0xa5; IMAGE + 1]);
}

/// The `#define`s of the header that are numbers.
fn header() -> BTreeMap<&'static str, u32> {
    let mut numbers = BTreeMap::new();
    for line in include_str!("../../include/avantrusa.h").lines() {
        let words: Vec<&str> = line.split_whitespace().collect();
        if let ["#define", name, value] = words[..] {
            let digits = value.trim_end_matches('u');
            let number = match digits.strip_prefix("0x") {
                Some(hex) => u32::from_str_radix(hex, 16),
                None => digits.parse(),
            };
            numbers.insert(name.trim_start_matches("AVANTRUSA_"), number.unwrap());
        }
    }
    numbers
}

#[test]
fn the_header_has_the_same_numbers() {
    let here = BTreeMap::from([
        ("ACCEPTED", number::ACCEPTED),
        ("LENGTH", number::LENGTH),
        ("MALFORMED", number::MALFORMED),
        ("RANGE", number::RANGE),
        ("INEQUALITY", number::INEQUALITY),
        ("QUERY", number::QUERY),
        ("ALTERED", number::ALTERED),
        ("UNSAFE", number::UNSAFE),
        ("FULL", number::FULL),
        ("BUFFER", number::BUFFER),
        ("RULES", number::RULES),
        ("NULL", number::NULL),
        ("OVERLAP", number::OVERLAP),
        ("RECORD", RECORD as u32),
        ("STATIONS", STATIONS as u32),
        ("ROUNDS", ROUNDS),
        ("A", A.into()),
        ("U", U.into()),
        ("KIND_SETUP", kind::SETUP.into()),
        ("KIND_DEFAULT", kind::DEFAULT.into()),
        ("KIND_START", kind::START.into()),
        ("KIND_HEARD", kind::HEARD.into()),
        ("KIND_HEARD_QUERY", kind::HEARD_QUERY.into()),
        ("KIND_LOST", kind::LOST.into()),
        ("KIND_CLOCK", kind::CLOCK.into()),
        ("KIND_ESTIMATE", kind::ESTIMATE.into()),
        ("KIND_NO_VOTE", kind::NO_VOTE.into()),
        ("KIND_VOTE", kind::VOTE.into()),
        ("KIND_UNDECIDED", kind::UNDECIDED.into()),
        ("KIND_DECIDED", kind::DECIDED.into()),
        ("KIND_DECISION_ROUND", kind::DECISION_ROUND.into()),
    ]);
    assert_eq!(header(), here);
}

#[test]
fn lengths() {
    assert_eq!((opening_length(3), image_length(3), round_length(3)), (40, 120, 72));
    assert_eq!((opening_length(32), image_length(32), round_length(32)), (272, 1048, 8192));
}

#[test]
fn every_answer_is_some_reply_and_no_other_answer() {
    let numbers = (0..=20).chain([77, u32::MAX - 2, number::NULL, number::OVERLAP]);
    for number in numbers {
        for place in [0, 1, 3, 1023, u32::MAX] {
            let bits = u64::from(place) << 32 | u64::from(number);
            let reply = Reply::from(bits);
            assert_eq!(u64::from(Answer::from(reply)), bits);
            assert_eq!((Answer::from(bits).number(), Answer::from(bits).place()), (number, place));
            assert_eq!(Answer::from(bits).accepted(), bits == 0);
            assert!(!reply.to_string().is_empty());
        }
    }
    assert_eq!(Reply::from(11), Reply::Unknown { number: 11, place: 0 });
    assert_eq!(Reply::from(1 << 32), Reply::Unknown { number: 0, place: 1 });
    assert_eq!(Reply::from(5 << 32 | 8), Reply::Unknown { number: 8, place: 5 });
}

#[test]
fn texts() {
    let begins = |bits: u64, beginning: &str| {
        let text = Answer::from(bits).to_string();
        assert!(text.starts_with(beginning), "{text}");
    };
    begins(0, "accepted");
    begins(1, "refused with 1: an opening must have");
    begins(4 << 32 | 2, "refused with 2: record 4, counted from 0, has a wrong kind");
    begins(3, "refused with 3: the algorithm must be");
    begins(4, "refused with 4: the setup must have n > E");
    begins(8 << 32 | 5, "refused with 5: record 8, counted from 0, is a \"?\"");
    begins(3 << 32 | 6, "refused with 6: receiver 3 has more altered frames than alpha allows");
    begins(2 << 32 | 7, "refused with 7: receiver 2 has too few frames as they were sent");
    begins(8, "refused with 8: the run has had its 4096 rounds");
    begins(9, "refused with 9: the buffer for the image must have exactly");
    begins(12 << 32 | 10, "refused with 10: record 12 of the image");
    begins(1 << 32 | 0xffff_fffe, "not judged: buffer 1, counted from 0, is null");
    begins(0xffff_ffff, "not judged: the two buffers overlap");
    begins(7 << 32 | 99, "unknown answer 99 at 7");
}

/// Addresses alone: nothing is read or written here.
#[test]
fn faults_by_address() {
    let at = |address: usize| address as *const u8;
    let find =
        |first, first_len, second, second_len| fault(at(first), first_len, at(second), second_len);
    let overlap = Some(Reply::Overlap);
    assert_eq!(find(100, 10, 100, 10), overlap);
    assert_eq!(find(100, 10, 109, 10), overlap);
    assert_eq!(find(100, 10, 110, 10), None);
    assert_eq!(find(109, 10, 100, 10), overlap);
    assert_eq!(find(110, 10, 100, 10), None);
    assert_eq!(find(100, 10, 104, 1), overlap);
    assert_eq!(find(104, 1, 100, 10), overlap);
    assert_eq!(find(100, 10, 104, 0), None);
    assert_eq!(find(104, 0, 100, 10), None);
    assert_eq!(find(usize::MAX - 9, 10, usize::MAX, 1), overlap);
    assert_eq!(find(usize::MAX, 1, usize::MAX - 9, 9), None);
    assert_eq!(find(1, usize::MAX, usize::MAX, 1), overlap);
    assert_eq!(find(0, 0, 100, 10), None);
    assert_eq!(find(0, 0, 0, 0), None);
    assert_eq!(find(0, 1, 100, 10), Some(Reply::Null { buffer: 0 }));
    assert_eq!(find(100, 10, 0, 1), Some(Reply::Null { buffer: 1 }));
    assert_eq!(find(0, 1, 0, 1), Some(Reply::Null { buffer: 0 }));
    assert_eq!(find(0, usize::MAX, 100, 10), Some(Reply::Null { buffer: 0 }));
}

#[test]
fn raw_calls_are_ordinary_calls() {
    let (opening, round) = (opening(), round());
    let mut raw = vec![0xa5; IMAGE];
    // SAFETY: each buffer is a whole vector, or null.
    unsafe {
        let answer = open_raw(opening.as_ptr(), OPENING, raw.as_mut_ptr(), IMAGE);
        assert_eq!((answer.reply(), &raw), (Reply::Accepted, &image()));
        let mut stepped = image();
        assert!(step(&mut stepped, &round).accepted());
        let answer = step_raw(raw.as_mut_ptr(), IMAGE, round.as_ptr(), ROUND);
        assert_eq!((answer.reply(), &raw), (Reply::Accepted, &stepped));

        assert_eq!(open_raw(null(), 0, raw.as_mut_ptr(), IMAGE).reply(), Reply::Length);
        assert_eq!(open_raw(opening.as_ptr(), OPENING, null_mut(), 0).reply(), Reply::Buffer);
        assert_eq!(open_raw(null(), 0, null_mut(), 0).reply(), Reply::Length);
        assert_eq!(step_raw(null_mut(), 0, round.as_ptr(), ROUND).reply(), Reply::Length);
        assert_eq!(step_raw(raw.as_mut_ptr(), IMAGE, null(), 0).reply(), Reply::Length);
        let none = Reply::Null { buffer: 1 };
        assert_eq!(step_raw(raw.as_mut_ptr(), IMAGE, null(), ROUND).reply(), none);
        assert_eq!(open_raw(opening.as_ptr(), OPENING, null_mut(), IMAGE).reply(), none);
        let none = Reply::Null { buffer: 0 };
        assert_eq!(step_raw(null_mut(), IMAGE, round.as_ptr(), ROUND).reply(), none);
        assert_eq!(open_raw(null(), OPENING, raw.as_mut_ptr(), IMAGE).reply(), none);
        assert_eq!(raw, stepped);
    }
}

/// Where the image lies in a room. A whole round or opening begins at each place from before the
/// image to behind it.
const MIDDLE: usize = 200;
const ROOM: usize = 600;

fn expected(apart: bool) -> Reply {
    if apart {
        Reply::Accepted
    } else {
        Reply::Overlap
    }
}

#[test]
fn raw_steps_in_every_arrangement() {
    for at in MIDDLE - ROUND - 1..=MIDDLE + IMAGE + 1 {
        let mut room = vec![0xa5; ROOM];
        room[at..at + ROUND].copy_from_slice(&round());
        room[MIDDLE..MIDDLE + IMAGE].copy_from_slice(&image());
        let before = room.clone();
        let apart = at + ROUND <= MIDDLE || at >= MIDDLE + IMAGE;
        let start = room.as_mut_ptr();
        // SAFETY: both buffers lie within the room.
        let answer = unsafe { step_raw(start.add(MIDDLE), IMAGE, start.add(at), ROUND) };
        assert_eq!(answer.reply(), expected(apart));
        assert_eq!(room != before, apart);
    }
}

#[test]
fn raw_openings_in_every_arrangement() {
    for at in MIDDLE - OPENING - 1..=MIDDLE + IMAGE + 1 {
        let mut room = vec![0xa5; ROOM];
        room[at..at + OPENING].copy_from_slice(&opening());
        let before = room.clone();
        let apart = at + OPENING <= MIDDLE || at >= MIDDLE + IMAGE;
        let start = room.as_mut_ptr();
        // SAFETY: both buffers lie within the room.
        let answer = unsafe { open_raw(start.add(at), OPENING, start.add(MIDDLE), IMAGE) };
        assert_eq!(answer.reply(), expected(apart));
        assert_eq!(room != before, apart);
    }
}
