//! Each kind of line gives its bytes, and each kind of fault names its line.

use crate::text;
use independent::listing;

fn tape(text: &str) -> Vec<u8> {
    text::tape(text.as_bytes()).unwrap_or_else(|fault| panic!("{fault}\n{text}"))
}

fn refused(text: &str) -> String {
    text::tape(text.as_bytes()).expect_err(text).to_string()
}

/// Case 9 of the bench sheet, `tapes/case-09`, by hand.
#[rustfmt::skip]
const CASE_9: [u8; 184] = [
    1, 1, 3, 2, 2, 0, 0, 0,  2, 0, 0, 0, 0, 0, 0, 0,
    3, 0, 0, 0, 5, 0, 0, 0,  3, 1, 0, 0, 5, 0, 0, 0,  3, 2, 0, 0, 9, 0, 0, 0,

    4, 0, 0, 0, 5, 0, 0, 0,  4, 0, 1, 0, 5, 0, 0, 0,  4, 0, 2, 0, 9, 0, 0, 0,
    4, 1, 0, 0, 5, 0, 0, 0,  4, 1, 1, 0, 5, 0, 0, 0,  4, 1, 2, 0, 9, 0, 0, 0,
    4, 2, 0, 0, 5, 0, 0, 0,  4, 2, 1, 0, 5, 0, 0, 0,  4, 2, 2, 0, 9, 0, 0, 0,

    4, 0, 0, 0, 5, 0, 0, 0,  4, 0, 1, 0, 5, 0, 0, 0,  4, 0, 2, 0, 5, 0, 0, 0,
    4, 1, 0, 0, 5, 0, 0, 0,  4, 1, 1, 0, 5, 0, 0, 0,  4, 1, 2, 0, 5, 0, 0, 0,
    4, 2, 0, 0, 5, 0, 0, 0,  4, 2, 1, 0, 5, 0, 0, 0,  4, 2, 2, 0, 5, 0, 0, 0,
];

/// The listing of case 9, by rules 14.3 to 14.6 of `docs/RULES.md`.
const CASE_9_LISTING: &str = "\
A n=3 T=2 E=2 alpha=0
1 hold 5 5 5 vote ? ? ? decide - - -
2 hold 5 5 5 vote ? ? ? decide 5 5 5
end rounds 2 answer 0 at 0
";

const A3: &str = "setup A n=3 T=2 E=2 alpha=0\nstarts 5 5 9\n";
const U2: &str = "setup U n=2 T=1 E=1 alpha=0\ndefault 7\nstarts 1 2\n";

fn a3(rest: &str) -> String {
    format!("{A3}{rest}")
}

fn u2(rest: &str) -> String {
    format!("{U2}{rest}")
}

#[test]
fn case_9_in_each_way_of_writing_it() {
    let cells = "round\n5 5 9\n5 5 9\n5 5 9\nround\n5 5 5\n5 5 5\n5 5 5\n";
    let mixed = "round # the first\n. 5 .\n\n. . 9\n5 . .\nall\n";
    for rounds in ["all\nall\n", "all\nagain 1\n", cells, mixed] {
        assert_eq!(tape(&a3(rounds)), CASE_9, "{rounds}");
    }
    let hex: String = CASE_9.iter().map(|byte| format!(" {byte:02x}")).collect();
    assert_eq!(tape(&format!("bytes{hex}")), CASE_9);
    assert_eq!(tape(&format!("bytes{}\nall\n", &hex[..3 * 112])), CASE_9);
    assert_eq!(listing(&CASE_9), CASE_9_LISTING);
}

#[test]
fn openings() {
    let opening = [1, 2, 2, 1, 1, 0, 0, 0, 2, 0, 0, 0, 7, 0, 0, 0];
    let starts = [3, 0, 0, 0, 1, 0, 0, 0, 3, 1, 0, 0, 2, 0, 0, 0];
    assert_eq!(tape(U2), [opening, starts].concat());
    assert_eq!(tape(A3), CASE_9[..40]);
    // Spaces, comments, blank lines and line ends of either sort say nothing.
    assert_eq!(tape(&format!("# case 9\r\n\r\n  {}", A3.replace('\n', " # so\r\n"))), CASE_9[..40]);
    let all = tape("setup A n=2 T=0 E=0 alpha=0\nstarts all 4294967295");
    assert_eq!(all[16..], [3, 0, 0, 0, 255, 255, 255, 255, 3, 1, 0, 0, 255, 255, 255, 255]);
    assert_eq!(tape("setup 1 n=3 T=2 E=2 alpha=0\nstarts 5 5 9"), CASE_9[..40]);
    assert_eq!(
        tape("setup 255 n=0 T=254 E=253 alpha=252\nstarts")[..8],
        [1, 255, 0, 254, 253, 252, 0, 0]
    );
    assert_eq!(tape("setup 0 n=255 T=0 E=0 alpha=0\nstarts all 0").len(), 8 * 257);
}

#[test]
fn cells_of_each_sort() {
    let bytes = tape(&u2("round\n. ?\n- 513\n"));
    #[rustfmt::skip]
    assert_eq!(bytes[32..], [
        4, 0, 0, 0, 1, 0, 0, 0,  5, 0, 1, 0, 0, 0, 0, 0,
        6, 1, 0, 0, 0, 0, 0, 0,  4, 1, 1, 0, 1, 2, 0, 0,
    ]);
    assert_eq!(tape(&u2("all but 1<0=- 0<1=? 1<1=513\n")), bytes);
    // A later change of a cell stands.
    assert_eq!(tape(&u2("all but 0<1=8 0<1=? 1<0=- 1<1=513 0<0=.\n")), bytes);
}

#[test]
fn what_is_sent_follows_the_run() {
    // Two values: no vote, so "?" is sent; then both hold the default.
    let bytes = tape(&u2("all\nagain 2\n"));
    let row = |values: [u8; 2]| [4, 0, 0, 0, values[0], 0, 0, 0, 4, 0, 1, 0, values[1], 0, 0, 0];
    assert_eq!(bytes[32..48], row([1, 2]));
    assert_eq!(bytes[64..80], [5, 0, 0, 0, 0, 0, 0, 0, 5, 0, 1, 0, 0, 0, 0, 0]);
    assert_eq!(bytes[96..112], row([7, 7]));
    // Rounds that are written out in full need no run, and may follow a refused one.
    assert_eq!(tape(&a3("round\n- - -\n- - -\n- - 4\nround\n1 1 1\n1 1 1\n1 1 1\n")).len(), 184);
    // A cut is forgotten, a refused round with it.
    assert_eq!(tape(&a3("all\nall but 0<0=6\ncut 72\nall\n")), CASE_9);
    assert_eq!(tape(&a3("bytes 09\ncut 1\nall\nagain 1\n")), CASE_9);
}

#[test]
fn damage() {
    assert_eq!(tape(""), []);
    assert_eq!(tape("# nothing\n\n"), []);
    assert_eq!(tape("bytes 00 fF 10\nbytes 7a"), [0, 255, 16, 122]);
    assert_eq!(tape("setup A n=3 T=2 E=2 alpha=0\ncut 1"), CASE_9[..7]);
    assert_eq!(tape(&a3("all\nagain 1\ncut 36\n")), CASE_9[..148]);
    assert_eq!(tape(&a3("cut 40")), []);
    assert_eq!(tape(&a3("all\nagain 1\nbytes 00")).len(), 185);
}

#[test]
fn many_rounds() {
    let bytes = tape(&u2("all\nagain 4095\nall\n"));
    assert_eq!(bytes.len(), 32 + 4097 * 32);
    assert!(listing(&bytes).ends_with("\nend rounds 4096 answer 8 at 0\n"));
    let past = refused(&u2("all\nagain 4095\nall\nall\n"));
    assert_eq!(past, "line 7: expected no cell as sent, since round 4097 is refused with 8 at 0");
    let past = refused(&u2("all\nagain 4097\n"));
    assert_eq!(past, "line 5: expected no cell as sent, since round 4097 is refused with 8 at 0");
}

/// A text, and the fault it must be given.
fn faults(cases: &[(&str, &str)]) {
    for (text, fault) in cases {
        assert_eq!(refused(text), *fault, "{text}");
    }
}

#[test]
fn faults_of_lines() {
    faults(&[
        (
            "# first\n\nsetpu A\n",
            "line 3: expected setup, default, starts, round, all, again, bytes or cut, found `setpu`",
        ),
        ("all", "line 1: expected `setup` before the first round"),
        ("round", "line 1: expected `setup` before the first round"),
        ("again 2", "line 1: expected a round in the line before"),
        ("cut 1", "line 1: expected a number of bytes up to 0, all there are, found `1`"),
        ("bytes 01 01\nall", "line 2: expected a tape of at least 3 bytes before this: byte 2 is n"),
    ]);
    let latin = text::tape(b"# \xc3\xa4\n# \xe4\n").expect_err("not UTF-8");
    assert_eq!(latin.to_string(), "line 2: expected text in UTF-8");
}

#[test]
fn faults_of_openings() {
    let byte = "a number from 0 to 255";
    let value = "a value from 0 to 4294967295";
    let setup = "setup A n=3 T=2 E=2 alpha=0";
    faults(&[
        ("\nsetup", &format!("line 2: expected A, U or {byte}, found the end of the line")),
        ("setup a n=3", &format!("line 1: expected A, U or {byte}, found `a`")),
        ("setup 256 n=3", &format!("line 1: expected A, U or {byte}, found `256`")),
        ("setup A 3", &format!("line 1: expected `n=` and {byte}, found `3`")),
        ("setup A n=256", &format!("line 1: expected `n=` and {byte}, found `n=256`")),
        ("setup A n=+3", &format!("line 1: expected `n=` and {byte}, found `n=+3`")),
        ("setup A n=3 E=2", &format!("line 1: expected `T=` and {byte}, found `E=2`")),
        (
            "setup A n=3 T=2",
            &format!("line 1: expected `E=` and {byte}, found the end of the line"),
        ),
        (
            "setup A n=3 T=2 E=2 alpha=",
            &format!("line 1: expected `alpha=` and {byte}, found `alpha=`"),
        ),
        (&format!("{setup} beta=1"), "line 1: expected the end of the line, found `beta=1`"),
        (&format!("{A3}{setup}"), "line 3: expected one setup, as the first line"),
        (&format!("{setup}\n# no starts"), "line 1: expected `starts` after this setup"),
        (&format!("\n{setup}\ndefault 0"), "line 2: expected `starts` after this setup"),
        (
            &format!("{setup}\ndefault"),
            &format!("line 2: expected {value}, found the end of the line"),
        ),
        (&format!("{setup}\ndefault ?"), &format!("line 2: expected {value}, found `?`")),
        (&format!("{setup}\ndefault 0 0"), "line 2: expected the end of the line, found `0`"),
        (
            &format!("{setup}\ndefault 0\ndefault 0"),
            "line 3: expected a default right after a setup",
        ),
        ("default 0", "line 1: expected a default right after a setup"),
        ("starts 5", "line 1: expected starts after a setup and its default"),
        (&format!("{A3}starts 5 5 9"), "line 3: expected starts after a setup and its default"),
        (
            &format!("{setup}\nstarts 5 5"),
            "line 2: expected 3 starts, one for each station, found 2",
        ),
        (
            &format!("{setup}\nstarts 5 5 9 9"),
            "line 2: expected 3 starts, one for each station, found 4",
        ),
        (
            &format!("{setup}\nstarts 5 5 4294967296"),
            &format!("line 2: expected {value}, found `4294967296`"),
        ),
        (&format!("{setup}\nstarts all -1"), &format!("line 2: expected {value}, found `-1`")),
        (&format!("{setup}\nall"), "line 2: expected `starts` before the first round"),
        (&format!("{setup}\ndefault 0\nround"), "line 3: expected `starts` before the first round"),
    ]);
}

#[test]
fn faults_of_rounds() {
    let cell = "a cell (a value from 0 to 4294967295, `?`, `-` or `.`)";
    let change = "a change like `0<6=8`, receiver<sender=cell";
    let times = "a number of times, from 1 up";
    faults(&[
        (&a3("round 1"), "line 3: expected the end of the line, found `1`"),
        (&a3("round\n. . .\n. .\n. . ."), "line 5: expected 3 cells in the row of 1, found 2"),
        (&a3("round\n. . . .\n"), "line 4: expected 3 cells in the row of 0, found 4"),
        (&a3("round\n. . .\n. . .\n"), "line 3: expected 3 rows after this line, found 2"),
        (
            &a3("round\n. . .\n. . .\n# no third\nall\n"),
            &format!("line 7: expected {cell}, found `all`"),
        ),
        (&a3("round\n. x .\n"), &format!("line 4: expected {cell}, found `x`")),
        (&a3("round\n. 4294967296 .\n"), &format!("line 4: expected {cell}, found `4294967296`")),
        (&a3("all heard"), "line 3: expected `but` or the end of the line, found `heard`"),
        (&a3("all but"), &format!("line 3: expected {change}, found the end of the line")),
        (&a3("all but 0<1"), &format!("line 3: expected {change}, found `0<1`")),
        (&a3("all but 0=1"), &format!("line 3: expected {change}, found `0=1`")),
        (&a3("all but 0<1=x"), &format!("line 3: expected {cell}, found `x`")),
        (&a3("all but 0<2=4 0<3=4"), "line 3: expected stations below 3, found `0<3=4`"),
        (&a3("all but 3<0=4"), "line 3: expected stations below 3, found `3<0=4`"),
        (&a3("again 1"), "line 3: expected a round in the line before"),
        (&a3("all\nbytes 00\nagain 1"), "line 5: expected a round in the line before"),
        (&a3("all\nagain"), &format!("line 4: expected {times}, found the end of the line")),
        (&a3("all\nagain 0"), &format!("line 4: expected {times}, found `0`")),
        (&a3("all\nagain two"), &format!("line 4: expected {times}, found `two`")),
        (&a3("all\nagain 2 3"), "line 4: expected the end of the line, found `3`"),
        (&a3("all\nagain 932067"), "line 4: expected a tape of at most 67108864 bytes"),
    ]);
}

#[test]
fn faults_of_damage() {
    let hex = "bytes of two hex digits each";
    faults(&[
        (&a3("bytes"), &format!("line 3: expected {hex}, found the end of the line")),
        (&a3("bytes 1"), &format!("line 3: expected {hex}, found `1`")),
        (&a3("bytes 00 0g"), &format!("line 3: expected {hex}, found `0g`")),
        (&a3("bytes +1"), &format!("line 3: expected {hex}, found `+1`")),
        (
            &a3("cut"),
            "line 3: expected a number of bytes up to 40, all there are, found the end of the line",
        ),
        (&a3("cut 41"), "line 3: expected a number of bytes up to 40, all there are, found `41`"),
        (&a3("cut x"), "line 3: expected a number of bytes up to 40, all there are, found `x`"),
        (&a3("cut 1 2"), "line 3: expected the end of the line, found `2`"),
    ]);
}

#[test]
fn nothing_is_sent_by_a_run_that_was_refused() {
    let none = "expected no cell as sent, since";
    faults(&[
        (
            "setup A n=3 T=1 E=2 alpha=0\nstarts 5 5 9\nall",
            &format!("line 3: {none} the opening is refused with 4 at 0"),
        ),
        ("bytes 01 01 03\nall", &format!("line 2: {none} the opening is refused with 1 at 0")),
        (&a3("all but 1<2=4\nall"), &format!("line 4: {none} round 1 is refused with 6 at 1")),
        (&a3("all but 0<2=4\nagain 1"), &format!("line 4: {none} round 1 is refused with 6 at 0")),
        (
            &a3("all\nround\n- - -\n- ? -\n- - -\nround\n. - -\n- - -\n- - -\n"),
            &format!("line 8: {none} round 2 is refused with 5 at 4"),
        ),
        (&a3("all\ncut 8\nall"), &format!("line 5: {none} the round before has 64 bytes of 72")),
        (&a3("all\nbytes 04\nall"), &format!("line 5: {none} the round before has 1 bytes of 72")),
    ]);
}
