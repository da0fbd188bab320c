//! How fast the listing program reads a tape of 4,096 rounds.

use crate::load;
use independent::{setup_text, Setup};
use std::fs::File;
use std::io::{Seek, Write};
use std::path::{Path, PathBuf};
use std::process::{Command, Stdio};
use std::time::Instant;

const PASSES: usize = 12;

fn program() -> PathBuf {
    let usual = Path::new(env!("CARGO_MANIFEST_DIR")).join("../../crates/listing/out/listing");
    std::env::var_os("LISTING").map_or(usual, PathBuf::from)
}

/// A file with these bytes that nobody else can open any more.
fn nameless(bytes: &[u8]) -> std::io::Result<File> {
    let path = std::env::temp_dir().join(format!("avantrusa-bench-{}", std::process::id()));
    let mut file = File::options().read(true).write(true).create_new(true).open(&path)?;
    std::fs::remove_file(&path)?;
    file.write_all(bytes)?;
    Ok(file)
}

/// What the program prints for the tape, and the seconds from its start to its end.
fn run(program: &Path, tape: &mut File) -> std::io::Result<(Vec<u8>, f64)> {
    tape.rewind()?;
    let mut command = Command::new(program);
    command.stdin(Stdio::from(tape.try_clone()?)).stderr(Stdio::inherit());
    let begin = Instant::now();
    let output = command.output()?;
    let seconds = begin.elapsed().as_secs_f64();
    match output.status.success() {
        true => Ok((output.stdout, seconds)),
        false => Err(std::io::Error::other(output.status.to_string())),
    }
}

/// Measures the program and the independent listing in turn; both must print the same.
pub fn print(setup: Setup) -> Result<(), String> {
    let program = program();
    if !program.exists() {
        println!("\nThe listing program is not built, and was not measured.");
        return Ok(());
    }
    let trouble = |e: std::io::Error| format!("{}: {e}", program.display());
    let tape = load::longest_tape(setup);
    let mut file = nameless(&tape).map_err(trouble)?;
    let (mut ours, mut rust) = (f64::INFINITY, f64::INFINITY);
    for _ in 0..PASSES {
        let (printed, seconds) = run(&program, &mut file).map_err(trouble)?;
        let begin = Instant::now();
        let said = independent::listing(&tape);
        rust = rust.min(begin.elapsed().as_secs_f64());
        ours = ours.min(seconds);
        if printed != said.as_bytes() {
            return Err(
                "the listing program prints something else than the independent judge".to_string()
            );
        }
    }
    let megabytes = tape.len() as f64 / 1e6;
    println!(
        "\nA tape of 4,096 rounds, {}, {megabytes:.1} MB, as many altered and lost as allowed:\n",
        setup_text(setup)
    );
    println!("| what | seconds | MB/s |");
    println!("|---|--:|--:|");
    println!("| the listing program, from start to end | {ours:.3} | {:.0} |", megabytes / ours);
    println!(
        "| the independent listing in Rust, from memory to memory | {rust:.3} | {:.0} |",
        megabytes / rust
    );
    Ok(())
}
