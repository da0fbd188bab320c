//! Writes trials for a judge under test: `trials GROUP DIR` puts the frames that the judge is to
//! read into DIR/stdin, and the exact text that it must then print into DIR/stdout. What must be
//! printed is what the independent judge answers. "Rule 6.4" and the like are numbers of
//! `docs/RULES.md`.

#![forbid(unsafe_code)]

use sheet::Sheet;
use std::path::Path;
use std::process::ExitCode;

mod make;
mod rounds;
mod runs;
mod sheet;
mod steps;
#[cfg(test)]
mod tests;

type Group = (&'static str, fn(&mut Sheet));

/// The groups by name. Another source of trials, one that draws them from a seed for example, is
/// a function that fills a sheet, and a line here.
const GROUPS: [Group; 3] = [("runs", runs::fill), ("rounds", rounds::fill), ("steps", steps::fill)];

fn write(group: &str, directory: &Path) -> Result<String, String> {
    let Some((_, fill)) = GROUPS.iter().find(|(name, _)| *name == group) else {
        return Err(format!("no group {group}"));
    };
    let mut sheet = Sheet::default();
    fill(&mut sheet);
    let files = [("stdin", sheet.stdin.as_slice()), ("stdout", sheet.stdout.as_bytes())];
    std::fs::create_dir_all(directory).map_err(|e| format!("{}: {e}", directory.display()))?;
    for (name, bytes) in files {
        let path = directory.join(name);
        std::fs::write(&path, bytes).map_err(|e| format!("{}: {e}", path.display()))?;
    }
    let (frames, bytes) = (sheet.stdout.lines().count(), sheet.stdin.len());
    Ok(format!("{group}: {frames} frames, {bytes} bytes"))
}

fn main() -> ExitCode {
    let arguments: Vec<String> = std::env::args().skip(1).collect();
    let written = match arguments.as_slice() {
        [group, directory] => write(group, Path::new(directory)),
        _ => Err(format!("usage: trials {} DIR", GROUPS.map(|(name, _)| name).join("|"))),
    };
    match written {
        Ok(summary) => {
            eprintln!("{summary}");
            ExitCode::SUCCESS
        }
        Err(complaint) => {
            eprintln!("{complaint}");
            ExitCode::FAILURE
        }
    }
}
