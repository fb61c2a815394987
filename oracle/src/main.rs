//! The oracle's commands; see USAGE.

use oracle::generate::{self, Mix};
use oracle::tally::Tally;
use oracle::tape::Tape;
use oracle::{compare, drive, record, replay};
use std::io::{Read, Write};
use std::path::Path;
use std::process::ExitCode;

const USAGE: &str = "
oracle generate SEED FIRST COUNT SCRIPT EXPECTED   writes runs FIRST.. of a seed into two files
oracle run SEED NUMBER                             prints one run, each line with what it prints
oracle compare SEED COUNT PROGRAM FOLDER           compares a transcript program, a batch at a time
oracle record CORNERS FOLDER                       writes the recorded list as FOLDER/stdin and FOLDER/stdout
oracle expect                                      reads a script or a file of corners, prints the expected lines
The mix of kinds may follow `generate`, `run` and `compare`: of a thousand runs INNER LOOP PSI, the rest d_psi.
";

fn main() -> ExitCode {
    let words: Vec<String> = std::env::args().skip(1).collect();
    let words: Vec<&str> = words.iter().map(String::as_str).collect();
    drive::hush_expected_panics();
    match command(&words) {
        Some(code) => code,
        None => {
            eprint!("{USAGE}");
            ExitCode::from(2)
        }
    }
}

fn command(words: &[&str]) -> Option<ExitCode> {
    match words {
        ["generate", seed, first, count, script, expected, mix @ ..] => {
            let (seed, first, count) = (whole(seed)?, whole(first)?, whole(count)?);
            let (tape, tally) = runs(seed, first, count, &mix_of(mix)?);
            std::fs::write(script, &tape.script).expect("the script is written");
            std::fs::write(expected, &tape.expected).expect("the expected lines are written");
            eprint!("{}", tally.lines());
            Some(ExitCode::SUCCESS)
        }
        ["run", seed, number, mix @ ..] => {
            let (tape, _) = runs(whole(seed)?, whole(number)?, 1, &mix_of(mix)?);
            let script = String::from_utf8_lossy(&tape.script).into_owned();
            let expected = String::from_utf8_lossy(&tape.expected).into_owned();
            for (said, printed) in script.lines().zip(expected.lines()) {
                println!("{said}\n    {printed}");
            }
            Some(ExitCode::SUCCESS)
        }
        ["compare", seed, count, program, folder, mix @ ..] => {
            let (seed, count) = (whole(seed)?, whole(count)?);
            let (program, folder) = (Path::new(program), Path::new(folder));
            let (tally, difference) = compare::compare(seed, count, &mix_of(mix)?, program, folder)
                .expect("the program runs and the folder can be written");
            Some(report(&tally, difference, folder))
        }
        ["record", corners, folder] => {
            let corners = std::fs::read_to_string(corners).expect("the corners can be read");
            let (tape, tally) = record::record(&corners);
            let folder = Path::new(folder);
            std::fs::write(folder.join("stdin"), &tape.script).expect("stdin is written");
            std::fs::write(folder.join("stdout"), &tape.expected).expect("stdout is written");
            print!("{}", tally.lines());
            Some(ExitCode::SUCCESS)
        }
        ["expect"] => {
            let mut text = String::new();
            std::io::stdin().read_to_string(&mut text).ok()?;
            let lines = replay::corners(&text);
            let (tape, _) = replay::replay(lines, Tape::default(), Tally::default());
            std::io::stdout().write_all(&tape.expected).ok()?;
            Some(ExitCode::SUCCESS)
        }
        _ => None,
    }
}

/// Some runs of a seed, one after another.
fn runs(seed: u64, first: u64, count: u64, mix: &Mix) -> (Tape, Tally) {
    let mut both = (Tape::default(), Tally::default());
    for index in first..first + count {
        both = generate::run(seed, index, mix, both.0, both.1);
        both = generate::sets::table(seed, index, both.0, both.1);
    }
    both
}

/// Prints the counts, the difference if there is one, and the runs of each kind.
fn report(tally: &Tally, difference: Option<String>, folder: &Path) -> ExitCode {
    print!("{}", tally.lines());
    if let Some(text) = &difference {
        println!("the first difference:\n{text}");
        println!("its script is in {}/difference", folder.display());
    }
    let verdict = match difference {
        None => "compared, no difference",
        Some(_) => "generated, and a difference",
    };
    println!(
        "{verdict}: inner {}, loop {}, psi {}, d_psi {}; on an edge {}; tables of sets {}",
        tally.get("run inner"),
        tally.get("run loop"),
        tally.get("run psi"),
        tally.get("run d_psi"),
        tally.get("runs on an edge"),
        tally.get("tables of sets"),
    );
    match difference {
        None => ExitCode::SUCCESS,
        Some(_) => ExitCode::FAILURE,
    }
}

fn mix_of(words: &[&str]) -> Option<Mix> {
    match words {
        [] => Some(Mix {
            inner: 450,
            outer: 400,
            psi: 75,
        }),
        [inner, outer, psi] => Some(Mix {
            inner: inner.parse().ok()?,
            outer: outer.parse().ok()?,
            psi: psi.parse().ok()?,
        }),
        _ => None,
    }
}

fn whole(word: &str) -> Option<u64> {
    word.parse().ok()
}
