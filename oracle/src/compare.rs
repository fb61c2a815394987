//! Feeds generated runs to a transcript program and compares line by line, a batch at a time.

use crate::generate::{self, Mix};
use crate::tally::Tally;
use crate::tape::Tape;
use std::fs::File;
use std::io::{self, Write};
use std::path::{Path, PathBuf};
use std::process::{Child, Command, Stdio};

/// A batch is closed when its script and expected lines pass this size.
const BATCH_BYTES: usize = 16 << 20;

/// A batch that the program works on.
struct Batch {
    tape: Tape,
    got: PathBuf,
    child: Child,
}

/// Compares `count` runs of a seed; the first difference comes back as a text, and its script as a file.
pub fn compare(
    seed: u64,
    count: u64,
    mix: &Mix,
    program: &Path,
    folder: &Path,
) -> io::Result<(Tally, Option<String>)> {
    let mut tally = Tally::default();
    let mut next = 0;
    let mut number = 0;
    let mut at_work: Option<Batch> = None;
    while next < count || at_work.is_some() {
        let mut tape = Tape::default();
        while next < count && tape.script.len() + tape.expected.len() < BATCH_BYTES {
            (tape, tally) = generate::run(seed, next, mix, tape, tally);
            (tape, tally) = generate::sets::table(seed, next, tape, tally);
            next += 1;
        }
        if let Some(batch) = at_work.take() {
            if let Some(text) = finish(batch, folder)? {
                return Ok((tally, Some(text)));
            }
        }
        if !tape.script.is_empty() {
            number += 1;
            at_work = Some(begin(tape, program, folder, number % 2)?);
        }
    }
    Ok((tally, None))
}

/// Starts the program on a batch.
fn begin(tape: Tape, program: &Path, folder: &Path, number: usize) -> io::Result<Batch> {
    let script = folder.join(format!("script{number}"));
    let got = folder.join(format!("got{number}"));
    File::create(&script)?.write_all(&tape.script)?;
    let child = Command::new(program)
        .stdin(Stdio::from(File::open(&script)?))
        .stdout(Stdio::from(File::create(&got)?))
        .spawn()?;
    Ok(Batch { tape, got, child })
}

/// Waits for the program and compares what it printed.
fn finish(mut batch: Batch, folder: &Path) -> io::Result<Option<String>> {
    let status = batch.child.wait()?;
    let got = std::fs::read(&batch.got)?;
    if got != batch.tape.expected {
        let found = difference(&batch.tape.script, &batch.tape.expected, &got);
        let script = found.script.join("\n") + "\n";
        std::fs::write(folder.join("difference"), script)?;
        return Ok(Some(found.text()));
    }
    if !status.success() {
        return Ok(Some(format!("the program ended with {status}\n")));
    }
    Ok(None)
}

/// Where a transcript differs first.
pub struct Difference {
    /// The script of the run up to there.
    pub script: Vec<String>,
    pub expected: String,
    pub got: String,
}

/// Compares line by line.
pub fn difference(script: &[u8], expected: &[u8], got: &[u8]) -> Difference {
    let text = |line: Option<&[u8]>| match line {
        Some(line) => String::from_utf8_lossy(line).into_owned(),
        None => "(nothing)".to_string(),
    };
    let mut expected = expected.split(|&b| b == b'\n');
    let mut got = got.split(|&b| b == b'\n');
    let mut run = Vec::new();
    for line in script.split(|&b| b == b'\n') {
        let line = text(Some(line));
        if is_start(&line) {
            run.clear();
        }
        run.push(line);
        let (e, g) = (expected.next(), got.next());
        if e != g {
            return Difference {
                script: run,
                expected: text(e),
                got: text(g),
            };
        }
    }
    Difference {
        script: run,
        expected: "(the end)".to_string(),
        got: text(got.next()),
    }
}

fn is_start(line: &str) -> bool {
    ["inner ", "loop ", "psi ", "d_psi ", "sets"]
        .iter()
        .any(|word| line.starts_with(word))
}

impl Difference {
    /// For the log: of a long script, the first line and the last 300.
    pub fn text(&self) -> String {
        let last = self.script.len().saturating_sub(300);
        let mut text = String::new();
        if last > 0 {
            text.push_str(&format!("{}\n(.. {} lines ..)\n", self.script[0], last - 1));
        }
        for line in &self.script[last..] {
            text.push_str(line);
            text.push('\n');
        }
        text.push_str(&format!("expected: {}\n", self.expected));
        text.push_str(&format!("got:      {}\n", self.got));
        text
    }
}
