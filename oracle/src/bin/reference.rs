//! Reads a script and prints what document 01 says of each line.

use oracle::reference::program::Program;
use std::io::{BufRead, Write};

fn main() -> std::io::Result<()> {
    let mut input = std::io::BufReader::with_capacity(1 << 20, std::io::stdin().lock());
    let mut output = std::io::BufWriter::with_capacity(1 << 20, std::io::stdout().lock());
    let mut program = Program::default();
    let mut line = Vec::new();
    let mut printed = Vec::new();
    while input.read_until(b'\n', &mut line)? > 0 {
        if line.last() == Some(&b'\n') {
            line.pop();
        }
        printed.clear();
        program.line(&line, &mut printed);
        output.write_all(&printed)?;
        line.clear();
    }
    output.flush()
}
