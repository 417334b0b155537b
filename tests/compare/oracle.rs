//! `oracle FILE..` prints for each file how many bytes its output has, in a line, and then the output. Without a file
//! it prints the output for standard input.

use oracle::report::output;
use std::io::{self, Read, Write};

fn main() -> io::Result<()> {
    let files: Vec<_> = std::env::args_os().skip(1).collect();
    let mut out = io::stdout().lock();
    if files.is_empty() {
        let mut input = Vec::new();
        io::stdin().read_to_end(&mut input)?;
        return out.write_all(&output(&input));
    }
    for file in files {
        let said = output(&std::fs::read(file)?);
        writeln!(out, "{}", said.len())?;
        out.write_all(&said)?;
    }
    Ok(())
}
