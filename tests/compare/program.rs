//! The program `check` as a child process: some of the texts that `report` was lent go through it too.

use crate::call::{Call, Function, Said};
use std::collections::BTreeMap;
use std::io::{self, Write};
use std::path::{Path, PathBuf};
use std::process::{Command, Stdio};

/// A process costs some milliseconds, so that only so many texts of each kind of list go through the program.
const OF_EACH_KIND: usize = 30;

/// A program that is started anew for each recipe, which it reads from its standard input.
pub struct Program {
    path: PathBuf,
    /// How many recipes of each kind of list it was given.
    given: BTreeMap<&'static str, usize>,
}

impl Program {
    pub fn new(path: impl AsRef<Path>) -> Self {
        Program { path: path.as_ref().to_path_buf(), given: BTreeMap::new() }
    }

    pub fn recipes(&self) -> usize {
        self.given.values().sum()
    }

    /// Gives the program what a list lends to `report`; the error tells a text that it prints something else for.
    pub fn compare(&mut self, kind: &'static str, calls: &[Call], said: &[Said]) -> Result<(), String> {
        for (call, said) in calls.iter().zip(said) {
            let is_whole = call.function == Function::Report && said.number as usize <= said.parts[1].as_bytes().len();
            let count = self.given.entry(kind).or_default();
            if !is_whole || *count == OF_EACH_KIND {
                continue;
            }
            *count += 1;
            let input = call.parts[0].as_bytes();
            let printed = self.printed(input).map_err(|reason| reason.to_string())?;
            if printed != said.printed() {
                let (wanted, printed) = (said.printed().escape_ascii(), printed.escape_ascii());
                let input = input.escape_ascii();
                return Err(format!("oracle  {wanted}\nprogram {printed}\ninput, with escapes:\n{input}"));
            }
        }
        Ok(())
    }

    fn printed(&self, input: &[u8]) -> io::Result<Vec<u8>> {
        let mut child = Command::new(&self.path).stdin(Stdio::piped()).stdout(Stdio::piped()).spawn()?;
        // What is printed is short, so that it waits in the pipe until all is read. The input ends where it is dropped; of one
        // that is too long the program need not read the end.
        let written = child.stdin.take().map_or(Ok(()), |mut lent| lent.write_all(input));
        match written {
            Err(reason) if reason.kind() != io::ErrorKind::BrokenPipe => return Err(reason),
            _ => (),
        }
        let done = child.wait_with_output()?;
        match done.status.success() {
            true => Ok(done.stdout),
            false => Err(io::Error::other(format!("the program ended with {}", done.status))),
        }
    }
}

#[cfg(test)]
mod tests {
    use super::*;
    use crate::call::Part;
    use crate::sides::{answers, Oracle};

    /// A report of a text, and what a program that prints its input is told of it.
    fn told(path: &str, text: &str) -> Result<(), String> {
        let calls = [Call::new(Function::Report, [Part::bytes(text), Part::bytes([0; 400])])];
        Program::new(path).compare("any", &calls, &answers(&mut Oracle, &calls))
    }

    #[test]
    fn a_program_that_prints_something_else_fails_or_is_not_there_is_told() {
        assert!(told("cat", "horizon=1\n").unwrap_err().contains("refused=2"));
        assert!(told("false", "").is_err());
        assert!(told("no/such/program", "").is_err());
    }
}
