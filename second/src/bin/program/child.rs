//! Runs the program as a child process, and compares what it prints with what is expected.

use std::collections::BTreeSet;
use std::io::{ErrorKind, Write};
use std::path::PathBuf;
use std::process::{Command, Stdio};
use std::sync::Mutex;
use std::time::Duration;

/// The program that is compared.
pub struct Program {
    pub path: PathBuf,
    /// The exit statuses seen. Document 01 names none, so they are told and not compared.
    pub statuses: Mutex<BTreeSet<i32>>,
}

impl Program {
    pub fn new(path: PathBuf) -> Program {
        Program { path, statuses: Mutex::new(BTreeSet::new()) }
    }

    /// Gives the program its input in pieces of the given length, with a short wait between two, and answers with what it prints.
    fn run(&self, input: &[u8], piece: usize) -> Result<Vec<u8>, String> {
        let mut command = Command::new(&self.path);
        command.stdin(Stdio::piped()).stdout(Stdio::piped()).stderr(Stdio::piped());
        let mut child = command.spawn().map_err(|error| format!("the program doesn't start: {error}"))?;
        let mut lent = child.stdin.take().expect("standard input is piped");
        for (place, part) in input.chunks(piece).enumerate() {
            if place > 0 {
                std::thread::sleep(Duration::from_millis(2));
            }
            match lent.write_all(part) {
                // The program needn't read more than 4,233 bytes.
                Err(error) if error.kind() == ErrorKind::BrokenPipe && input.len() > second::text::INPUT => break,
                other => other.map_err(|error| format!("the program doesn't take its input: {error}"))?,
            }
        }
        drop(lent);
        let output = child.wait_with_output().map_err(|error| format!("the program doesn't end: {error}"))?;
        let status = output.status.code().ok_or(format!("the program was ended by a signal: {}", output.status))?;
        self.statuses.lock().expect("no thread failed").insert(status);
        if !output.stderr.is_empty() {
            return Err(format!("the program wrote to standard error: {}", String::from_utf8_lossy(&output.stderr)));
        }
        Ok(output.stdout)
    }

    /// Compares what the program prints for an input with the text that is expected, to the byte.
    pub fn check(&self, what: &str, input: &[u8], expected: &str) -> Result<(), String> {
        self.check_in_pieces(what, input, usize::MAX, expected)
    }

    /// The same, with the input given in pieces.
    pub fn check_in_pieces(&self, what: &str, input: &[u8], piece: usize, expected: &str) -> Result<(), String> {
        let got = self.run(input, piece).map_err(|text| format!("{what}: {text}"))?;
        if got == expected.as_bytes() {
            return Ok(());
        }
        Err(format!("{what}: {}", first_difference(expected, &String::from_utf8_lossy(&got))))
    }

    /// Compares with second's own answer, and gives it.
    pub fn check_with_second(&self, what: &str, input: &[u8]) -> Result<String, String> {
        let expected = second::text(input);
        self.check(what, input, &expected)?;
        Ok(expected)
    }
}

/// The first word of two texts that differs, with its line.
pub fn first_difference(expected: &str, got: &str) -> String {
    let mut got_lines = got.split('\n');
    for (line, expected) in expected.split('\n').enumerate() {
        let Some(got) = got_lines.next() else {
            return format!("line {}: expected {expected:?}, got nothing", line + 1);
        };
        if expected == got {
            continue;
        }
        let (expected, got): (Vec<&str>, Vec<&str>) = (expected.split(' ').collect(), got.split(' ').collect());
        let same = expected.iter().zip(&got).take_while(|(expected, got)| expected == got).count();
        let word = |words: &[&str]| words.get(same).map_or("nothing".to_string(), |word| format!("{word:?}"));
        return format!("line {}, which begins {:?}, word {}: expected {}, got {}", line + 1, expected[0], same + 1, word(&expected), word(&got));
    }
    format!("more lines than expected: {:?}", got_lines.next().unwrap_or_default())
}
