//! Document 01, "The pack file": the program. It reads one pack on standard input and prints its text; `corpus FOLDER` writes the stored corpus.

use std::io::{Read, Write};
use std::path::Path;
use std::process::ExitCode;

/// Reads at most one byte more than the longest pack has, and prints the text.
fn program() -> Result<(), String> {
    let mut input = Vec::new();
    let most = second::text::INPUT as u64;
    std::io::stdin().take(most).read_to_end(&mut input).map_err(|error| error.to_string())?;
    let text = second::text(&input);
    std::io::stdout().write_all(text.as_bytes()).map_err(|error| error.to_string())
}

fn main() -> ExitCode {
    let arguments: Vec<String> = std::env::args().skip(1).collect();
    let words: Vec<&str> = arguments.iter().map(String::as_str).collect();
    let done = match words[..] {
        [] => program(),
        ["corpus", folder] => second::corpus::write(Path::new(folder)).map(|packs| println!("{packs} packs written, seed {}", second::corpus::SEED)),
        _ => Err("give a pack on standard input and no argument, or: corpus FOLDER".to_string()),
    };
    match done {
        Ok(()) => ExitCode::SUCCESS,
        Err(message) => {
            eprintln!("{message}");
            ExitCode::FAILURE
        }
    }
}
