//! The test of the stored corpus: every version must still print the same for every stored pack.

use crate::child::{first_difference, Program};
use second::compare::report::{count, in_two_threads, same_bytes, Outcome};
use second::corpus::{corpus, PACKS};
use std::path::{Path, PathBuf};

fn read(file: &Path) -> Result<Vec<u8>, String> {
    std::fs::read(file).map_err(|error| format!("{}: {error}", file.display()))
}

/// Every file of the folder, in the order of names.
fn files(folder: &Path) -> Result<Vec<PathBuf>, String> {
    let entries = std::fs::read_dir(folder).map_err(|error| format!("{}: {error}", folder.display()))?;
    let mut all = Vec::new();
    for entry in entries {
        all.push(entry.map_err(|error| format!("{}: {error}", folder.display()))?.path());
    }
    all.sort();
    Ok(all)
}

/// The program's and second's output on every stored pack, and the stored packs as second makes them.
pub fn corpus_folder(program: &Program, folder: &Path) -> Outcome {
    let files = files(folder)?;
    count("stored files", 2 * PACKS, files.len())?;
    let packs: Vec<&PathBuf> = files.iter().filter(|file| file.extension().is_some_and(|ending| ending == "pack")).collect();
    count("stored packs", PACKS, packs.len())?;
    let compared = in_two_threads(packs.len(), |case| {
        let name = packs[case].file_stem().unwrap_or_default().to_string_lossy();
        let pack = read(packs[case])?;
        let text = String::from_utf8(read(&packs[case].with_extension("txt"))?).map_err(|error| format!("{name}: {error}"))?;
        let by_second = second::text(&pack);
        if by_second != text {
            return Err(format!("stored pack {name}: second: {}", first_difference(&text, &by_second)));
        }
        program.check(&format!("stored pack {name}"), &pack, &text)?;
        Ok(1)
    })?;
    count("stored packs compared", PACKS, compared)?;
    let made = corpus()?;
    count("packs made", PACKS, made.len())?;
    for each in &made {
        same_bytes(&format!("stored pack {} as made", each.name), &each.pack, &read(&folder.join(format!("{}.pack", each.name)))?)?;
    }
    Ok(format!("{compared} stored packs, {} files: the program and second print the stored text, second makes the same packs", files.len()))
}
