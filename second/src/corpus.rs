//! The stored corpus: packs and the texts for them, made by this package alone.

use crate::compare::damage::{damages, Parts};
use crate::compare::random::Random;
use crate::compare::stripes::{lost_sets, whole_stripes, Whole};
use crate::pack::write_pack;
use crate::text::text;

/// The seed of the corpus.
pub const SEED: u64 = 20_160_527;

/// One stored pack.
pub struct Stored {
    pub name: String,
    pub pack: Vec<u8>,
    pub text: String,
}

/// The damages that are stored, for a pack of n = 6 and r = 2 with one node lost: each refusal, and each part of refusals 6, 7 and 8.
const DAMAGES: [&str; 42] = [
    "one more lost than r",
    "a wrong first byte of the columns",
    "a wrong last byte of the columns",
    "0 bytes",
    "7 bytes",
    "byte 3 is 1",
    "byte 3 is 255",
    "n is 0",
    "n is 2",
    "n is 17",
    "r is 0",
    "r is 1",
    "r is 5",
    "n is 16 and r is 3",
    "p is 7",
    "p is 255",
    "no entries",
    "one byte of entries missing",
    "the first entry's node is 0",
    "the first entry's node is 7",
    "the middle entry's node is 255",
    "the last entry's node is 0",
    "the last entry's node is 7",
    "the last two nodes are equal",
    "the first two nodes are exchanged",
    "the first entry's padding 1 is 1",
    "the middle entry's padding 2 is 255",
    "the last entry's padding 3 is 1",
    "the first offset is one more",
    "the first offset is 0",
    "the middle offset is 256 more",
    "the last offset is one less",
    "the last offset is with its highest bit",
    "the total is one more",
    "the total is one less",
    "the total is 65,536 more",
    "the total is the highest number",
    "longer by 1",
    "longer by 100",
    "no columns",
    "the last byte missing",
    "longer by 1 and the total with it",
];

/// How many packs are stored: three for each shape, the one that document 01 prints, the damaged ones.
pub const PACKS: usize = 3 * 38 + 1 + DAMAGES.len();

fn stored(name: String, pack: Vec<u8>) -> Stored {
    let text = text(&pack);
    Stored { name, pack, text }
}

fn find(stripes: &[Whole], n: usize, r: usize) -> &Whole {
    stripes.iter().find(|whole| (whole.shape.n, whole.shape.r) == (n, r)).expect("the shape is accepted")
}

/// All packs of the corpus.
pub fn corpus() -> Result<Vec<Stored>, String> {
    let stripes = whole_stripes(SEED)?;
    let mut all = vec![stored("document-01".to_string(), crate::bench::PACK.to_vec())];
    for (case, Whole { shape, stripe }) in stripes.iter().enumerate() {
        let mut random = Random::new(SEED + 1, case);
        for (count, words) in [(0, "none-lost"), (1, "one-lost"), (shape.r, "r-lost")] {
            let sets = lost_sets(shape, count);
            let lost = sets[random.below(sets.len())];
            let name = format!("n-{:02}-r-{}-{words}", shape.n, shape.r);
            all.push(stored(name, write_pack(shape, lost, stripe)));
        }
    }
    let Whole { shape, stripe } = find(&stripes, 6, 2);
    let known = damages(shape, 0b000100, stripe);
    for name in DAMAGES {
        let damage = known.iter().find(|damage| damage.name == name).ok_or(format!("no damage is named {name}"))?;
        let mut parts = Parts::of(shape, 0b000100, stripe);
        damage.make(&mut parts);
        let plain: String = name.chars().map(|each| if each.is_ascii_alphanumeric() { each } else { '-' }).collect();
        all.push(stored(format!("refused-{}-{plain}", damage.step.number()), parts.bytes()));
    }
    Ok(all)
}

/// Writes the corpus into a folder that exists: NAME.pack and NAME.txt for each.
pub fn write(folder: &std::path::Path) -> Result<usize, String> {
    let all = corpus()?;
    for each in &all {
        for (ending, content) in [("pack", &each.pack[..]), ("txt", each.text.as_bytes())] {
            let file = folder.join(format!("{}.{ending}", each.name));
            std::fs::write(&file, content).map_err(|error| format!("{}: {error}", file.display()))?;
        }
    }
    Ok(all.len())
}
