//! Packs that are damaged in each way that document 01's refusals name.

use crate::filling::{is_lost, lost_nodes};
use crate::shape::Shape;

/// A pack in its parts, so that each can be damaged by itself.
#[derive(Clone, Debug)]
pub struct Parts {
    n: u8,
    r: u8,
    p: u8,
    byte_3: u8,
    total: u32,
    entries: Vec<(u8, [u8; 3], u32)>,
    columns: Vec<u8>,
    /// The input ends after so many bytes.
    cut_to: Option<usize>,
    /// So many bytes come after the pack.
    more: usize,
}

impl Parts {
    /// The parts of the pack of a stripe's columns without those of the lost set.
    pub fn of(shape: &Shape, lost: u32, stripe: &[u8]) -> Parts {
        let held: Vec<usize> = (1..=shape.n).filter(|&i| !is_lost(lost, i)).collect();
        let first = 8 + 8 * held.len();
        let mut columns = Vec::new();
        let mut entries = Vec::new();
        for &i in &held {
            entries.push((i as u8, [0; 3], (first + columns.len()) as u32));
            columns.extend(&stripe[shape.column(i)]);
        }
        Parts {
            n: shape.n as u8,
            r: shape.r as u8,
            p: held.len() as u8,
            byte_3: 0,
            total: (first + columns.len()) as u32,
            entries,
            columns,
            cut_to: None,
            more: 0,
        }
    }

    /// The pack's bytes.
    pub fn bytes(&self) -> Vec<u8> {
        let mut pack = vec![self.n, self.r, self.p, self.byte_3];
        pack.extend(self.total.to_le_bytes());
        for (node, padding, offset) in &self.entries {
            pack.push(*node);
            pack.extend(padding);
            pack.extend(offset.to_le_bytes());
        }
        pack.extend(&self.columns);
        pack.extend(vec![0; self.more]);
        pack.truncate(self.cut_to.unwrap_or(pack.len()));
        pack
    }
}

/// Where a damage stands in the reader's own order: 2, 6 (length under 8, byte 3), 1, 6 (the rest), 7, 8, 4, 5.
#[derive(Clone, Copy, PartialEq, Eq, PartialOrd, Ord, Debug)]
pub enum Step {
    Buffer,
    Start,
    Shape,
    Header,
    Entries,
    Total,
    TooMany,
    NotWhole,
}

impl Step {
    pub fn number(self) -> u8 {
        match self {
            Step::Buffer => 2,
            Step::Start | Step::Header => 6,
            Step::Shape => 1,
            Step::Entries => 7,
            Step::Total => 8,
            Step::TooMany => 4,
            Step::NotWhole => 5,
        }
    }
}

/// One way to damage a pack.
pub struct Damage {
    pub name: String,
    /// The step of the reader that refuses it.
    pub step: Step,
    /// What is damaged. Two damages of the same part could undo one another, so they aren't made together.
    pub part: String,
    act: Box<dyn Fn(&mut Parts) + Sync>,
}

impl Damage {
    fn new(name: String, step: Step, part: &str, act: impl Fn(&mut Parts) + Sync + 'static) -> Damage {
        let part = part.to_string();
        Damage { name, step, part, act: Box::new(act) }
    }

    pub fn make(&self, parts: &mut Parts) {
        (self.act)(parts);
    }
}

/// A way to change an offset or the total, and its name.
type Change = (&'static str, fn(u32) -> u32);

/// Every damage of the pack that a stripe and a lost set of fewer than r nodes make.
pub fn damages(shape: &Shape, lost: u32, stripe: &[u8]) -> Vec<Damage> {
    let mut all = Vec::new();
    let held = shape.n - lost_nodes(shape, lost).len();
    let (n, l) = (shape.n, shape.l);
    // Another pack altogether comes first in the list, so that what is made together with it is made on top of it.
    let mut wider = lost;
    for i in (1..=n).rev() {
        if wider.count_ones() as usize <= shape.r {
            wider |= 1 << (i - 1);
        }
    }
    let too_many = Parts::of(shape, wider, stripe);
    all.push(Damage::new("one more lost than r".to_string(), Step::TooMany, "pack", move |parts| *parts = too_many.clone()));
    for (name, place, change) in [("first", 0, 1), ("middle", held * l / 2, 128), ("last", held * l - 1, 255)] {
        let name = format!("a wrong {name} byte of the columns");
        all.push(Damage::new(name, Step::NotWhole, "pack", move |parts| parts.columns[place] ^= change));
    }
    for length in 0..8 {
        all.push(Damage::new(format!("{length} bytes"), Step::Start, "length", move |parts| parts.cut_to = Some(length)));
    }
    for value in [1, 2, 128, 255] {
        all.push(Damage::new(format!("byte 3 is {value}"), Step::Start, "byte 3", move |parts| parts.byte_3 = value));
    }
    for value in [0, 1, shape.r as u8, 17, 32, 128, 255] {
        all.push(Damage::new(format!("n is {value}"), Step::Shape, "shape", move |parts| parts.n = value));
    }
    for value in [0, 1, 5, 17, 255] {
        all.push(Damage::new(format!("r is {value}"), Step::Shape, "shape", move |parts| parts.r = value));
    }
    all.push(Damage::new("n is 16 and r is 3".to_string(), Step::Shape, "shape", |parts| (parts.n, parts.r) = (16, 3)));
    for value in [n as u8 + 1, 17.max(n as u8 + 1), 128, 255] {
        all.push(Damage::new(format!("p is {value}"), Step::Header, "p", move |parts| parts.p = value));
    }
    all.push(Damage::new("no entries".to_string(), Step::Header, "length", |parts| parts.cut_to = Some(8)));
    all.push(Damage::new("one byte of entries".to_string(), Step::Header, "length", |parts| parts.cut_to = Some(9)));
    all.push(Damage::new("one byte of entries missing".to_string(), Step::Header, "length", |parts| {
        parts.cut_to = Some(8 + 8 * parts.entries.len() - 1);
    }));
    for (which, name) in [(0, "first"), (1, "middle"), (2, "last")] {
        let entry = move |parts: &Parts| (parts.entries.len() - 1) * which / 2;
        for value in [0, n as u8 + 1, 17.max(n as u8 + 1), 255] {
            let text = format!("the {name} entry's node is {value}");
            all.push(Damage::new(text, Step::Entries, &format!("{name} node"), move |parts| {
                let entry = entry(parts);
                parts.entries[entry].0 = value;
            }));
        }
        for place in 0..3 {
            for value in [1, 255] {
                let text = format!("the {name} entry's padding {} is {value}", place + 1);
                all.push(Damage::new(text, Step::Entries, &format!("{name} padding"), move |parts| {
                    let entry = entry(parts);
                    parts.entries[entry].1[place] = value;
                }));
            }
        }
        let offsets: [Change; 6] = [
            ("one more", |offset| offset + 1),
            ("one less", |offset| offset - 1),
            ("0", |_| 0),
            ("256 more", |offset| offset + 256),
            ("65,536 more", |offset| offset + 65_536),
            ("with its highest bit", |offset| offset | 1 << 31),
        ];
        for (text, change) in offsets {
            let text = format!("the {name} offset is {text}");
            all.push(Damage::new(text, Step::Total, &format!("{name} offset"), move |parts| {
                let entry = entry(parts);
                parts.entries[entry].2 = change(parts.entries[entry].2);
            }));
        }
    }
    all.push(Damage::new("the last two nodes are equal".to_string(), Step::Entries, "last node", |parts| {
        if let [.., before, last] = &mut parts.entries[..] {
            last.0 = before.0;
        }
    }));
    all.push(Damage::new("the first two nodes are exchanged".to_string(), Step::Entries, "first node", |parts| {
        if let [first, after, ..] = &mut parts.entries[..] {
            (first.0, after.0) = (after.0, first.0);
        }
    }));
    let totals: [Change; 7] = [
        ("one more", |total| total + 1),
        ("one less", |total| total - 1),
        ("0", |_| 0),
        ("256 more", |total| total + 256),
        ("65,536 more", |total| total + 65_536),
        ("with its highest bit", |total| total | 1 << 31),
        ("the highest number", |_| u32::MAX),
    ];
    for (text, change) in totals {
        all.push(Damage::new(format!("the total is {text}"), Step::Total, "total", move |parts| parts.total = change(parts.total)));
    }
    for more in [1, 2, 100, 10_000] {
        all.push(Damage::new(format!("longer by {more}"), Step::Total, "length", move |parts| parts.more = more));
    }
    all.push(Damage::new("no columns".to_string(), Step::Total, "length", |parts| parts.cut_to = Some(8 + 8 * parts.entries.len())));
    all.push(Damage::new("the last byte missing".to_string(), Step::Total, "length", |parts| {
        parts.cut_to = Some(8 + 8 * parts.entries.len() + parts.columns.len() - 1);
    }));
    all.push(Damage::new("longer by 1 and the total with it".to_string(), Step::Total, "length", |parts| {
        parts.more = 1;
        parts.total = parts.total.wrapping_add(1);
    }));
    all
}
