//! Measures the library beside `second` and, where they are linked, ISA-L and jerasure: parity, test, rebuild, and filling r lost columns.
//!
//! All contenders run in one process and in turns: a round has a short batch of calls of each, and the best round of each counts. Every contender is
//! made to show a right answer before it is measured.

mod library;
mod peers;
mod second_program;

use std::time::{Duration, Instant};

/// Rounds of each measurement, and how long a batch of calls is to last.
const ROUNDS: usize = 100;
const BATCH: Duration = Duration::from_micros(400);
/// A contender whose one call takes longer than this runs in two rounds only.
const SLOW: Duration = Duration::from_millis(20);
/// Nodes and parity; the last two have a half-filled last group.
const SHAPES: [(usize, usize); 5] = [(16, 4), (15, 3), (14, 2), (14, 4), (13, 3)];

/// What is measured.
#[derive(Clone, Copy, PartialEq, Eq)]
pub enum Task {
    Parity,
    Test,
    Rebuild,
    Fill,
}

/// One who can do a task, again and again on buffers of its own.
pub struct Contender {
    pub name: &'static str,
    /// Bytes of data a call works for.
    pub data: usize,
    pub call: Box<dyn FnMut()>,
}

fn time(calls: usize, call: &mut dyn FnMut()) -> Duration {
    let begun = Instant::now();
    for _ in 0..calls {
        call();
    }
    begun.elapsed()
}

/// The best time of a call of each contender.
fn measure(contenders: &mut [Contender]) -> Vec<Duration> {
    let mut calls = Vec::new();
    let mut best = Vec::new();
    for contender in contenders.iter_mut() {
        let once = time(1, &mut contender.call);
        calls.push((BATCH.as_nanos() / once.as_nanos().max(1)).clamp(1, 100_000) as usize);
        best.push(once);
    }
    for round in 0..ROUNDS {
        for (k, contender) in contenders.iter_mut().enumerate() {
            if round < 2 || best[k] < SLOW {
                best[k] = best[k].min(time(calls[k], &mut contender.call) / calls[k] as u32);
            }
        }
    }
    best
}

/// The node whose column takes the library longest to rebuild.
fn slowest_node(n: usize, r: usize) -> usize {
    let mut nodes: Vec<Contender> = (1..=n).map(|failed| library::rebuild(n, r, failed)).collect();
    let best = measure(&mut nodes);
    (1..=n).max_by_key(|i| best[i - 1]).expect("a shape has nodes")
}

fn processor() -> String {
    let text = std::fs::read_to_string("/proc/cpuinfo").unwrap_or_default();
    let model = text.lines().find(|line| line.starts_with("model name")).and_then(|line| line.split(": ").nth(1));
    model.unwrap_or("not known").to_string()
}

fn main() {
    println!("MB/s of data: k × l bytes of a stripe for each call, by 1,000,000 bytes; the best of {ROUNDS} rounds, all contenders in turns.");
    println!("Processor: {}, one thread.", processor());
    println!("Each contender has buffers of its own, which stay as they are between the calls: nothing is cleared, and they are in the cache.");
    println!("parity  the parity columns from the data columns");
    println!("test    is the stripe whole? (peers: parity anew, and compared)");
    println!("rebuild one column, of the node that takes the library longest, from fractions that are cut already (peers: node 1 from k others)");
    println!("fill    r lost columns, of the first nodes of the first r groups (peers: data nodes 1 to r)");
    println!("ISA-L's tables, also those for decoding, are made before; jerasure inverts its matrix in each call.");
    println!("second solves by elimination over all unknowns; a call of more than {} ms runs in two rounds only.", SLOW.as_millis());
    println!();
    let names = ["przytulisz", "second", "ISA-L, SSE", "ISA-L", "jerasure"];
    println!("| n | r | l | task | {} |", names.join(" | "));
    println!("|---|---|---|---|{}", "--:|".repeat(names.len()));
    for (n, r) in SHAPES {
        let slowest = slowest_node(n, r);
        let l = library::rows(n, r);
        for (task, what) in [(Task::Parity, "parity"), (Task::Test, "test"), (Task::Rebuild, "rebuild"), (Task::Fill, "fill")] {
            let mut contenders = vec![library::contender(task, n, r, slowest), second_program::contender(task, n, r, slowest)];
            contenders.extend(peers::contenders(task, n - r, r, l));
            let best = measure(&mut contenders);
            let cells: Vec<String> = names
                .iter()
                .map(|name| match contenders.iter().position(|contender| contender.name == *name) {
                    None => "not linked".to_string(),
                    Some(k) => {
                        let speed = contenders[k].data as f64 / best[k].as_secs_f64() / 1e6;
                        if speed < 10.0 {
                            format!("{speed:.3}")
                        } else {
                            format!("{speed:.0}")
                        }
                    }
                })
                .collect();
            let node = if task == Task::Rebuild { format!(" of node {slowest}") } else { String::new() };
            println!("| {n} | {r} | {l} | {what}{node} | {} |", cells.join(" | "));
        }
    }
}
