//! Document 01, "The pack file", its last part: what the program prints.

use crate::filling::lost_nodes;
use crate::pack::{read_pack, STRIPE_BUFFER};
use crate::refusal::Refusal;
use crate::shape::Shape;

/// How many bytes the program reads at most. It is one more than the longest pack has, which shows excess.
pub const INPUT: usize = 4233;

/// The text for an accepted pack: the shape, the lost nodes, and their columns out of the filled stripe.
pub fn text_of_stripe(shape: &Shape, lost: u32, stripe: &[u8]) -> String {
    let nodes = lost_nodes(shape, lost);
    let mut text = format!("shape {} {} {}\nlost", shape.n, shape.r, shape.l);
    if nodes.is_empty() {
        text += " none";
    }
    for i in &nodes {
        text += &format!(" {i}");
    }
    text += "\n";
    for &i in &nodes {
        text += &format!("column {i}");
        for byte in &stripe[shape.column(i)] {
            text += &format!(" {byte}");
        }
        text += "\n";
    }
    text
}

/// The text for a refused pack.
pub fn text_of_refusal(refusal: Refusal) -> String {
    format!("refused {}\n", refusal.number())
}

/// The whole output of the program for an input.
pub fn text(input: &[u8]) -> String {
    let mut buffer = vec![0; STRIPE_BUFFER];
    match read_pack(&input[..input.len().min(INPUT)], &mut buffer) {
        Ok(unpacked) => text_of_stripe(&unpacked.shape, unpacked.lost, &buffer),
        Err(refusal) => text_of_refusal(refusal),
    }
}
