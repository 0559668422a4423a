//! Document 01, "The pack file": the reader with its own order of refusals, and a writer for making tests.

use crate::filling::{fill, is_lost, lost_nodes};
use crate::refusal::Refusal;
use crate::shape::{shape, Shape};

/// The length of the buffer that the reader is lent for the stripe.
pub const STRIPE_BUFFER: usize = 4096;

/// What the reader answers with.
#[derive(Clone, Copy, PartialEq, Eq, Debug)]
pub struct Unpacked {
    pub shape: Shape,
    pub lost: u32,
}

/// The number in four bytes, the lowest first.
fn little_endian(bytes: &[u8]) -> usize {
    let mut number = 0;
    for &byte in bytes[..4].iter().rev() {
        number = number * 256 + usize::from(byte);
    }
    number
}

/// Reads a pack: writes the filled stripe to the first n × l bytes of the buffer, and answers with the shape and the lost set.
pub fn read_pack(pack: &[u8], buffer: &mut [u8]) -> Result<Unpacked, Refusal> {
    if buffer.len() != STRIPE_BUFFER {
        return Err(Refusal::Length);
    }
    if pack.len() < 8 || pack[3] != 0 {
        return Err(Refusal::PackHeader);
    }
    let shape = shape(usize::from(pack[0]), usize::from(pack[1]))?;
    let p = usize::from(pack[2]);
    let columns = 8 + 8 * p;
    if p > shape.n || pack.len() < columns {
        return Err(Refusal::PackHeader);
    }
    let entries: Vec<&[u8]> = pack[8..columns].chunks(8).collect();
    let mut before = 0;
    for entry in &entries {
        let node = usize::from(entry[0]);
        if !shape.has_node(node) || node <= before || entry[1] != 0 || entry[2] != 0 || entry[3] != 0 {
            return Err(Refusal::PackEntry);
        }
        before = node;
    }
    for (place, entry) in entries.iter().enumerate() {
        if little_endian(&entry[4..]) != columns + place * shape.l {
            return Err(Refusal::PackTotal);
        }
    }
    let total = columns + p * shape.l;
    if little_endian(&pack[4..]) != total || pack.len() != total {
        return Err(Refusal::PackTotal);
    }
    let mut lost: u32 = (1 << shape.n) - 1;
    let mut stripe = vec![0; shape.stripe_length()];
    for (place, entry) in entries.iter().enumerate() {
        let node = usize::from(entry[0]);
        lost &= !(1 << (node - 1));
        let from = columns + place * shape.l;
        stripe[shape.column(node)].copy_from_slice(&pack[from..from + shape.l]);
    }
    fill(shape.n, shape.r, lost, &mut stripe)?;
    buffer[..stripe.len()].copy_from_slice(&stripe);
    Ok(Unpacked { shape, lost })
}

/// Writes the pack of a stripe's columns without those of the lost set.
pub fn write_pack(shape: &Shape, lost: u32, stripe: &[u8]) -> Vec<u8> {
    let held: Vec<usize> = (1..=shape.n).filter(|&i| !is_lost(lost, i)).collect();
    assert_eq!(held.len() + lost_nodes(shape, lost).len(), shape.n);
    let columns = 8 + 8 * held.len();
    let total = columns + held.len() * shape.l;
    let mut pack = vec![shape.n as u8, shape.r as u8, held.len() as u8, 0];
    pack.extend((total as u32).to_le_bytes());
    for (place, &i) in held.iter().enumerate() {
        pack.extend([i as u8, 0, 0, 0]);
        pack.extend(((columns + place * shape.l) as u32).to_le_bytes());
    }
    for &i in &held {
        pack.extend(&stripe[shape.column(i)]);
    }
    pack
}
