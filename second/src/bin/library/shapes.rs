//! Tests of shapes: przytulisz_shape and przytulisz_sizes.

use crate::calls;
use second::compare::report::{count, same, Outcome};
use second::shape::shape;

/// The shape's number, as the C header says.
pub fn shape_number(n: usize, r: usize) -> u64 {
    if n > 255 || r > 255 {
        return 0;
    }
    (n + 256 * r) as u64
}

/// All n and r from 0 to 300, and some huge ones.
pub fn shapes_and_sizes() -> Outcome {
    let mut numbers: Vec<usize> = (0..=300).collect();
    for bit in [9, 15, 16, 17, 31, 32, 33, 48, 62, 63] {
        numbers.extend([(1 << bit) - 1, 1 << bit, (1 << bit) + 2, (1 << bit) + 3, (1 << bit) + 16]);
    }
    numbers.extend([usize::MAX, usize::MAX - 1, usize::MAX - 15]);
    let (mut accepted, mut pairs) = (0, 0);
    for &n in &numbers {
        for &r in &numbers {
            let what = format!("n = {n}, r = {r}");
            let number = calls::shape(n, r);
            same(&format!("{what}: przytulisz_shape"), shape_number(n, r), number)?;
            let expected = shape(n, r).map(|shape| [shape.k, shape.m, shape.r, shape.l]).map_err(|refusal| refusal.number());
            let got = calls::sizes(number).map_err(|difference| format!("{what}: {difference}"))?;
            same(&format!("{what}: przytulisz_sizes (k, m, s, l)"), expected, got)?;
            accepted += usize::from(got.is_ok());
            pairs += 1;
        }
    }
    count("accepted shapes", 38, accepted)?;
    count("pairs of n and r", (301 + 53) * (301 + 53), pairs)?;
    Ok(format!("{pairs} pairs of n and r, all from 0 to 300 among them: {accepted} accepted"))
}

/// All numbers of 16 bits, and accepted shapes with higher bits.
pub fn shape_numbers() -> Outcome {
    let (mut accepted, mut numbers) = (0, 0);
    for number in 0..1 << 16 {
        let (n, r) = ((number % 256) as usize, (number / 256) as usize);
        let expected = shape(n, r).map(|shape| [shape.k, shape.m, shape.r, shape.l]).map_err(|refusal| refusal.number());
        same(&format!("shape {number}: sizes"), expected, calls::sizes(number)?)?;
        numbers += 1;
        if expected.is_err() {
            continue;
        }
        accepted += 1;
        for bit in 16..64 {
            for high in [1 << bit, u64::MAX << bit] {
                same(&format!("shape {}: sizes", number | high), Err(1), calls::sizes(number | high)?)?;
                numbers += 1;
            }
        }
    }
    count("accepted shapes", 38, accepted)?;
    count("shape numbers", 65_536 + 38 * 48 * 2, numbers)?;
    Ok(format!("{numbers} shape numbers, all of 16 bits and the accepted ones with each higher bit: {accepted} accepted"))
}
