//! Document 01, "Bench stripes": cases A to M, for whoever follows the rules.

use crate::equations::Tested;
use crate::field::product;

/// What is asked of whoever follows the rules. A refusal is given by its number.
pub trait Rules {
    /// The rows l of a shape.
    fn rows(&self, n: usize, r: usize) -> Result<usize, u8>;
    fn fill_parity(&self, n: usize, r: usize, stripe: &mut [u8]) -> Result<(), u8>;
    fn test(&self, n: usize, r: usize, stripe: &[u8]) -> Result<Tested, u8>;
    fn cut(&self, n: usize, r: usize, helper: usize, failed: usize, column: &[u8], fraction: &mut [u8]) -> Result<(), u8>;
    fn rebuild(&self, n: usize, r: usize, failed: usize, fractions: &[u8], column: &mut [u8]) -> Result<(), u8>;
    fn fill(&self, n: usize, r: usize, lost: u32, stripe: &mut [u8]) -> Result<(), u8>;
}

/// The rules as written in this package.
pub struct Second;

impl Rules for Second {
    fn rows(&self, n: usize, r: usize) -> Result<usize, u8> {
        crate::shape(n, r).map(|shape| shape.l).map_err(|refusal| refusal.number())
    }
    fn fill_parity(&self, n: usize, r: usize, stripe: &mut [u8]) -> Result<(), u8> {
        crate::fill_parity(n, r, stripe).map_err(|refusal| refusal.number())
    }
    fn test(&self, n: usize, r: usize, stripe: &[u8]) -> Result<Tested, u8> {
        crate::test(n, r, stripe).map_err(|refusal| refusal.number())
    }
    fn cut(&self, n: usize, r: usize, helper: usize, failed: usize, column: &[u8], fraction: &mut [u8]) -> Result<(), u8> {
        crate::cut(n, r, helper, failed, column, fraction).map_err(|refusal| refusal.number())
    }
    fn rebuild(&self, n: usize, r: usize, failed: usize, fractions: &[u8], column: &mut [u8]) -> Result<(), u8> {
        crate::rebuild(n, r, failed, fractions, column).map_err(|refusal| refusal.number())
    }
    fn fill(&self, n: usize, r: usize, lost: u32, stripe: &mut [u8]) -> Result<(), u8> {
        crate::fill(n, r, lost, stripe).map_err(|refusal| refusal.number())
    }
}

/// The stripe of case C.
pub const C: [u8; 12] = [4, 0, 0, 12, 6, 15, 12, 30, 2, 12, 0, 5];

/// The stripe of case J.
pub const J: [u8; 12] = [4, 0, 0, 0, 6, 5, 0, 0, 2, 3, 0, 1];

/// How many cases of the table `run` goes through: all but E.
pub const CASES: usize = 12;

fn same<Value: PartialEq + std::fmt::Debug>(case: &str, expected: Value, got: Value) -> Result<(), String> {
    if expected == got {
        return Ok(());
    }
    Err(format!("bench case {case}: expected {expected:?}, got {got:?}"))
}

/// Goes through cases A to D and F to M, and answers how many there were. Case E asks for products, which only the field has: see `products`.
pub fn run(rules: &impl Rules) -> Result<usize, String> {
    let cases: [(&str, [u8; 4], [u8; 8]); 3] = [
        ("A", [4, 0, 0, 0], [6, 5, 0, 0, 2, 3, 0, 0]),
        ("B", [0, 0, 0, 12], [0, 10, 12, 30, 0, 15, 0, 5]),
        ("C", [4, 0, 0, 12], [6, 15, 12, 30, 2, 12, 0, 5]),
    ];
    for (case, data, parity) in cases {
        let mut stripe = [255; 12];
        stripe[..4].copy_from_slice(&data);
        same(case, Ok(()), rules.fill_parity(3, 2, &mut stripe))?;
        same(case, [&data[..], &parity[..]].concat(), stripe.to_vec())?;
        same(case, Ok(Tested::Whole), rules.test(3, 2, &stripe))?;
    }
    let mut fraction = [0; 2];
    same("D", Ok(()), rules.cut(3, 2, 2, 1, &C[4..8], &mut fraction))?;
    same("D", [6, 12], fraction)?;
    same("F", Ok(243), rules.rows(15, 3))?;
    same("G", Err(1), rules.rows(16, 3))?;
    let mut column = [255; 4];
    same("H", Ok(()), rules.rebuild(3, 2, 1, &[6, 12, 2, 0], &mut column))?;
    same("H", [4, 0, 0, 12], column)?;
    same("I", Ok(()), rules.rebuild(3, 2, 3, &[4, 0, 6, 15], &mut column))?;
    same("I", [2, 12, 0, 5], column)?;
    same("J", Ok(Tested::Fails { a: 1, t: 0 }), rules.test(3, 2, &J))?;
    let mut stripe = J;
    same("K", Err(5), rules.fill(3, 2, 0b010, &mut stripe))?;
    same("K", J, stripe)?;
    let mut stripe = C;
    stripe[..8].fill(99);
    same("L", Ok(()), rules.fill(3, 2, 0b011, &mut stripe))?;
    same("L", C, stripe)?;
    same("M", Err(4), rules.fill(3, 2, 0b0111, &mut stripe))?;
    same("M", Err(3), rules.fill(3, 2, 0b1111, &mut stripe))?;
    same("M", C, stripe)?;
    Ok(CASES)
}

/// Case E: three products.
pub fn products() -> Result<(), String> {
    same("E", [1, 1, 29], [product(2, 142), product(3, 244), product(16, 16)])
}

/// The pack that document 01 prints, and the whole output for it.
pub const PACK: [u8; 32] = [
    0x03, 0x02, 0x02, 0x00, 0x20, 0x00, 0x00, 0x00, 0x01, 0x00, 0x00, 0x00, 0x18, 0x00, 0x00, 0x00, 0x03, 0x00, 0x00, 0x00, 0x1C, 0x00, 0x00, 0x00,
    0x04, 0x00, 0x00, 0x0C, 0x02, 0x0C, 0x00, 0x05,
];
pub const PACK_TEXT: &str = "shape 3 2 4\nlost 2\ncolumn 2 6 15 12 30\n";

#[cfg(test)]
mod tests {
    use super::*;

    #[test]
    fn cases_a_to_m() {
        assert_eq!(run(&Second), Ok(CASES));
        assert_eq!(products(), Ok(()));
    }

    #[test]
    fn the_pack_as_printed() {
        assert_eq!(crate::text(&PACK), PACK_TEXT);
        let shape = crate::shape(3, 2).unwrap();
        assert_eq!(crate::write_pack(&shape, 0b010, &C), PACK);
    }
}
