//! Document 01, "Field, points and γ": the field of 256 numbers, the sixteen points and γ.

use crate::refusal::Refusal;

/// The polynomial that products are divided by, its bits as coefficients.
const POLYNOMIAL: u16 = 285;

/// γ of the weights.
pub const GAMMA: u8 = 2;

/// The sum of two numbers: exclusive or.
pub fn sum(first: u8, second: u8) -> u8 {
    first ^ second
}

/// The product of two numbers: the product of the two polynomials, then its remainder after division by 285.
pub fn product(first: u8, second: u8) -> u8 {
    let mut remainder: u16 = 0;
    for bit in 0..8 {
        if second >> bit & 1 == 1 {
            remainder ^= u16::from(first) << bit;
        }
    }
    for bit in (8..15).rev() {
        if remainder >> bit & 1 == 1 {
            remainder ^= POLYNOMIAL << (bit - 8);
        }
    }
    remainder as u8
}

/// A number to a power, by repeated products. Power 0 of every number is 1.
pub fn power(base: u8, exponent: usize) -> u8 {
    let mut result = 1;
    for _ in 0..exponent {
        result = product(result, base);
    }
    result
}

/// The quotient of two numbers: the one number whose product with the divisor is the dividend, found by search.
pub fn quotient(dividend: u8, divisor: u8) -> Result<u8, Refusal> {
    if divisor == 0 {
        return Err(Refusal::Division);
    }
    let found = (0..=255).find(|&candidate| product(candidate, divisor) == dividend);
    Ok(found.expect("every product with a number that isn't 0 is taken once"))
}

/// Point i, for i = 1 to 16: 2 to the power i − 1.
pub fn point(i: usize) -> u8 {
    assert!((1..=16).contains(&i), "point {i} isn't one of the sixteen");
    power(2, i - 1)
}

#[cfg(test)]
mod tests {
    use super::*;

    #[test]
    fn points_as_printed() {
        let printed = [1, 2, 4, 8, 16, 32, 64, 128, 29, 58, 116, 232, 205, 135, 19, 38];
        for i in 1..=16 {
            assert_eq!(point(i), printed[i - 1]);
        }
    }

    #[test]
    fn powers_of_two_are_all_numbers_but_zero() {
        let mut seen = [false; 256];
        for exponent in 0..255 {
            let number = usize::from(power(2, exponent));
            assert!(number != 0 && !seen[number]);
            seen[number] = true;
        }
    }

    #[test]
    fn division_undoes_multiplication() {
        for first in 0..=255 {
            assert_eq!(quotient(first, 0), Err(Refusal::Division));
            assert_eq!(power(first, 0), 1);
            for second in 1..=255 {
                assert_eq!(quotient(product(first, second), second), Ok(first));
            }
        }
    }
}
