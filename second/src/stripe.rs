//! Document 01, "Shape", its last part: laying a record into a stripe and reading it back.

use crate::refusal::Refusal;
use crate::shape::shape;

/// Lays a record of 0 to k × l bytes into the data columns, and zero bytes after it. The parity columns keep their bytes.
pub fn lay(n: usize, r: usize, record: &[u8], stripe: &mut [u8]) -> Result<(), Refusal> {
    let shape = shape(n, r)?;
    if record.len() > shape.record_length() || stripe.len() != shape.stripe_length() {
        return Err(Refusal::Length);
    }
    for place in 0..shape.record_length() {
        stripe[place] = if place < record.len() { record[place] } else { 0 };
    }
    Ok(())
}

/// Reads the record back: the first k × l bytes of the stripe.
pub fn read_back(n: usize, r: usize, stripe: &[u8], record: &mut [u8]) -> Result<(), Refusal> {
    let shape = shape(n, r)?;
    if stripe.len() != shape.stripe_length() || record.len() != shape.record_length() {
        return Err(Refusal::Length);
    }
    record.copy_from_slice(&stripe[..shape.record_length()]);
    Ok(())
}
