//! The library's functions as its C header declares them, each called with every buffer and number between guards.

use crate::guards::{size, Lent, Number};
use second::equations::Tested;

#[link(name = "przytulisz", kind = "static")]
extern "C" {
    fn przytulisz_shape(n: usize, r: usize) -> u64;
    fn przytulisz_sizes(shape: u64, k: *mut usize, m: *mut usize, s: *mut usize, l: *mut usize) -> u32;
    fn przytulisz_lay(shape: u64, record: *const u8, record_length: usize, stripe: *mut u8, stripe_length: usize) -> u32;
    fn przytulisz_read_back(shape: u64, stripe: *const u8, stripe_length: usize, record: *mut u8, record_length: usize) -> u32;
    fn przytulisz_fill_parity(shape: u64, stripe: *mut u8, stripe_length: usize) -> u32;
    fn przytulisz_test(shape: u64, stripe: *const u8, stripe_length: usize, whole: *mut u8, row: *mut usize, t: *mut usize) -> u32;
    fn przytulisz_cut(
        shape: u64,
        helper: usize,
        failed: usize,
        column: *const u8,
        column_length: usize,
        fraction: *mut u8,
        fraction_length: usize,
    ) -> u32;
    fn przytulisz_rebuild(shape: u64, failed: usize, fractions: *const u8, fractions_length: usize, column: *mut u8, column_length: usize) -> u32;
    fn przytulisz_fill(shape: u64, lost: u32, stripe: *mut u8, stripe_length: usize) -> u32;
    fn przytulisz_read_pack(pack: *const u8, pack_length: usize, stripe: *mut u8, stripe_length: usize, shape: *mut u64, lost: *mut u32) -> u32;
}

/// A returned number, as document 01's numbers are. One that is above 255 is none of them, and shows as a difference.
fn number(returned: u32) -> u8 {
    u8::try_from(returned).unwrap_or(u8::MAX)
}

pub fn shape(n: usize, r: usize) -> u64 {
    // Safety: no pointer is lent.
    unsafe { przytulisz_shape(n, r) }
}

/// k, m, s and l, or the refusal.
pub fn sizes(shape: u64) -> Result<Result<[usize; 4], u8>, String> {
    let (mut k, mut m, mut s, mut l) = (size(71), size(72), size(73), size(74));
    // Safety: each pointer leads to a number of its own.
    let code = number(unsafe { przytulisz_sizes(shape, k.pointer_to_write(), m.pointer_to_write(), s.pointer_to_write(), l.pointer_to_write()) });
    k.after(code, "k")?;
    m.after(code, "m")?;
    s.after(code, "s")?;
    l.after(code, "l")?;
    Ok(if code == 0 { Ok([k.value(), m.value(), s.value(), l.value()]) } else { Err(code) })
}

fn finish(code: u8, written: &Lent) -> Result<Vec<u8>, u8> {
    if code == 0 {
        Ok(written.content().to_vec())
    } else {
        Err(code)
    }
}

fn lay_lent(shape: u64, record: &Lent, mut stripe: Lent) -> Result<Result<Vec<u8>, u8>, String> {
    // Safety: both pointers lead to as many bytes as said, of memory of their own; a null pointer goes with length 0.
    let code = number(unsafe { przytulisz_lay(shape, record.pointer(), record.length, stripe.pointer_to_write(), stripe.length) });
    record.kept("record")?;
    stripe.after(code, "stripe")?;
    Ok(finish(code, &stripe))
}

/// The stripe after laying, or the refusal.
pub fn lay(shape: u64, record: &[u8], stripe: &[u8]) -> Result<Result<Vec<u8>, u8>, String> {
    lay_lent(shape, &Lent::new(record), Lent::new(stripe))
}

fn read_back_lent(shape: u64, stripe: &Lent, mut record: Lent) -> Result<Result<Vec<u8>, u8>, String> {
    // Safety: as in `lay_lent`.
    let code = number(unsafe { przytulisz_read_back(shape, stripe.pointer(), stripe.length, record.pointer_to_write(), record.length) });
    stripe.kept("stripe")?;
    record.after(code, "record")?;
    Ok(finish(code, &record))
}

/// The record after reading back, or the refusal.
pub fn read_back(shape: u64, stripe: &[u8], record: &[u8]) -> Result<Result<Vec<u8>, u8>, String> {
    read_back_lent(shape, &Lent::new(stripe), Lent::new(record))
}

fn fill_parity_lent(shape: u64, mut stripe: Lent) -> Result<Result<Vec<u8>, u8>, String> {
    // Safety: as in `lay_lent`.
    let code = number(unsafe { przytulisz_fill_parity(shape, stripe.pointer_to_write(), stripe.length) });
    stripe.after(code, "stripe")?;
    Ok(finish(code, &stripe))
}

/// The stripe after filling parity, or the refusal.
pub fn fill_parity(shape: u64, stripe: &[u8]) -> Result<Result<Vec<u8>, u8>, String> {
    fill_parity_lent(shape, Lent::new(stripe))
}

fn test_lent(shape: u64, stripe: &Lent) -> Result<Result<Tested, u8>, String> {
    let (mut whole, mut row, mut t) = (Number::new(0xA7_u8, 0x77), size(75), size(76));
    // Safety: as in `lay_lent`; each number is one of its own.
    let code = number(unsafe {
        przytulisz_test(shape, stripe.pointer(), stripe.length, whole.pointer_to_write(), row.pointer_to_write(), t.pointer_to_write())
    });
    stripe.kept("stripe")?;
    whole.after(code, "whole")?;
    row.after(code, "row")?;
    t.after(code, "t")?;
    if code != 0 {
        return Ok(Err(code));
    }
    match whole.value() {
        1 => {
            row.kept("row")?;
            t.kept("t")?;
            Ok(Ok(Tested::Whole))
        }
        0 => Ok(Ok(Tested::Fails { a: row.value(), t: t.value() })),
        other => Err(format!("whole is {other} after the test")),
    }
}

/// What testing answers, or the refusal.
pub fn test(shape: u64, stripe: &[u8]) -> Result<Result<Tested, u8>, String> {
    test_lent(shape, &Lent::new(stripe))
}

fn cut_lent(shape: u64, helper: usize, failed: usize, column: &Lent, mut fraction: Lent) -> Result<Result<Vec<u8>, u8>, String> {
    // Safety: as in `lay_lent`.
    let code =
        number(unsafe { przytulisz_cut(shape, helper, failed, column.pointer(), column.length, fraction.pointer_to_write(), fraction.length) });
    column.kept("column")?;
    fraction.after(code, "fraction")?;
    Ok(finish(code, &fraction))
}

/// The fraction after cutting, or the refusal.
pub fn cut(shape: u64, helper: usize, failed: usize, column: &[u8], fraction: &[u8]) -> Result<Result<Vec<u8>, u8>, String> {
    cut_lent(shape, helper, failed, &Lent::new(column), Lent::new(fraction))
}

fn rebuild_lent(shape: u64, failed: usize, fractions: &Lent, mut column: Lent) -> Result<Result<Vec<u8>, u8>, String> {
    // Safety: as in `lay_lent`.
    let code = number(unsafe { przytulisz_rebuild(shape, failed, fractions.pointer(), fractions.length, column.pointer_to_write(), column.length) });
    fractions.kept("fractions")?;
    column.after(code, "column")?;
    Ok(finish(code, &column))
}

/// The column after rebuilding, or the refusal.
pub fn rebuild(shape: u64, failed: usize, fractions: &[u8], column: &[u8]) -> Result<Result<Vec<u8>, u8>, String> {
    rebuild_lent(shape, failed, &Lent::new(fractions), Lent::new(column))
}

fn fill_lent(shape: u64, lost: u32, mut stripe: Lent) -> Result<Result<Vec<u8>, u8>, String> {
    // Safety: as in `lay_lent`.
    let code = number(unsafe { przytulisz_fill(shape, lost, stripe.pointer_to_write(), stripe.length) });
    stripe.after(code, "stripe")?;
    Ok(finish(code, &stripe))
}

/// The stripe after filling, or the refusal.
pub fn fill(shape: u64, lost: u32, stripe: &[u8]) -> Result<Result<Vec<u8>, u8>, String> {
    fill_lent(shape, lost, Lent::new(stripe))
}

/// What reading a pack gives: the shape, the lost set, and the whole stripe buffer.
#[derive(Clone, PartialEq, Eq, Debug)]
pub struct Read {
    pub shape: u64,
    pub lost: u32,
    pub buffer: Vec<u8>,
}

fn read_pack_lent(pack: &Lent, mut buffer: Lent) -> Result<Result<Read, u8>, String> {
    let (mut shape, mut lost) = (Number::new(0x0123_4567_89AB_CDEF_u64, 77), Number::new(0x89AB_CDEF_u32, 78));
    // Safety: as in `lay_lent`; each number is one of its own.
    let returned = unsafe {
        przytulisz_read_pack(pack.pointer(), pack.length, buffer.pointer_to_write(), buffer.length, shape.pointer_to_write(), lost.pointer_to_write())
    };
    let code = number(returned);
    pack.kept("pack")?;
    buffer.after(code, "stripe buffer")?;
    shape.after(code, "shape")?;
    lost.after(code, "lost")?;
    if code != 0 {
        return Ok(Err(code));
    }
    Ok(Ok(Read { shape: shape.value(), lost: lost.value(), buffer: buffer.content().to_vec() }))
}

/// What reading a pack gives, or the refusal.
pub fn read_pack(pack: &[u8], buffer: &[u8]) -> Result<Result<Read, u8>, String> {
    read_pack_lent(&Lent::new(pack), Lent::new(buffer))
}

/// Every call with null pointers of length 0: its name, what was returned, what should be. `shape` is an accepted shape's number, `n` its nodes and
/// `l` its rows.
pub fn with_null_pointers(shape: u64, n: usize, r: usize, l: usize) -> Result<Vec<(String, u8, u8)>, String> {
    let code = |result: Result<Vec<u8>, u8>| result.err().unwrap_or(0);
    let stripe = || Lent::new(&vec![7; n * l]);
    let mut all = Vec::new();
    // An empty record is laid.
    let laid = lay_lent(shape, &Lent::null(), stripe())?;
    let expected = [vec![0; (n - r) * l], vec![7; r * l]].concat();
    if laid.as_ref().is_ok_and(|stripe| *stripe != expected) {
        return Err("an empty record by a null pointer wasn't laid as zero bytes".to_string());
    }
    all.push(("lay, record null".to_string(), code(laid), 0));
    for (words, shape, expected) in [("accepted", shape, 2), ("not accepted", 0, 1)] {
        let mut push = |name: &str, result: u8| all.push((format!("{name}, shape {words}"), result, expected));
        push("lay, both null", code(lay_lent(shape, &Lent::null(), Lent::null())?));
        push("read back, stripe null", code(read_back_lent(shape, &Lent::null(), Lent::new(&vec![7; (n - r) * l]))?));
        push("read back, record null", code(read_back_lent(shape, &stripe(), Lent::null())?));
        push("read back, both null", code(read_back_lent(shape, &Lent::null(), Lent::null())?));
        push("fill parity, null", code(fill_parity_lent(shape, Lent::null())?));
        push("test, null", test_lent(shape, &Lent::null())?.err().unwrap_or(0));
        push("cut, column null", code(cut_lent(shape, 1, 2, &Lent::null(), Lent::new(&vec![7; l / r]))?));
        push("cut, fraction null", code(cut_lent(shape, 1, 2, &Lent::new(&vec![7; l]), Lent::null())?));
        push("cut, both null", code(cut_lent(shape, 1, 2, &Lent::null(), Lent::null())?));
        push("rebuild, fractions null", code(rebuild_lent(shape, 1, &Lent::null(), Lent::new(&vec![7; l]))?));
        push("rebuild, column null", code(rebuild_lent(shape, 1, &Lent::new(&vec![7; (n - 1) * l / r]), Lent::null())?));
        push("rebuild, both null", code(rebuild_lent(shape, 1, &Lent::null(), Lent::null())?));
        push("fill, null", code(fill_lent(shape, 1, Lent::null())?));
    }
    let read = |pack: &Lent, buffer: Lent| -> Result<u8, String> { Ok(read_pack_lent(pack, buffer)?.err().unwrap_or(0)) };
    all.push(("read pack, pack null".to_string(), read(&Lent::null(), Lent::new(&[7; 4096]))?, 6));
    all.push(("read pack, buffer null".to_string(), read(&Lent::new(&[7; 32]), Lent::null())?, 2));
    all.push(("read pack, both null".to_string(), read(&Lent::null(), Lent::null())?, 2));
    Ok(all)
}
