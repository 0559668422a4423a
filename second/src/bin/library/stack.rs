//! The test of the stack: the C header asks for 32,768 bytes of it for a call.

use crate::calls;
use crate::shapes::shape_number;
use second::compare::report::{count, same, Outcome};
use second::compare::stripes::{name, Whole};
use second::filling::parity_set;
use second::pack::{write_pack, STRIPE_BUFFER};

/// What there is for a call, as the C header asks.
const CALL: usize = 32_768;

/// What the thread itself may use besides.
const THREAD: usize = 16_384;

/// Every entry for one shape. What is given back is compared elsewhere; here only that all are done.
fn every_entry(whole: &Whole) -> Result<usize, String> {
    let Whole { shape, stripe } = whole;
    let number = shape_number(shape.n, shape.r);
    let fraction = shape.fraction_length();
    let done = [
        calls::sizes(number)?.is_ok(),
        calls::lay(number, &stripe[..shape.record_length()], stripe)?.is_ok(),
        calls::read_back(number, stripe, &stripe[..shape.record_length()])?.is_ok(),
        calls::fill_parity(number, stripe)?.is_ok(),
        calls::test(number, stripe)?.is_ok(),
        calls::cut(number, 2, 1, &stripe[..shape.l], &stripe[..fraction])?.is_ok(),
        calls::rebuild(number, 1, &stripe[..(shape.n - 1) * fraction], &stripe[..shape.l])?.is_ok(),
        calls::fill(number, 0, stripe)?.is_ok(),
        calls::fill(number, 1, stripe)?.is_ok(),
        calls::fill(number, parity_set(shape), stripe)?.is_ok(),
        calls::read_pack(&write_pack(shape, parity_set(shape), stripe), &vec![0; STRIPE_BUFFER])?.is_ok(),
    ];
    same(&name(shape), [true; 11], done)?;
    Ok(done.len())
}

/// Every entry for every shape, in a thread whose stack has little more than a call may use. A call that uses more ends this program.
pub fn small_stack(stripes: &[Whole]) -> Outcome {
    let compared = std::thread::scope(|scope| {
        let thread = std::thread::Builder::new().stack_size(CALL + THREAD);
        let calls = thread.spawn_scoped(scope, || stripes.iter().map(every_entry).sum::<Result<usize, String>>());
        calls.map_err(|error| format!("no thread: {error}"))?.join().map_err(|_| "the thread failed".to_string())?
    })?;
    count("calls", 38 * 11, compared)?;
    Ok(format!("{compared} calls in a thread with {} bytes of stack", CALL + THREAD))
}
