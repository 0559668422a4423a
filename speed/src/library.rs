//! The library, through its C header.

use crate::{Contender, Task};
use second::shape::shape;

#[link(name = "przytulisz", kind = "static")]
extern "C" {
    fn przytulisz_shape(n: usize, r: usize) -> u64;
    fn przytulisz_fill_parity(shape: u64, stripe: *mut u8, length: usize) -> u32;
    fn przytulisz_test(shape: u64, stripe: *const u8, length: usize, whole: *mut u8, row: *mut usize, t: *mut usize) -> u32;
    fn przytulisz_cut(shape: u64, helper: usize, failed: usize, column: *const u8, length: usize, fraction: *mut u8, room: usize) -> u32;
    fn przytulisz_rebuild(shape: u64, failed: usize, fractions: *const u8, length: usize, column: *mut u8, room: usize) -> u32;
    fn przytulisz_fill(shape: u64, lost: u32, stripe: *mut u8, length: usize) -> u32;
}

const NAME: &str = "przytulisz";

pub fn rows(n: usize, r: usize) -> usize {
    shape(n, r).expect("an accepted shape").l
}

fn parity(n: usize, r: usize, stripe: &mut [u8]) {
    let code = unsafe { przytulisz_fill_parity(przytulisz_shape(n, r), stripe.as_mut_ptr(), stripe.len()) };
    assert_eq!(code, 0);
}

fn whole(n: usize, r: usize, stripe: &[u8]) -> bool {
    let (mut whole, mut row, mut t) = (2, 0, 0);
    let code = unsafe { przytulisz_test(przytulisz_shape(n, r), stripe.as_ptr(), stripe.len(), &mut whole, &mut row, &mut t) };
    assert_eq!(code, 0);
    whole == 1
}

/// A whole stripe of bytes that are not all alike.
pub fn whole_stripe(n: usize, r: usize) -> Vec<u8> {
    let mut stripe: Vec<u8> = (0..n * rows(n, r)).map(|j| (j * 167 + j / 256 * 59 + 13) as u8).collect();
    parity(n, r, &mut stripe);
    assert!(whole(n, r, &stripe));
    stripe
}

/// The fractions of all other nodes, end to end.
pub fn fractions(n: usize, r: usize, failed: usize, stripe: &[u8]) -> Vec<u8> {
    let l = rows(n, r);
    let mut all = Vec::new();
    for helper in (1..=n).filter(|i| *i != failed) {
        let mut fraction = vec![0; l / r];
        let column = &stripe[(helper - 1) * l..helper * l];
        let code = unsafe { przytulisz_cut(przytulisz_shape(n, r), helper, failed, column.as_ptr(), l, fraction.as_mut_ptr(), l / r) };
        assert_eq!(code, 0);
        all.extend(fraction);
    }
    all
}

/// The first node of each of the first r groups.
pub fn lost(r: usize) -> u32 {
    (0..r).map(|v| 1 << (v * r)).sum()
}

pub fn rebuild(n: usize, r: usize, failed: usize) -> Contender {
    let l = rows(n, r);
    let stripe = whole_stripe(n, r);
    let given = fractions(n, r, failed, &stripe);
    let call = move |column: &mut [u8]| {
        let code = unsafe { przytulisz_rebuild(przytulisz_shape(n, r), failed, given.as_ptr(), given.len(), column.as_mut_ptr(), l) };
        assert_eq!(code, 0);
    };
    let mut column = vec![0; l];
    call(&mut column);
    assert!(column == stripe[(failed - 1) * l..failed * l]);
    Contender { name: NAME, data: (n - r) * l, call: Box::new(move || call(std::hint::black_box(&mut column))) }
}

pub fn contender(task: Task, n: usize, r: usize, slowest: usize) -> Contender {
    let mut stripe = whole_stripe(n, r);
    let same = stripe.clone();
    let call: Box<dyn FnMut()> = match task {
        Task::Rebuild => return rebuild(n, r, slowest),
        Task::Parity => {
            stripe[(n - r) * rows(n, r)..].fill(0xA5);
            parity(n, r, &mut stripe);
            assert!(stripe == same);
            Box::new(move || parity(n, r, std::hint::black_box(&mut stripe)))
        }
        Task::Test => Box::new(move || assert!(whole(n, r, std::hint::black_box(&stripe)))),
        Task::Fill => {
            let fill = move |stripe: &mut [u8]| {
                let code = unsafe { przytulisz_fill(przytulisz_shape(n, r), lost(r), stripe.as_mut_ptr(), stripe.len()) };
                assert_eq!(code, 0);
            };
            for v in 0..r {
                stripe[v * r * rows(n, r)..(v * r + 1) * rows(n, r)].fill(0xA5);
            }
            fill(&mut stripe);
            assert!(stripe == same);
            Box::new(move || fill(std::hint::black_box(&mut stripe)))
        }
    };
    Contender { name: NAME, data: (n - r) * rows(n, r), call }
}
