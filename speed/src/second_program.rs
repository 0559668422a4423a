//! `second`, the plain program: elimination over all unknowns.

use crate::library::{fractions, lost, rows, whole_stripe};
use crate::{Contender, Task};

pub fn contender(task: Task, n: usize, r: usize, failed: usize) -> Contender {
    let l = rows(n, r);
    let mut stripe = whole_stripe(n, r);
    let call: Box<dyn FnMut()> = match task {
        Task::Parity => Box::new(move || assert!(second::filling::fill_parity(n, r, std::hint::black_box(&mut stripe)).is_ok())),
        Task::Test => Box::new(move || assert!(second::equations::test(n, r, std::hint::black_box(&stripe)).is_ok())),
        Task::Fill => Box::new(move || assert!(second::filling::fill(n, r, lost(r), std::hint::black_box(&mut stripe)).is_ok())),
        Task::Rebuild => {
            let given = fractions(n, r, failed, &stripe);
            let mut column = vec![0; l];
            Box::new(move || {
                assert!(second::fractions::rebuild(n, r, failed, &given, std::hint::black_box(&mut column)).is_ok());
                assert!(column == stripe[(failed - 1) * l..failed * l]);
            })
        }
    };
    Contender { name: "second", data: (n - r) * l, call }
}
