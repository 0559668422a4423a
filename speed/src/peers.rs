//! ISA-L and jerasure at the same k and r, with columns as long: Reed-Solomon codes, which read k whole columns for each rebuilt one.

use crate::{Contender, Task};

/// Data and parity columns of one stripe, the data not all alike.
#[cfg(any(isal, jerasure))]
struct Columns {
    data: Vec<Vec<u8>>,
    parity: Vec<Vec<u8>>,
}

#[cfg(any(isal, jerasure))]
impl Columns {
    fn new(k: usize, r: usize, l: usize) -> Columns {
        let column = |i: usize| (0..l).map(|a| (a * 167 + i * 59 + 13) as u8).collect();
        Columns { data: (0..k).map(column).collect(), parity: vec![vec![0; l]; r] }
    }
}

#[cfg(any(isal, jerasure))]
fn pointers<T>(columns: &mut [Vec<u8>]) -> Vec<*mut T> {
    columns.iter_mut().map(|column| column.as_mut_ptr().cast()).collect()
}

pub fn contenders(task: Task, k: usize, r: usize, l: usize) -> Vec<Contender> {
    #[allow(unused_mut)]
    let mut all = Vec::new();
    #[cfg(isal)]
    {
        all.push(isal::contender("ISA-L, SSE", isal::ec_encode_data_sse, task, k, r, l));
        all.push(isal::contender("ISA-L", isal::ec_encode_data, task, k, r, l));
    }
    #[cfg(jerasure)]
    all.push(jerasure::contender(task, k, r, l));
    #[cfg(not(any(isal, jerasure)))]
    let _ = (task, k, r, l);
    all
}

#[cfg(isal)]
mod isal {
    use super::{pointers, Columns};
    use crate::{Contender, Task};
    use std::ffi::c_int;

    type Encode = unsafe extern "C" fn(c_int, c_int, c_int, *mut u8, *mut *mut u8, *mut *mut u8);

    #[link(name = "isal")]
    extern "C" {
        pub fn ec_encode_data(len: c_int, k: c_int, rows: c_int, tables: *mut u8, data: *mut *mut u8, coding: *mut *mut u8);
        pub fn ec_encode_data_sse(len: c_int, k: c_int, rows: c_int, tables: *mut u8, data: *mut *mut u8, coding: *mut *mut u8);
        fn ec_init_tables(k: c_int, rows: c_int, matrix: *mut u8, tables: *mut u8);
        fn gf_gen_cauchy1_matrix(matrix: *mut u8, rows: c_int, k: c_int);
        fn gf_invert_matrix(given: *mut u8, inverse: *mut u8, k: c_int) -> c_int;
    }

    fn tables(k: usize, rows: &mut [u8]) -> Vec<u8> {
        let mut tables = vec![0; 32 * rows.len()];
        unsafe { ec_init_tables(k as c_int, (rows.len() / k) as c_int, rows.as_mut_ptr(), tables.as_mut_ptr()) };
        tables
    }

    /// Rows that give the first `lost` data columns from the other data columns and the first `lost` parity columns.
    fn decoding(k: usize, matrix: &[u8], lost: usize) -> Vec<u8> {
        let mut survivors = matrix[lost * k..(lost + k) * k].to_vec();
        let mut inverse = vec![0; k * k];
        assert_eq!(unsafe { gf_invert_matrix(survivors.as_mut_ptr(), inverse.as_mut_ptr(), k as c_int) }, 0);
        inverse[..lost * k].to_vec()
    }

    pub fn contender(name: &'static str, encode: Encode, task: Task, k: usize, r: usize, l: usize) -> Contender {
        let mut matrix = vec![0; (k + r) * k];
        unsafe { gf_gen_cauchy1_matrix(matrix.as_mut_ptr(), (k + r) as c_int, k as c_int) };
        let mut columns = Columns::new(k, r, l);
        let run = move |tables: &mut Vec<u8>, given: &mut Vec<*mut u8>, made: &mut Vec<*mut u8>| unsafe {
            encode(l as c_int, k as c_int, made.len() as c_int, tables.as_mut_ptr(), given.as_mut_ptr(), made.as_mut_ptr());
        };
        let mut coding = tables(k, &mut matrix[k * k..].to_vec());
        run(&mut coding, &mut pointers(&mut columns.data), &mut pointers(&mut columns.parity));
        let call: Box<dyn FnMut()> = match task {
            Task::Parity | Task::Test => {
                let mut made = vec![vec![0; l]; r];
                Box::new(move || {
                    run(&mut coding, &mut pointers(&mut columns.data), &mut pointers(&mut made));
                    if task == Task::Test {
                        assert!(made == columns.parity);
                    }
                    std::hint::black_box(&made);
                })
            }
            Task::Rebuild | Task::Fill => {
                let lost = if task == Task::Rebuild { 1 } else { r };
                let mut back = tables(k, &mut decoding(k, &matrix, lost));
                let mut given: Vec<Vec<u8>> = columns.data[lost..].iter().chain(&columns.parity[..lost]).cloned().collect();
                let mut made = vec![vec![0; l]; lost];
                run(&mut back, &mut pointers(&mut given), &mut pointers(&mut made));
                assert!(made == columns.data[..lost]);
                Box::new(move || {
                    run(&mut back, &mut pointers(&mut given), &mut pointers(&mut made));
                    std::hint::black_box(&made);
                })
            }
        };
        Contender { name, data: k * l, call }
    }
}

#[cfg(jerasure)]
mod jerasure {
    use super::{pointers, Columns};
    use crate::{Contender, Task};
    use std::ffi::{c_char, c_int};

    #[link(name = "Jerasure")]
    #[link(name = "gf_complete")]
    extern "C" {
        fn reed_sol_vandermonde_coding_matrix(k: c_int, m: c_int, w: c_int) -> *mut c_int;
        fn jerasure_matrix_encode(k: c_int, m: c_int, w: c_int, matrix: *mut c_int, data: *mut *mut c_char, coding: *mut *mut c_char, size: c_int);
        #[rustfmt::skip]
        fn jerasure_matrix_decode(
            k: c_int,
            m: c_int,
            w: c_int,
            matrix: *mut c_int,
            row_k_ones: c_int,
            erasures: *mut c_int,
            data: *mut *mut c_char,
            coding: *mut *mut c_char,
            size: c_int,
        ) -> c_int;
    }

    pub fn contender(task: Task, k: usize, r: usize, l: usize) -> Contender {
        // it wants columns of a multiple of 8 bytes
        let l = l.div_ceil(8) * 8;
        let matrix = unsafe { reed_sol_vandermonde_coding_matrix(k as c_int, r as c_int, 8) };
        let mut columns = Columns::new(k, r, l);
        let encode = move |data: &mut [Vec<u8>], parity: &mut [Vec<u8>]| unsafe {
            jerasure_matrix_encode(k as c_int, r as c_int, 8, matrix, pointers(data).as_mut_ptr(), pointers(parity).as_mut_ptr(), l as c_int);
        };
        encode(&mut columns.data, &mut columns.parity);
        let call: Box<dyn FnMut()> = match task {
            Task::Parity | Task::Test => {
                let mut made = vec![vec![0; l]; r];
                Box::new(move || {
                    encode(&mut columns.data, &mut made);
                    if task == Task::Test {
                        assert!(made == columns.parity);
                    }
                    std::hint::black_box(&made);
                })
            }
            Task::Rebuild | Task::Fill => {
                let lost = if task == Task::Rebuild { 1 } else { r };
                let right = columns.data.clone();
                let mut erasures: Vec<c_int> = (0..lost as c_int).chain([-1]).collect();
                let mut decode = move |columns: &mut Columns| unsafe {
                    let (mut data, mut parity) = (pointers(&mut columns.data), pointers(&mut columns.parity));
                    let ended = jerasure_matrix_decode(
                        k as c_int,
                        r as c_int,
                        8,
                        matrix,
                        1,
                        erasures.as_mut_ptr(),
                        data.as_mut_ptr(),
                        parity.as_mut_ptr(),
                        l as c_int,
                    );
                    assert_eq!(ended, 0);
                };
                columns.data[..lost].fill(vec![0; l]);
                decode(&mut columns);
                assert!(columns.data == right);
                Box::new(move || {
                    decode(&mut columns);
                    std::hint::black_box(&columns.data);
                })
            }
        };
        Contender { name: "jerasure", data: k * l, call }
    }
}
