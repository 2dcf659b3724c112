//! The calls as the header `bindings/c/firnolvag.h` has them, with a slice in place of each pointer and its length.
//!
//! They are safe, and tell everything that the header tells: the answer is what they return, and the facts stand at the
//! start of the last slice. Numbers that name no method and no queue may be tried here. The functions at the root of the
//! crate say the same things with types.

/// The header's functions.
mod linked {
    unsafe extern "C" {
        pub fn firnolvag_sound(file: *const u8, file_len: usize, facts: *mut u64, facts_len: usize) -> u8;

        pub fn firnolvag_table(
            file: *const u8, file_len: usize, costs: *mut u64, costs_len: usize, predecessors: *mut u16,
            predecessors_len: usize, facts: *mut u64, facts_len: usize,
        ) -> u8;

        pub fn firnolvag_table_by(
            file: *const u8, file_len: usize, method: u8, queue: u8, costs: *mut u64, costs_len: usize,
            predecessors: *mut u16, predecessors_len: usize, facts: *mut u64, facts_len: usize,
        ) -> u8;

        pub fn firnolvag_row(
            file: *const u8, file_len: usize, source: u16, method: u8, queue: u8, costs: *mut u64, costs_len: usize,
            predecessors: *mut u16, predecessors_len: usize, facts: *mut u64, facts_len: usize,
        ) -> u8;

        pub fn firnolvag_route(
            file: *const u8, file_len: usize, from: u16, to: u16, list: *mut u16, list_len: usize, facts: *mut u64,
            facts_len: usize,
        ) -> u8;

        pub fn firnolvag_check(
            file: *const u8, file_len: usize, source: u16, costs: *const u64, costs_len: usize, predecessors: *const u16,
            predecessors_len: usize, facts: *mut u64, facts_len: usize,
        ) -> u8;
    }
}

/// Is this file sound? Answers 0 with the facts kind byte, n and links, else 15 to 22.
pub fn sound(file: &[u8], facts: &mut [u64]) -> u8 {
    // SAFETY: the header asks of each pointer that it is aligned and not null, also where the length is 0, and leads to
    // that many initialized places, and that what is written overlaps with nothing else and is touched by no other thread.
    // A slice is just that, and one that is borrowed to be written is borrowed by nobody else.
    unsafe { linked::firnolvag_sound(file.as_ptr(), file.len(), facts.as_mut_ptr(), facts.len()) }
}

/// The whole table, worked as is fastest. Answers 0 with the fact n, else 15 to 22.
pub fn table(file: &[u8], costs: &mut [u64], predecessors: &mut [u16], facts: &mut [u64]) -> u8 {
    // SAFETY: each pointer and length are a slice's, as in `sound`.
    unsafe {
        linked::firnolvag_table(
            file.as_ptr(),
            file.len(),
            costs.as_mut_ptr(),
            costs.len(),
            predecessors.as_mut_ptr(),
            predecessors.len(),
            facts.as_mut_ptr(),
            facts.len(),
        )
    }
}

/// The whole table by one method with one queue. Answers 0 with the fact n, else 15 to 22, 101 or 102.
pub fn table_by(file: &[u8], method: u8, queue: u8, costs: &mut [u64], predecessors: &mut [u16], facts: &mut [u64]) -> u8 {
    // SAFETY: each pointer and length are a slice's, as in `sound`.
    unsafe {
        linked::firnolvag_table_by(
            file.as_ptr(),
            file.len(),
            method,
            queue,
            costs.as_mut_ptr(),
            costs.len(),
            predecessors.as_mut_ptr(),
            predecessors.len(),
            facts.as_mut_ptr(),
            facts.len(),
        )
    }
}

/// One row. Answers 0 with the facts n and the number taken, else 15 to 22, 3, 12, 101 or 102.
pub fn row(
    file: &[u8], source: u16, method: u8, queue: u8, costs: &mut [u64], predecessors: &mut [u16], facts: &mut [u64],
) -> u8 {
    // SAFETY: each pointer and length are a slice's, as in `sound`.
    unsafe {
        linked::firnolvag_row(
            file.as_ptr(),
            file.len(),
            source,
            method,
            queue,
            costs.as_mut_ptr(),
            costs.len(),
            predecessors.as_mut_ptr(),
            predecessors.len(),
            facts.as_mut_ptr(),
            facts.len(),
        )
    }
}

/// A walk of least cost. Answers 0 with the facts how many stations and the cost, else 15 to 22, 3, 11 or 12.
pub fn route(file: &[u8], from: u16, to: u16, list: &mut [u16], facts: &mut [u64]) -> u8 {
    // SAFETY: each pointer and length are a slice's, as in `sound`.
    unsafe {
        linked::firnolvag_route(
            file.as_ptr(),
            file.len(),
            from,
            to,
            list.as_mut_ptr(),
            list.len(),
            facts.as_mut_ptr(),
            facts.len(),
        )
    }
}

/// Is a supplier's row right? Answers 0, else 15 to 22, 3, 13 or 14.
pub fn check(file: &[u8], source: u16, costs: &[u64], predecessors: &[u16], facts: &mut [u64]) -> u8 {
    // SAFETY: each pointer and length are a slice's, as in `sound`.
    unsafe {
        linked::firnolvag_check(
            file.as_ptr(),
            file.len(),
            source,
            costs.as_ptr(),
            costs.len(),
            predecessors.as_ptr(),
            predecessors.len(),
            facts.as_mut_ptr(),
            facts.len(),
        )
    }
}
