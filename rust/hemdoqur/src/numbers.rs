//! The answers as the C functions give them, numbers; include/hemdoqur.h says what they mean.
//!
//! Each call is sound, since each pointer and length come from one slice, which is borrowed until the call is over.

mod linked {
    extern "C" {
        pub fn sheet_read(text: *const u8, text_length: usize, table: *mut u32, table_length: usize) -> u64;
        pub fn sheet_size(table: *const u32, table_length: usize) -> u64;
        pub fn sheet_write(table: *const u32, table_length: usize, out: *mut u8, out_length: usize) -> u64;
        pub fn sheet_merge(table: *const u32, table_length: usize, out: *mut u8, out_length: usize) -> u64;
        pub fn sheet_step(
            table: *const u32,
            table_length: usize,
            phase: u32,
            locations: *const u32,
            locations_length: usize,
            values: *const i32,
            values_length: usize,
            action: u32,
            new_locations: *const u32,
            new_locations_length: usize,
            new_values: *const i32,
            new_values_length: usize,
        ) -> u32;
        pub fn sheet_environment(
            table: *const u32,
            table_length: usize,
            phase: u32,
            locations: *const u32,
            locations_length: usize,
            values: *const i32,
            values_length: usize,
            new_values: *const i32,
            new_values_length: usize,
        ) -> u32;
        pub fn sheet_run(
            table: *const u32,
            table_length: usize,
            phase: u32,
            locations: *const u32,
            locations_length: usize,
            values: *const i32,
            values_length: usize,
            actions: *const u32,
            actions_length: usize,
            new_locations: *const u32,
            new_locations_length: usize,
            new_values: *const i32,
            new_values_length: usize,
            answers: *mut u32,
            answers_length: usize,
            end_locations: *mut u32,
            end_locations_length: usize,
            end_values: *mut i32,
            end_values_length: usize,
        ) -> u32;
    }
}

/// row * 2^32 + line; 0: accepted
pub fn read(text: &[u8], table: &mut [u32]) -> u64 {
    unsafe { linked::sheet_read(text.as_ptr(), text.len(), table.as_mut_ptr(), table.len()) }
}

/// row * 2^32 + actions * 2^16 + variables * 2^8 + automata
pub fn size(table: &[u32]) -> u64 {
    unsafe { linked::sheet_size(table.as_ptr(), table.len()) }
}

/// row * 2^32 + length
pub fn write(table: &[u32], out: &mut [u8]) -> u64 {
    unsafe { linked::sheet_write(table.as_ptr(), table.len(), out.as_mut_ptr(), out.len()) }
}

/// row * 2^32 + edges * 2^17 + length
pub fn merge(table: &[u32], out: &mut [u8]) -> u64 {
    unsafe { linked::sheet_merge(table.as_ptr(), table.len(), out.as_mut_ptr(), out.len()) }
}

/// 0 no, 1 yes with the mark false, 2 yes with the mark true, 100 + row refused
pub fn step(
    table: &[u32],
    phase: u32,
    locations: &[u32],
    values: &[i32],
    action: u32,
    new_locations: &[u32],
    new_values: &[i32],
) -> u32 {
    unsafe {
        linked::sheet_step(
            table.as_ptr(),
            table.len(),
            phase,
            locations.as_ptr(),
            locations.len(),
            values.as_ptr(),
            values.len(),
            action,
            new_locations.as_ptr(),
            new_locations.len(),
            new_values.as_ptr(),
            new_values.len(),
        )
    }
}

/// 0 no, 1 yes, 100 + row refused
pub fn environment(table: &[u32], phase: u32, locations: &[u32], values: &[i32], new_values: &[i32]) -> u32 {
    unsafe {
        linked::sheet_environment(
            table.as_ptr(),
            table.len(),
            phase,
            locations.as_ptr(),
            locations.len(),
            values.as_ptr(),
            values.len(),
            new_values.as_ptr(),
            new_values.len(),
        )
    }
}

/// The phase at the end, with an answer for each action at the front of `answers` and the state at the front of the other two; else
/// 100 + row refused, 201 lists that do not fit together, 202 too few answers, 203 too little room for the state
#[allow(clippy::too_many_arguments)]
pub fn run(
    table: &[u32],
    phase: u32,
    locations: &[u32],
    values: &[i32],
    actions: &[u32],
    new_locations: &[u32],
    new_values: &[i32],
    answers: &mut [u32],
    end_locations: &mut [u32],
    end_values: &mut [i32],
) -> u32 {
    unsafe {
        linked::sheet_run(
            table.as_ptr(),
            table.len(),
            phase,
            locations.as_ptr(),
            locations.len(),
            values.as_ptr(),
            values.len(),
            actions.as_ptr(),
            actions.len(),
            new_locations.as_ptr(),
            new_locations.len(),
            new_values.as_ptr(),
            new_values.len(),
            answers.as_mut_ptr(),
            answers.len(),
            end_locations.as_mut_ptr(),
            end_locations.len(),
            end_values.as_mut_ptr(),
            end_values.len(),
        )
    }
}
