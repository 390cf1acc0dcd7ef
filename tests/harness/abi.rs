//! The planner's C interface as include/gotalhim.h declares it, and a safe wrapper for each function. A slice passes as
//! a pointer and then a length; answers come back through a small slice of 64-bit numbers.

mod declared {
    extern "C" {
        pub fn gotalhim_make(
            sheet: *const u32, sheet_length: usize,
            target: *mut u32, target_length: usize,
            answer: *mut u64, answer_length: usize,
        ) -> u32;
        pub fn gotalhim_encode(
            instance: *const u32, instance_length: usize,
            table: *mut u32, table_length: usize,
            answer: *mut u64, answer_length: usize,
        ) -> u32;
        pub fn gotalhim_step(
            table: *mut u32, table_length: usize,
            answer: *mut u64, answer_length: usize,
        ) -> u32;
        pub fn gotalhim_run(
            table: *mut u32, table_length: usize,
            limit: usize,
            derivation: *mut u32, derivation_length: usize,
            answer: *mut u64, answer_length: usize,
        ) -> u32;
        pub fn gotalhim_plan(
            table: *const u32, table_length: usize,
            target: *mut u8, target_length: usize,
        ) -> u32;
        pub fn gotalhim_complete(
            table: *const u32, table_length: usize,
            k: usize,
            fixed: *const u8, fixed_length: usize,
            target: *mut u8, target_length: usize,
            answer: *mut u64, answer_length: usize,
        ) -> u32;
        pub fn gotalhim_drive(
            instance: *const u32, instance_length: usize,
            table: *mut u32, table_length: usize,
            calls: *const u32, calls_length: usize,
            derivation: *mut u32, derivation_length: usize,
            target: *mut u8, target_length: usize,
            answer: *mut u64, answer_length: usize,
        ) -> u32;
        pub fn gotalhim_check(
            instance: *const u32, instance_length: usize,
            derivation: *const u32, derivation_length: usize,
            plan: *const u8, plan_length: usize,
            claimed: u64,
            table: *mut u32, table_length: usize,
            answer: *mut u64, answer_length: usize,
        ) -> u32;
        pub fn gotalhim_readout(
            sheet: *const u32, sheet_length: usize,
            plan: *const u8, plan_length: usize,
            variable: u32, easting: u32, northing: u32,
            answer: *mut u64, answer_length: usize,
        ) -> u32;
        pub fn gotalhim_cost(
            instance: *const u32, instance_length: usize,
            plan: *const u8, plan_length: usize,
            answer: *mut u64, answer_length: usize,
        ) -> u32;
        pub fn gotalhim_to_six(
            source: *const u32, source_length: usize,
            target: *mut u32, target_length: usize,
            answer: *mut u64, answer_length: usize,
        ) -> u32;
        pub fn gotalhim_to_five(
            source: *const u32, source_length: usize,
            target: *mut u32, target_length: usize,
            answer: *mut u64, answer_length: usize,
        ) -> u32;
    }
}

/// Writes the instance of a sheet; the answer is the number of words written.
pub fn make(sheet: &[u32], target: &mut [u32], answer: &mut [u64]) -> u32 {
    unsafe {
        declared::gotalhim_make(
            sheet.as_ptr(), sheet.len(),
            target.as_mut_ptr(), target.len(),
            answer.as_mut_ptr(), answer.len(),
        )
    }
}

/// Encodes an instance in a table; the answer is the number of rows.
pub fn encode(instance: &[u32], table: &mut [u32], answer: &mut [u64]) -> u32 {
    unsafe {
        declared::gotalhim_encode(
            instance.as_ptr(), instance.len(),
            table.as_mut_ptr(), table.len(),
            answer.as_mut_ptr(), answer.len(),
        )
    }
}

/// Makes the next step; the answer is 1 if no pair was left, and the step word.
pub fn step(table: &mut [u32], answer: &mut [u64]) -> u32 {
    unsafe {
        declared::gotalhim_step(table.as_mut_ptr(), table.len(), answer.as_mut_ptr(), answer.len())
    }
}

/// Makes steps; the answer is the outcome (0 done, 1 paused, 2 stopped), the steps made and the bound; all 0 for 9.
pub fn run(table: &mut [u32], limit: usize, derivation: &mut [u32], answer: &mut [u64]) -> u32 {
    unsafe {
        declared::gotalhim_run(
            table.as_mut_ptr(), table.len(),
            limit,
            derivation.as_mut_ptr(), derivation.len(),
            answer.as_mut_ptr(), answer.len(),
        )
    }
}

/// Writes the rebuilt assignment.
pub fn plan(table: &[u32], target: &mut [u8]) -> u32 {
    unsafe {
        declared::gotalhim_plan(table.as_ptr(), table.len(), target.as_mut_ptr(), target.len())
    }
}

/// Writes the assignment with the fixed values of the variables from k on; the answer is its cost.
pub fn complete(table: &[u32], k: usize, fixed: &[u8], target: &mut [u8], answer: &mut [u64]) -> u32 {
    unsafe {
        declared::gotalhim_complete(
            table.as_ptr(), table.len(),
            k,
            fixed.as_ptr(), fixed.len(),
            target.as_mut_ptr(), target.len(),
            answer.as_mut_ptr(), answer.len(),
        )
    }
}

/// Encodes an instance and makes the calls of a list of words; the answer is the number of steps made.
pub fn drive(
    instance: &[u32],
    table: &mut [u32],
    calls: &[u32],
    derivation: &mut [u32],
    target: &mut [u8],
    answer: &mut [u64],
) -> u32 {
    unsafe {
        declared::gotalhim_drive(
            instance.as_ptr(), instance.len(),
            table.as_mut_ptr(), table.len(),
            calls.as_ptr(), calls.len(),
            derivation.as_mut_ptr(), derivation.len(),
            target.as_mut_ptr(), target.len(),
            answer.as_mut_ptr(), answer.len(),
        )
    }
}

/// Checks a derivation and a claim; the answer is the number of steps replayed.
pub fn check(
    instance: &[u32],
    derivation: &[u32],
    plan: &[u8],
    claimed: u64,
    table: &mut [u32],
    answer: &mut [u64],
) -> u32 {
    unsafe {
        declared::gotalhim_check(
            instance.as_ptr(), instance.len(),
            derivation.as_ptr(), derivation.len(),
            plan.as_ptr(), plan.len(),
            claimed,
            table.as_mut_ptr(), table.len(),
            answer.as_mut_ptr(), answer.len(),
        )
    }
}

/// The metres from a position to the place of a variable's value.
pub fn readout(
    sheet: &[u32],
    plan: &[u8],
    variable: u32,
    easting: u32,
    northing: u32,
    answer: &mut [u64],
) -> u32 {
    unsafe {
        declared::gotalhim_readout(
            sheet.as_ptr(), sheet.len(),
            plan.as_ptr(), plan.len(),
            variable, easting, northing,
            answer.as_mut_ptr(), answer.len(),
        )
    }
}

/// The cost of an assignment.
pub fn cost(instance: &[u32], plan: &[u8], answer: &mut [u64]) -> u32 {
    unsafe {
        declared::gotalhim_cost(
            instance.as_ptr(), instance.len(),
            plan.as_ptr(), plan.len(),
            answer.as_mut_ptr(), answer.len(),
        )
    }
}

/// Writes the six-word table of a five-word one; the answer is the number of rows.
pub fn to_six(source: &[u32], target: &mut [u32], answer: &mut [u64]) -> u32 {
    unsafe {
        declared::gotalhim_to_six(
            source.as_ptr(), source.len(),
            target.as_mut_ptr(), target.len(),
            answer.as_mut_ptr(), answer.len(),
        )
    }
}

/// Writes the five-word table of a six-word one; the answer is the number of rows.
pub fn to_five(source: &[u32], target: &mut [u32], answer: &mut [u64]) -> u32 {
    unsafe {
        declared::gotalhim_to_five(
            source.as_ptr(), source.len(),
            target.as_mut_ptr(), target.len(),
            answer.as_mut_ptr(), answer.len(),
        )
    }
}
