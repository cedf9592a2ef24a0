//! The two functions of `libtiming_c.a` that are there for the benchmark alone.

use kernel::Unit;

#[link(name = "timing_c", kind = "static")]
extern "C" {
    fn reel_answers(
        tables: *mut u8,
        tables_len: usize,
        fast: *mut u8,
        fast_len: usize,
        slow: *mut u8,
        slow_len: usize,
        file: *const u8,
        file_len: usize,
        out: *mut u8,
        out_len: usize,
    ) -> u32;

    fn reel_sound(tables: *const u8, tables_len: usize, times: u32) -> u32;
}

/// Answers each message of a call file by itself; the rules are tested at each. Gives how many
/// there were.
pub fn answers(unit: &mut Unit, file: &[u8]) -> u32 {
    // SAFETY: it is proved to touch the lent slices alone.
    unsafe {
        kernel::answer_by(
            reel_answers,
            &mut unit.tables,
            &mut unit.fast,
            &mut unit.slow,
            file,
            &mut unit.out,
        )
    }
}

/// Tests the rules so many times; gives how often they held.
pub fn sound(unit: &Unit, times: u32) -> u32 {
    // SAFETY: pointer and length are those of a live buffer.
    unsafe { reel_sound(unit.tables.as_ptr(), unit.tables.len(), times) }
}
