//! The functions of include/cobblehard.h that the wrapper uses.
//!
//! A slice is a pointer and a length; with length 0 the pointer may be anything. What is lent to one call does not overlap.

extern "C" {
    pub fn emc2305_run(
        log: *const u8,
        log_length: usize,
        replies: *mut u8,
        replies_length: usize,
        place: *mut u64,
        records: *mut u64,
        reply_bytes: *mut u64,
    ) -> u8;

    pub fn emc2305_speeds(
        log: *const u8,
        log_length: usize,
        poles: u64,
        figures: *mut u64,
        figures_length: usize,
        place: *mut u64,
        records: *mut u64,
    ) -> u8;

    pub fn emc2305_rpm(poles: u64, configuration1: u8, count: u16) -> u32;

    pub fn emc2305_rpm_by_high_byte(high_byte: u8) -> u32;

    pub fn eventlog_read(
        log: *const u8,
        log_length: usize,
        place: u64,
        kind: *mut u8,
        unit: *mut u8,
        value: *mut u16,
        bytes_place: *mut u64,
        bytes_length: *mut u64,
        next: *mut u64,
    ) -> u8;

    pub fn eventlog_fault(log: *const u8, log_length: usize, place: u64) -> u64;

    pub fn eventlog_write(
        kind: u8,
        unit: u8,
        value: u16,
        bytes: *const u8,
        bytes_length: usize,
        out: *mut u8,
        out_length: usize,
        written: *mut u64,
    ) -> u8;
}
