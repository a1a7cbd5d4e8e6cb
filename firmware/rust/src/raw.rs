//! The library's functions as they are linked: a slice is a pointer and a length. `firmware/pezhkadu.h` describes each.

macro_rules! with_job {
    ($pointer:tt, $(
        fn $name:ident($($before:ident: $before_type:ty),*; $($after:ident: $after_type:ty),*) -> u64;
    )*) => {
        extern "C" {
            $(
                pub fn $name(
                    $($before: $before_type,)*
                    job64: *$pointer u64, job64_len: usize,
                    job32: *$pointer u32, job32_len: usize,
                    job16: *$pointer u16, job16_len: usize,
                    job8: *$pointer u8, job8_len: usize,
                    weights: *$pointer f32, weights_len: usize,
                    ends: *mut u64, ends_len: usize,
                    rests: *mut u64, rests_len: usize,
                    queue: *mut u64, queue_len: usize,
                    $($after: $after_type,)*
                ) -> u64;
            )*
        }
    };
}

with_job! { mut,
    fn pezhkadu_load(
        bytes: *const u8, bytes_len: usize, header: *mut u64, header_len: usize, records: *mut u64, records_len: usize;
        last: *mut u8, last_len: usize
    ) -> u64;
}

with_job! { const,
    fn pezhkadu_run(
        records: *mut u64, records_len: usize, budget: u64;
        last: *mut u8, last_len: usize, answer: *mut u64, answer_len: usize
    ) -> u64;
    fn pezhkadu_assign(
        header: *const u64, header_len: usize, records: *mut u64, records_len: usize, v: u64, reg: u64, weight: u64;
        last: *mut u8, last_len: usize
    ) -> u64;
    fn pezhkadu_evict(
        header: *const u64, header_len: usize, records: *mut u64, records_len: usize, v: u64;
        last: *const u8, last_len: usize, answer: *mut u64, answer_len: usize
    ) -> u64;
}

extern "C" {
    pub fn pezhkadu_standing(
        header: *const u64,
        header_len: usize,
        records: *const u64,
        records_len: usize,
        v: u64,
    ) -> u64;

    pub fn pezhkadu_sheet_line(
        header: *const u64,
        header_len: usize,
        records: *const u64,
        records_len: usize,
        answer: *const u64,
        answer_len: usize,
        position: u64,
        job64: *const u64,
        job64_len: usize,
        ends: *const u64,
        ends_len: usize,
        rests: *const u64,
        rests_len: usize,
        line: *mut u8,
        line_len: usize,
        next: *mut u64,
        next_len: usize,
    ) -> u64;
}
