//! Another static library with the report's signature, under the name `peer_report`: the yardstick
//! of the benchmark, or another build of the library. Here only where the build was given one, and
//! its `peer_bills` and `peer_headroom` only where it has them.

extern "C" {
    fn peer_report(
        schedule: *const u8,
        schedule_len: usize,
        book: *const u8,
        book_len: usize,
        report: *mut u8,
        report_len: usize,
    ) -> u64;
}

pub fn report(schedule: &[u8], book: &[u8], buffer: &mut [u8]) -> u64 {
    // SAFETY: each pointer is that of a slice and stands beside the slice's length.
    unsafe {
        peer_report(
            schedule.as_ptr(),
            schedule.len(),
            book.as_ptr(),
            book.len(),
            buffer.as_mut_ptr(),
            buffer.len(),
        )
    }
}

#[cfg(yardstick_bills)]
mod of_desks {
    extern "C" {
        fn peer_bills(
            schedule: *const u8,
            schedule_len: usize,
            book: *const u8,
            book_len: usize,
            rate: u64,
            bills: *mut u8,
            bills_len: usize,
        ) -> u64;
    }

    pub fn bills(schedule: &[u8], book: &[u8], rate: u64, buffer: &mut [u8]) -> u64 {
        // SAFETY: each pointer is that of a slice and stands beside the slice's length.
        unsafe {
            peer_bills(
                schedule.as_ptr(),
                schedule.len(),
                book.as_ptr(),
                book.len(),
                rate,
                buffer.as_mut_ptr(),
                buffer.len(),
            )
        }
    }
}

#[cfg(yardstick_bills)]
pub use of_desks::bills;

#[cfg(yardstick_headroom)]
mod of_questions {
    extern "C" {
        fn peer_headroom(
            schedule: *const u8,
            schedule_len: usize,
            book: *const u8,
            book_len: usize,
            questions: *const u8,
            questions_len: usize,
            answers: *mut u8,
            answers_len: usize,
        ) -> u64;
    }

    pub fn headroom(schedule: &[u8], book: &[u8], questions: &[u8], buffer: &mut [u8]) -> u64 {
        // SAFETY: each pointer is that of a slice and stands beside the slice's length.
        unsafe {
            peer_headroom(
                schedule.as_ptr(),
                schedule.len(),
                book.as_ptr(),
                book.len(),
                questions.as_ptr(),
                questions.len(),
                buffer.as_mut_ptr(),
                buffer.len(),
            )
        }
    }
}

#[cfg(yardstick_headroom)]
pub use of_questions::headroom;
