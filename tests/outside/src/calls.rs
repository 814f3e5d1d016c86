//! The eight calls of the C boundary as function pointers, so that the library, the oracle and the oracle's mutants can
//! all stand on the tested side. A slice passes as pointer and length, an answer as a pointer to eight words.

#[derive(Clone, Copy)]
pub struct Calls {
    pub check: unsafe extern "C" fn(*const u32, usize, *mut u32),
    pub compile: unsafe extern "C" fn(*const u32, usize, u32, *mut u32, usize, *mut u32),
    pub run_source: unsafe extern "C" fn(*const u32, usize, *mut i32, usize, u32, *mut u32),
    pub run_code: unsafe extern "C" fn(*const u32, usize, *const u32, usize, u32, *mut i32, usize, u32, *mut u32),
    pub run_depot: unsafe extern "C" fn(
        *const u32,
        usize,
        *const u32,
        usize,
        u32,
        *mut i32,
        usize,
        u32,
        *mut u32,
        usize,
        *mut u32,
    ),
    pub read_text: unsafe extern "C" fn(*const u8, usize, *mut u32, usize, *mut u32),
    pub write_text: unsafe extern "C" fn(*const u32, usize, *mut u8, usize, *mut u32),
    pub read_rule: unsafe extern "C" fn(*const u8, usize, *mut u32, usize, *mut u32),
}

#[cfg(not(feature = "self-test"))]
mod library {
    extern "C" {
        pub fn rill_check(table: *const u32, table_len: usize, answer: *mut u32);
        pub fn rill_compile(
            table: *const u32,
            table_len: usize,
            start: u32,
            room: *mut u32,
            room_len: usize,
            answer: *mut u32,
        );
        pub fn rill_run_source(
            table: *const u32,
            table_len: usize,
            store: *mut i32,
            store_len: usize,
            fuel: u32,
            answer: *mut u32,
        );
        pub fn rill_run_code(
            table: *const u32,
            table_len: usize,
            code: *const u32,
            code_len: usize,
            start: u32,
            store: *mut i32,
            store_len: usize,
            fuel: u32,
            answer: *mut u32,
        );
        pub fn rill_run_depot(
            table: *const u32,
            table_len: usize,
            code: *const u32,
            code_len: usize,
            start: u32,
            stores: *mut i32,
            stores_len: usize,
            fuel: u32,
            room: *mut u32,
            room_len: usize,
            answer: *mut u32,
        );
        pub fn rill_read_text(text: *const u8, text_len: usize, room: *mut u32, room_len: usize, answer: *mut u32);
        pub fn rill_write_text(words: *const u32, words_len: usize, room: *mut u8, room_len: usize, answer: *mut u32);
        pub fn rill_read_rule(text: *const u8, text_len: usize, room: *mut u32, room_len: usize, answer: *mut u32);
    }
}

/// What is tested, in words.
pub const SUBJECT: &str = env!("OUTSIDE_SUBJECT");

/// The static library.
#[cfg(not(feature = "self-test"))]
pub fn subject() -> Calls {
    Calls {
        check: library::rill_check,
        compile: library::rill_compile,
        run_source: library::rill_run_source,
        run_code: library::rill_run_code,
        run_depot: library::rill_run_depot,
        read_text: library::rill_read_text,
        write_text: library::rill_write_text,
        read_rule: library::rill_read_rule,
    }
}

/// The oracle itself, in the library's place.
#[cfg(feature = "self-test")]
pub fn subject() -> Calls {
    crate::calls_of!(crate::oracle)
}

/// Makes the eight calls of a module shaped like `oracle`. A panic, which only a mutant can raise, must not leave an
/// `extern "C"` function: it becomes an answer that is never right.
#[macro_export]
macro_rules! calls_of {
    ($module:path) => {{
        use std::panic::{catch_unwind, AssertUnwindSafe};
        use std::slice::{from_raw_parts, from_raw_parts_mut};
        use $module as module;

        unsafe fn give(answer: *mut u32, call: impl FnOnce() -> [u32; 8]) {
            let words = catch_unwind(AssertUnwindSafe(call)).unwrap_or([u32::MAX; 8]);
            answer.cast::<[u32; 8]>().write(words);
        }
        unsafe extern "C" fn check(table: *const u32, table_len: usize, answer: *mut u32) {
            give(answer, || module::check(from_raw_parts(table, table_len)))
        }
        unsafe extern "C" fn compile(
            table: *const u32,
            table_len: usize,
            start: u32,
            room: *mut u32,
            room_len: usize,
            answer: *mut u32,
        ) {
            give(answer, || {
                module::compile(from_raw_parts(table, table_len), start, from_raw_parts_mut(room, room_len))
            })
        }
        unsafe extern "C" fn run_source(
            table: *const u32,
            table_len: usize,
            store: *mut i32,
            store_len: usize,
            fuel: u32,
            answer: *mut u32,
        ) {
            give(answer, || {
                module::run_source(from_raw_parts(table, table_len), from_raw_parts_mut(store, store_len), fuel)
            })
        }
        #[allow(clippy::too_many_arguments)]
        unsafe extern "C" fn run_code(
            table: *const u32,
            table_len: usize,
            code: *const u32,
            code_len: usize,
            start: u32,
            store: *mut i32,
            store_len: usize,
            fuel: u32,
            answer: *mut u32,
        ) {
            give(answer, || {
                module::run_code(
                    from_raw_parts(table, table_len),
                    from_raw_parts(code, code_len),
                    start,
                    from_raw_parts_mut(store, store_len),
                    fuel,
                )
            })
        }
        #[allow(clippy::too_many_arguments)]
        unsafe extern "C" fn run_depot(
            table: *const u32,
            table_len: usize,
            code: *const u32,
            code_len: usize,
            start: u32,
            stores: *mut i32,
            stores_len: usize,
            fuel: u32,
            room: *mut u32,
            room_len: usize,
            answer: *mut u32,
        ) {
            give(answer, || {
                module::run_depot(
                    from_raw_parts(table, table_len),
                    from_raw_parts(code, code_len),
                    start,
                    from_raw_parts_mut(stores, stores_len),
                    fuel,
                    from_raw_parts_mut(room, room_len),
                )
            })
        }
        unsafe extern "C" fn read_text(
            text: *const u8,
            text_len: usize,
            room: *mut u32,
            room_len: usize,
            answer: *mut u32,
        ) {
            give(answer, || module::read_text(from_raw_parts(text, text_len), from_raw_parts_mut(room, room_len)))
        }
        unsafe extern "C" fn write_text(
            words: *const u32,
            words_len: usize,
            room: *mut u8,
            room_len: usize,
            answer: *mut u32,
        ) {
            give(answer, || module::write_text(from_raw_parts(words, words_len), from_raw_parts_mut(room, room_len)))
        }
        unsafe extern "C" fn read_rule(
            text: *const u8,
            text_len: usize,
            room: *mut u32,
            room_len: usize,
            answer: *mut u32,
        ) {
            give(answer, || module::read_rule(from_raw_parts(text, text_len), from_raw_parts_mut(room, room_len)))
        }
        $crate::calls::Calls { check, compile, run_source, run_code, run_depot, read_text, write_text, read_rule }
    }};
}
