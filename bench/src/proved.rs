//! The proved code, by the C names that `crates/exports`, `crates/exports_in_place` and `crates/exports_by_value` give
//! it. A slice is a pointer and a length.

/// Building, reading and counting, which need no link: today's and an earlier revision's differ only in their names.
macro_rules! calls_without_a_link {
    ($when:ident: $build:ident, $read:ident, $count:ident) => {
        #[rustfmt::skip]
        pub mod $when {
            extern "C" {
                fn $build(kind: u8, command: u8, parameters: *const u8, parameters_size: usize, lent: *mut u8, lent_size: usize) -> u64;
                fn $read(bytes: *const u8, size: usize) -> u64;
                fn $count(input: *const u8, size: usize, counts: *mut [u64; 9]);
            }

            pub fn build(kind: u8, command: u8, parameters: &[u8], lent: &mut [u8]) -> u64 {
                unsafe { $build(kind, command, parameters.as_ptr(), parameters.len(), lent.as_mut_ptr(), lent.len()) }
            }

            pub fn read(bytes: &[u8]) -> u64 {
                unsafe { $read(bytes.as_ptr(), bytes.len()) }
            }

            pub fn count(input: &[u8]) -> [u64; 9] {
                let mut counts = [0; 9];
                unsafe { $count(input.as_ptr(), input.len(), &mut counts) };
                counts
            }
        }
    };
}

calls_without_a_link!(now: sarnaqel_build, sarnaqel_read, sarnaqel_count);
#[cfg(feature = "before")]
calls_without_a_link!(before: before_sarnaqel_build, before_sarnaqel_read, before_sarnaqel_count);

/// The calls of a link in one of its ways: they differ only in their names.
macro_rules! calls_of_a_link {
    ($way:ident: $runs:ident, $bytes:ident, $ticks:ident) => {
        #[rustfmt::skip]
        pub mod $way {
            use crate::ways::Ready;

            extern "C" {
                fn $runs(asks: bool, parameters: *const u8, parameters_size: usize, heard: *const u8, heard_size: usize, input: *const u8, input_size: usize, most: usize, line: *mut u8, line_size: usize, up: *mut u8, up_size: usize) -> u64;
                fn $bytes(asks: bool, parameters: *const u8, parameters_size: usize, heard: *const u8, heard_size: usize, input: *const u8, input_size: usize, line: *mut u8, line_size: usize, up: *mut u8, up_size: usize) -> u64;
                fn $ticks(asks: bool, parameters: *const u8, parameters_size: usize, heard: *const u8, heard_size: usize, n: u64, line: *mut u8, line_size: usize, up: *mut u8, up_size: usize) -> u64;
            }

            pub fn runs(ready: Ready, input: &[u8], most: usize, line: &mut [u8], up: &mut [u8]) -> u64 {
                let Ready { asks, parameters, heard } = ready;
                unsafe {
                    $runs(asks, parameters.as_ptr(), parameters.len(), heard.as_ptr(), heard.len(), input.as_ptr(), input.len(), most, line.as_mut_ptr(), line.len(), up.as_mut_ptr(), up.len())
                }
            }

            pub fn bytes(ready: Ready, input: &[u8], line: &mut [u8], up: &mut [u8]) -> u64 {
                let Ready { asks, parameters, heard } = ready;
                unsafe {
                    $bytes(asks, parameters.as_ptr(), parameters.len(), heard.as_ptr(), heard.len(), input.as_ptr(), input.len(), line.as_mut_ptr(), line.len(), up.as_mut_ptr(), up.len())
                }
            }

            pub fn ticks(ready: Ready, n: u64, line: &mut [u8], up: &mut [u8]) -> u64 {
                let Ready { asks, parameters, heard } = ready;
                unsafe {
                    $ticks(asks, parameters.as_ptr(), parameters.len(), heard.as_ptr(), heard.len(), n, line.as_mut_ptr(), line.len(), up.as_mut_ptr(), up.len())
                }
            }
        }
    };
}

calls_of_a_link!(in_place: sarnaqel_runs, sarnaqel_bytes, sarnaqel_ticks);
calls_of_a_link!(by_value: sarnaqel_by_value_runs, sarnaqel_by_value_bytes, sarnaqel_by_value_ticks);
#[cfg(feature = "before-in-place")]
calls_of_a_link!(in_place_before: before_sarnaqel_runs, before_sarnaqel_bytes, before_sarnaqel_ticks);
#[cfg(feature = "before")]
calls_of_a_link!(by_value_before: before_sarnaqel_by_value_runs, before_sarnaqel_by_value_bytes, before_sarnaqel_by_value_ticks);
