//! The second program behind the calls of `include/composthum.h`, so that it can be measured in the same rounds as the library.

use second::comparison::{boxed_answer, checked_answer, found_answer, migrated_answer};
use second::foreign::{DmpBoxed, DmpChecked, DmpFound, DmpMigrated};
use std::slice::{from_raw_parts, from_raw_parts_mut};

/// # Safety
/// As `include/composthum.h` says, for this and the other calls.
#[no_mangle]
pub unsafe extern "C" fn dmp_check(image: *const u8, image_len: usize) -> DmpChecked {
    checked_answer(second::check(from_raw_parts(image, image_len)))
}

/// # Safety
/// See `dmp_check`.
#[no_mangle]
pub unsafe extern "C" fn dmp_lookup(image: *const u8, image_len: usize, dimension: u8, number: u32) -> DmpFound {
    found_answer(second::lookup(from_raw_parts(image, image_len), dimension, number))
}

/// # Safety
/// See `dmp_check`.
#[no_mangle]
pub unsafe extern "C" fn dmp_box(image: *const u8, image_len: usize, part: u32) -> DmpBoxed {
    boxed_answer(second::boxed(from_raw_parts(image, image_len), part))
}

/// # Safety
/// See `dmp_check`.
#[no_mangle]
pub unsafe extern "C" fn dmp_migrate(
    image: *const u8,
    image_len: usize,
    list: *const u8,
    list_len: usize,
    out: *mut u8,
    out_len: usize,
    work: *mut u64,
    work_words: usize,
) -> DmpMigrated {
    let answer = second::migrate(from_raw_parts(image, image_len), from_raw_parts(list, list_len), out_len, work_words);
    if let Ok(migrated) = &answer {
        from_raw_parts_mut(out, migrated.image.len()).copy_from_slice(&migrated.image);
    }
    from_raw_parts_mut(work, work_words).fill(0);
    migrated_answer(&answer)
}
