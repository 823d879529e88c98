//! The C calls of `include/composthum.h`, as they are declared there.

#[repr(C)]
pub struct Checked {
    pub refusal: u32,
    pub major: u32,
    pub minor: u32,
    pub parts: u32,
    pub rows: u32,
}

#[repr(C)]
pub struct Migrated {
    pub refusal: u32,
    pub major: u32,
    pub minor: u32,
    pub length: u32,
    pub rows: u32,
    pub moved: u32,
}

#[repr(C)]
pub struct Found {
    pub refusal: u32,
    pub major: u32,
    pub minor: u32,
    pub owner: u32,
    pub residence: u64,
}

#[repr(C)]
pub struct Boxed {
    pub refusal: u32,
    pub major: u32,
    pub minor: u32,
    pub any: u32,
    pub least: [f64; 3],
    pub greatest: [f64; 3],
}

extern "C" {
    pub fn dmp_check(image: *const u8, image_len: usize) -> Checked;
    pub fn dmp_migrate(
        image: *const u8,
        image_len: usize,
        list: *const u8,
        list_len: usize,
        out: *mut u8,
        out_len: usize,
        work: *mut u64,
        work_words: usize,
    ) -> Migrated;
    pub fn dmp_lookup(image: *const u8, image_len: usize, dimension: u8, number: u32) -> Found;
    pub fn dmp_box(image: *const u8, image_len: usize, part: u32) -> Boxed;
}
