//! The library under comparison: a shared object with the four calls of the C interface.

use std::ffi::{c_char, c_int, c_void, CStr, CString};

const RTLD_NOW: c_int = 2;

extern "C" {
    fn dlopen(filename: *const c_char, flag: c_int) -> *mut c_void;
    fn dlsym(handle: *mut c_void, symbol: *const c_char) -> *mut c_void;
    fn dlerror() -> *const c_char;
}

#[repr(C)]
#[derive(Clone, Copy, Debug, Default, PartialEq)]
pub struct DmpChecked {
    pub refusal: u32,
    pub major: u32,
    pub minor: u32,
    pub parts: u32,
    pub rows: u32,
}

#[repr(C)]
#[derive(Clone, Copy, Debug, Default, PartialEq)]
pub struct DmpMigrated {
    pub refusal: u32,
    pub major: u32,
    pub minor: u32,
    pub length: u32,
    pub rows: u32,
    pub moved: u32,
}

#[repr(C)]
#[derive(Clone, Copy, Debug, Default, PartialEq)]
pub struct DmpFound {
    pub refusal: u32,
    pub major: u32,
    pub minor: u32,
    pub owner: u32,
    pub residence: u64,
}

/// The coordinates are doubles in C; here they are their bits, so that minus zero is not zero.
#[repr(C)]
#[derive(Clone, Copy, Debug, Default, PartialEq)]
pub struct DmpBoxed {
    pub refusal: u32,
    pub major: u32,
    pub minor: u32,
    pub any: u32,
    pub least: [u64; 3],
    pub greatest: [u64; 3],
}

type CheckCall = unsafe extern "C" fn(*const u8, usize) -> DmpChecked;
type MigrateCall = unsafe extern "C" fn(
    *const u8,
    usize,
    *const u8,
    usize,
    *mut u8,
    usize,
    *mut u64,
    usize,
) -> DmpMigrated;
type LookupCall = unsafe extern "C" fn(*const u8, usize, u8, u32) -> DmpFound;
type BoxCall = unsafe extern "C" fn(*const u8, usize, u32) -> DmpBoxed;

pub struct Library {
    check: CheckCall,
    migrate: MigrateCall,
    lookup: LookupCall,
    boxed: BoxCall,
}

impl Library {
    /// Opens the shared object and finds its four calls.
    pub fn open(path: &str) -> Result<Library, String> {
        let path = CString::new(path).map_err(|e| e.to_string())?;
        // SAFETY: the path is a string with a final zero; a null handle is looked at before use.
        let handle = unsafe { dlopen(path.as_ptr(), RTLD_NOW) };
        if handle.is_null() {
            return Err(last_error());
        }
        // SAFETY: the four symbols have these types by the C interface that we compare.
        unsafe {
            Ok(Library {
                check: std::mem::transmute::<*mut c_void, CheckCall>(symbol(handle, c"dmp_check")?),
                migrate: std::mem::transmute::<*mut c_void, MigrateCall>(symbol(
                    handle,
                    c"dmp_migrate",
                )?),
                lookup: std::mem::transmute::<*mut c_void, LookupCall>(symbol(
                    handle,
                    c"dmp_lookup",
                )?),
                boxed: std::mem::transmute::<*mut c_void, BoxCall>(symbol(handle, c"dmp_box")?),
            })
        }
    }

    pub fn check(&self, image: &[u8]) -> DmpChecked {
        // SAFETY: pointer and length are those of one slice.
        unsafe { (self.check)(image.as_ptr(), image.len()) }
    }

    pub fn migrate(
        &self,
        image: &[u8],
        list: &[u8],
        out: &mut [u8],
        work: &mut [u64],
    ) -> DmpMigrated {
        // SAFETY: each pointer and its length are those of one slice, and the slices don't overlap.
        unsafe {
            (self.migrate)(
                image.as_ptr(),
                image.len(),
                list.as_ptr(),
                list.len(),
                out.as_mut_ptr(),
                out.len(),
                work.as_mut_ptr(),
                work.len(),
            )
        }
    }

    pub fn lookup(&self, image: &[u8], dimension: u8, number: u32) -> DmpFound {
        // SAFETY: pointer and length are those of one slice.
        unsafe { (self.lookup)(image.as_ptr(), image.len(), dimension, number) }
    }

    pub fn boxed(&self, image: &[u8], part: u32) -> DmpBoxed {
        // SAFETY: pointer and length are those of one slice.
        unsafe { (self.boxed)(image.as_ptr(), image.len(), part) }
    }
}

/// The address of a symbol, or why there is none.
unsafe fn symbol(handle: *mut c_void, name: &CStr) -> Result<*mut c_void, String> {
    let address = dlsym(handle, name.as_ptr());
    match address.is_null() {
        true => Err(last_error()),
        false => Ok(address),
    }
}

fn last_error() -> String {
    // SAFETY: dlerror gives null or a string that stays until the next call.
    unsafe {
        let message = dlerror();
        match message.is_null() {
            true => "unknown error of the loader".to_string(),
            false => CStr::from_ptr(message).to_string_lossy().into_owned(),
        }
    }
}
