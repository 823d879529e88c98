//! Which blocks of the library's machine code have run. The library is taken as it ships, so nothing in it counts; instead the first byte of each
//! block is replaced by a breakpoint. When one is met it is taken away for good, and a counter tells libFuzzer that the input reached something
//! new. After a while hardly any are met, and the library runs at its full speed.

use std::ffi::{c_char, c_int, c_void, CString};
use std::sync::atomic::{AtomicBool, AtomicU8, AtomicUsize, Ordering::Relaxed};

/// More blocks than the library has.
const MOST: usize = 16_384;
const BREAKPOINT: u8 = 0xcc;
const PAGE: usize = 4096;

/// libFuzzer sets these to zero before each input and looks at them afterwards.
#[used]
#[link_section = "__libfuzzer_extra_counters"]
static MET: [AtomicU8; MOST] = [const { AtomicU8::new(0) }; MOST];

/// The address of each block, ascending, and the byte that stood there.
static PLACES: [AtomicUsize; MOST] = [const { AtomicUsize::new(0) }; MOST];
static BYTES: [AtomicU8; MOST] = [const { AtomicU8::new(0) }; MOST];
static EVER_MET: [AtomicBool; MOST] = [const { AtomicBool::new(false) }; MOST];
static COUNT: AtomicUsize = AtomicUsize::new(0);

const RTLD_NOW: c_int = 2;
const SIGTRAP: c_int = 5;
const SA_SIGINFO: c_int = 4;
const READ_WRITE_RUN: c_int = 7;

/// Where the kernel keeps the address of the next instruction, in words from the start of a `ucontext_t` on x86-64.
const NEXT_INSTRUCTION: usize = 21;

/// `struct sigaction` on x86-64 Linux with glibc.
#[repr(C)]
struct Action {
    handler: extern "C" fn(c_int, *mut c_void, *mut usize),
    mask: [u64; 16],
    flags: c_int,
    restorer: usize,
}

extern "C" {
    fn dlopen(filename: *const c_char, flag: c_int) -> *mut c_void;
    fn dlsym(handle: *mut c_void, symbol: *const c_char) -> *mut c_void;
    fn mprotect(address: *mut c_void, length: usize, protection: c_int) -> c_int;
    fn sigaction(signal: c_int, new: *const Action, old: *mut Action) -> c_int;
}

/// Sets a breakpoint at each of the places, which are told as `fuzz/blocks` prints them.
pub fn watch(library: &str, places: &str) -> Result<(), String> {
    let anchor = address_of_check(library)?;
    let offsets: Vec<isize> = places.lines().map(|line| line.parse().map_err(|_| format!("{line} is no place"))).collect::<Result<_, _>>()?;
    if offsets.len() > MOST {
        return Err(format!("{} blocks are more than {MOST}", offsets.len()));
    }
    let action = Action { handler: on_breakpoint, mask: [0; 16], flags: SA_SIGINFO, restorer: 0 };
    // SAFETY: the handler touches only the tables here and the places in them.
    if unsafe { sigaction(SIGTRAP, &action, std::ptr::null_mut()) } != 0 {
        return Err("breakpoints cannot be handled".to_string());
    }
    for (block, offset) in offsets.iter().enumerate() {
        let place = anchor.wrapping_add_signed(*offset);
        let page = (place / PAGE * PAGE) as *mut c_void;
        // SAFETY: the place is the first byte of an instruction of the library, as objdump lists it; its page is opened for writing first.
        unsafe {
            if mprotect(page, PAGE, READ_WRITE_RUN) != 0 {
                return Err("the library's code cannot be written to".to_string());
            }
            BYTES[block].store(*(place as *const u8), Relaxed);
            *(place as *mut u8) = BREAKPOINT;
        }
        PLACES[block].store(place, Relaxed);
    }
    COUNT.store(offsets.len(), Relaxed);
    Ok(())
}

/// How many blocks there are, and those that have not run, by their places after `dmp_check`.
pub fn not_reached(library: &str) -> (usize, Vec<isize>) {
    let count = COUNT.load(Relaxed);
    let anchor = address_of_check(library).unwrap_or(0);
    let unmet = (0..count).filter(|&block| !EVER_MET[block].load(Relaxed));
    (count, unmet.map(|block| PLACES[block].load(Relaxed).wrapping_sub(anchor) as isize).collect())
}

fn address_of_check(library: &str) -> Result<usize, String> {
    let path = CString::new(library).map_err(|error| error.to_string())?;
    // SAFETY: both names are strings with a final zero; a null handle is not used.
    let address = unsafe {
        match dlopen(path.as_ptr(), RTLD_NOW) {
            handle if handle.is_null() => handle,
            handle => dlsym(handle, c"dmp_check".as_ptr()),
        }
    };
    match address.is_null() {
        true => Err("there is no dmp_check".to_string()),
        false => Ok(address as usize),
    }
}

/// Runs between two instructions of the library, so it only reads and writes the tables.
extern "C" fn on_breakpoint(_: c_int, _: *mut c_void, context: *mut usize) {
    // SAFETY: the kernel hands over a ucontext_t; the byte is put back where it was taken from.
    unsafe {
        let next = context.add(NEXT_INSTRUCTION);
        let place = *next - 1;
        let found = PLACES[..COUNT.load(Relaxed)].binary_search_by_key(&place, |known| known.load(Relaxed));
        let Ok(block) = found else {
            std::process::abort();
        };
        *(place as *mut u8) = BYTES[block].load(Relaxed);
        *next = place;
        MET[block].store(1, Relaxed);
        EVER_MET[block].store(true, Relaxed);
    }
}
